"""The modules of tools/unproved: a program without a proof, compiled whole or as a patch of the last whole one.

A whole compilation (compiling.py) keeps its objects beside the program, with a record of the sources that they were
made of (kept.py). If only bodies of functions changed since then, these functions alone are compiled and linked over
them:

1. What changed. The record has a digest of each file without the bodies on which nothing outside them depends, and
   one of each such body (stubs.py). A body with a closure or an item of its own is none of these, nor is a
   `const fn`, a method in a trait, or a file with a macro. Comments do not count. If anything else changed, or
   another file, the kit, or the tool, all is compiled.
2. What is read. Copies of all sources, the kit's too, in which a body is `loop {}`, without the clauses of such
   functions, and without those that nothing names. Three kinds of bodies stay whole: those that changed; those on a
   shortest path from `main` to each of them, since the kit compiles only what `main` reaches (reach.py); and those
   with a name that a changed body calls.
3. What is linked (patch.py). Of the new object the functions that changed, of the kept objects all others. Small
   functions are put into their callers, but no function that may be patched is. So the kept objects are of two kinds:
   `fast`, which the whole program is linked from, and `plain`, which also have the functions that are only in their
   callers.

A stub is never linked: of the new object nothing is defined but what was read whole, so whatever a changed body
calls must be in a kept object. If it is not, since nothing called it for these types before, it is taken of the new
object if its body was read whole; otherwise the sources are read again with that body and those of what it calls. A
function that was read whole and did not change must be the same, byte by byte, as in the kept objects. If something
is missing or differs, all is compiled, and a line says why. A static that can be written, of which there would be
two, is refused; the program has none."""
