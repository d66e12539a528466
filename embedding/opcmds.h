/* Policy questions, answered by the proved code of opcmds.
 *
 * A question is the words of `opcmds explain`, `who`, `check`, `may`, `diff` or `sheet`, without the program's name and
 * with a NUL between each two, as in "explain\0--user\0ANNA\0--command\0C PAYROLL"; its length does not count the NUL
 * that ends a string of C. It has at most 65,536 bytes.
 *
 * No file is opened and nothing is printed. The policy is the text that is passed, at most 16,777,216 bytes, as of a
 * policy file: a question that names a file or a database is refused. `diff` compares two texts: its words name both
 * policies, as in "diff\0old.csv\0new.csv", for the messages alone; `policy` is the old one, and `new_policy` the new
 * one. To any other question `new_policy` is not read: pass 0 bytes.
 *
 * The status is the one that the program would end with:
 *   0  done: allowed, undecided, or nothing is wrong or differs
 *   1  refused: denied, notes on the policy, or rows that differ
 *   2  the question or a policy is invalid
 *   3  out of memory: what would be written may not be whole
 * What the program would write is put into `output` and `errors`, as much as there is room for, without a NUL at its
 * end. `lengths` gets how long both are in full: if one is more than its room, call again with more. Nothing is
 * written past a room.
 *
 * What a caller owes, and nothing tests:
 *   - No pointer is null, not even one to 0 bytes, and each has the bytes that its length says, below 2^63.
 *   - What a call writes (`output`, `errors`, `lengths`) overlaps nothing else that it is passed, and nothing else
 *     touches it until the call returns. What it only reads may be shared.
 *
 * A policy that is asked many times can be kept: `opcmds_keep` copies its text and reads it once, `opcmds_ask_kept`
 * answers as `opcmds_ask` does by that text, and `opcmds_free` frees what was kept. `explain` and `who` are then
 * answered without reading the text, unless they have no answer; the other questions read it anew. What is kept is an
 * `opcmds_kept` of the caller's, which keeps nothing if it is `{0}`: begin with that. Nobody but these three functions
 * writes it, and no copy of it is passed to them, or what it keeps is freed twice.
 *
 * Threads: calls may run side by side in any threads, if each has an `opcmds_kept` of its own, or none. One
 * `opcmds_kept` is passed to one call at a time, in any thread; between the calls of two threads stands a lock, or the
 * start or the end of a thread. The library itself keeps nothing from call to call, starts no thread and takes no lock.
 * It is not for a signal handler, and not for the forked child of a process with threads. It calls malloc, realloc and
 * free, which have to return blocks aligned to 16, and memcpy, memmove and memset. Give a thread that asks 512 KB of
 * stack. */
#ifndef OPCMDS_H
#define OPCMDS_H

#include <stddef.h>
#include <stdint.h>

#ifdef __cplusplus
extern "C" {
#endif

typedef struct opcmds_lengths {
    size_t output, errors;
} opcmds_lengths;

uint32_t opcmds_ask(const uint8_t *policy, size_t policy_length, const uint8_t *new_policy, size_t new_length,
                    const uint8_t *question, size_t question_length, uint8_t *output, size_t output_room,
                    uint8_t *errors, size_t errors_room, opcmds_lengths *lengths);

/* A policy that is kept; none, if it is {0}. */
typedef struct opcmds_kept {
    void *at;
} opcmds_kept;

/* Keeps a policy in the place of what is kept. The status is 0; or 3 if there is no memory, and then nothing is kept. A
 * text that is no policy is kept as well: a question says what is wrong with it. */
uint32_t opcmds_keep(const uint8_t *policy, size_t policy_length, opcmds_kept *kept);

/* What opcmds_ask answers by the policy that is kept; if none is, by a text of 0 bytes. */
uint32_t opcmds_ask_kept(opcmds_kept *kept, const uint8_t *new_policy, size_t new_length, const uint8_t *question,
                         size_t question_length, uint8_t *output, size_t output_room, uint8_t *errors,
                         size_t errors_room, opcmds_lengths *lengths);

/* Frees what is kept; then nothing is kept. */
void opcmds_free(opcmds_kept *kept);

#ifdef __cplusplus
}
#endif

#endif
