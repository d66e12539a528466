"""Bytes as the tables of examples/ write them."""
import re

NAMED = {b"r": b"\r", b"n": b"\n", b"t": b"\t"}
REPEATED = re.compile(r"\\\[(\d+) ([^]]*)\]")


def unescaped(text: str) -> bytes:
    r"""The bytes of a text: \r, \n and \t stand for their characters, \x and two digits for a byte, and \[COUNT TEXT]
    for a text this many times, which may have escapes itself."""
    plain, *more = REPEATED.split(text)
    found = [without_escapes(plain)]
    for count, repeated, rest in zip(more[::3], more[1::3], more[2::3]):
        found += [without_escapes(repeated) * int(count), without_escapes(rest)]
    return b"".join(found)


def without_escapes(text: str) -> bytes:
    return re.sub(rb"\\(?:x(..)|([rnt]))", byte_of, text.encode(errors="surrogateescape"))


def byte_of(found: re.Match[bytes]) -> bytes:
    return bytes.fromhex(found[1].decode()) if found[1] else NAMED[found[2]]
