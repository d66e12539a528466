"""What SQLite reads of a log: the pages that were committed, up to the first one that is not whole. The form is that of
the file format of SQLite, "the write-ahead log"."""
import struct

HEADER, FRAME = 32, 24
MAGIC = {0x377f0682: "<", 0x377f0683: ">"}  # by it the checksums are of numbers of one order of bytes or the other
Sums = tuple[int, int]


def summed(data: bytes, order: str, before: Sums = (0, 0)) -> Sums:
    one, other = before
    for first, second in struct.iter_unpack(f"{order}II", data):
        one = (one + first + other) & 0xffffffff
        other = (other + second + one) & 0xffffffff
    return one, other


def without_salts(data: bytes) -> bytes:
    """A log in which its random salts, and the sums over them, are replaced by whether they are right: two logs that
    come to the same are the same but for these numbers. From the first sum on that is wrong, it stays as it is. (The
    first byte is the last that an opening writes.)"""
    if len(data) < HEADER:
        return data
    magic, _, size = struct.unpack(">III", b"7" + data[1:12])
    order, salts, sums = MAGIC.get(magic), data[16:24], struct.unpack(">II", data[24:32])
    if order is None or size == 0 or summed(b"7" + data[1:24], order) != sums:
        return data
    found = [b"right", data[:16]]
    for at in range(HEADER, len(data), FRAME + size):
        head, page = data[at:at + FRAME], data[at + FRAME:at + FRAME + size]
        if len(page) == size and size % 8 == 0:
            sums = summed(head[:8] + page, order, sums)
        if len(page) < size or head[8:16] != salts or struct.unpack(">II", head[16:24]) != sums:
            return b"".join([*found, b"wrong", data[at:]])
        found += [b"right", head[:8], page]
    return b"".join(found)


def pages(data: bytes) -> list[bytes]:
    """The committed pages of a log in the order in which they were written, each with its number before it."""
    if len(data) < HEADER:
        return []
    magic, version, size = struct.unpack(">III", data[:12])
    order, salts, sums = MAGIC.get(magic), data[16:24], struct.unpack(">II", data[24:32])
    is_size = 512 <= size <= 65_536 and size & (size - 1) == 0
    if order is None or version != 3_007_000 or not is_size or summed(data[:24], order) != sums:
        return []
    found, committed = [], 0
    for at in range(HEADER, len(data) - FRAME - size + 1, FRAME + size):
        head, page = data[at:at + FRAME], data[at + FRAME:at + FRAME + size]
        sums = summed(head[:8] + page, order, sums)
        if head[8:16] != salts or struct.unpack(">II", head[16:24]) != sums or head[:4] == b"\0\0\0\0":
            break
        found.append(head[:4] + page)
        if head[4:8] != b"\0\0\0\0":
            committed = len(found)
    return found[:committed]
