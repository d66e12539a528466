"""Object files for tests: a section for each function or static, and relocations for what it names."""
import struct

from lib.unproved.objects import HEADER, RELOCATION, SECTION, SYMBOL


def texts_of(names: list[str]) -> tuple[bytes, dict[str, int]]:
    data, places = b"\0", {"": 0}
    for name in names:
        if name not in places:
            places[name] = len(data)
            data += name.encode() + b"\0"
    return data, places


def made_object(
    parts: dict[str, list[str]], writable: str = "", together: tuple[str, ...] = (), hidden: int = 0
) -> bytes:
    """An object that defines some functions, each with the names that are in it; "." stands for a section that has no
    name, itself names `hidden`, and has some constants together."""
    named = sorted({name for names in parts.values() for name in names} | {"hidden"})
    # the section of each symbol, and what the sections hold: title, kind, flags, content, link, info
    sections: list[tuple[str, int, int, bytes, int, int]] = [("", 0, 0, b"", 0, 0)]
    homes = {".": 1, **{name: 1 for name in together}}
    sections.append((".rodata.cst", 1, 2, bytes(8), 0, 0))
    for name in parts:
        homes[name] = len(sections)
        sections.append((f".text.{name}", 1, 6, bytes(16), 0, 0))
    if writable:
        sections.append((writable, 1, 3, bytes(8), 0, 0))
    symbols = [name for name in dict.fromkeys([*parts, *named, *together]) if name != "."]
    number = {".": 1, **{name: at + 2 for at, name in enumerate(symbols)}}
    table_at = len(sections) + len(parts) + 1
    for name, names in {".": ["hidden"], **parts}.items():
        content = b"".join(RELOCATION.pack(4 * at, number[it] << 32 | 4, -4) for at, it in enumerate(names))
        sections.append((f".rela{sections[homes[name]][0]}", 4, 0, content, table_at, homes[name]))
    data, places = texts_of(symbols)
    # (the second is a section, or a function that is local)
    table = SYMBOL.pack(0, 0, 0, 0, 0, 0) + SYMBOL.pack(0, hidden or 3, 0, 1, 0, 0)
    for name in symbols:
        table += SYMBOL.pack(places[name], 0x12 if name in homes else 0x10, 2, homes.get(name, 0), 0, 0)
    sections.append((".symtab", 2, 0, table, table_at + 1, 2))
    sections.append((".strtab", 3, 0, data, 0, 0))
    titles, title_at = texts_of([title for title, *_ in sections] + [".shstrtab"])
    sections.append((".shstrtab", 3, 0, titles, 0, 0))
    body, rows = b"", b""
    for title, kind, flags, content, link, info in sections:
        rows += SECTION.pack(
            title_at[title], kind, flags, 0, HEADER.size + len(body), len(content), link, info, 1,
            {2: SYMBOL.size, 4: RELOCATION.size}.get(kind, 0),
        )
        body += content
    header = HEADER.pack(
        b"\x7fELF\x02\x01\x01" + bytes(9), 1, 62, 1, 0, 0, HEADER.size + len(body), 0, HEADER.size, 0, 0, SECTION.size,
        len(sections), len(sections) - 1,
    )
    return header + body + rows
