"""The functions of an object file (ELF for x86-64, a section for each function, as the linker makes it of a module):
which others each names, and the file with some of them taken out."""
import struct
from typing import Callable

HEADER = struct.Struct("<16sHHIQQQIHHHHHH")
SECTION = struct.Struct("<IIQQQQIIQQ")
SYMBOL = struct.Struct("<IBBHQQ")
RELOCATION = struct.Struct("<QQq")
SYMBOLS, RELOCATIONS = 2, 4
WRITABLE = 1
# a symbol that stands for a section
OF_SECTION = 3
# a function that is local to its file
HIDDEN = 2
# sections from this number on need another table
BEYOND = 0xFF00
# What may be written before the program starts, and never after that.
FIXED = ".data.rel.ro"


class Unreadable(Exception):
    """An object file that is not laid out as these are."""


class Object:
    def __init__(self, data: bytes) -> None:
        self.data = bytearray(data)
        try:
            self.read()
        except (struct.error, IndexError, ValueError) as failed:
            raise Unreadable(f"an object file cannot be read: {failed}") from failed

    def read(self) -> None:
        header = HEADER.unpack_from(self.data)
        if header[0][:6] != b"\x7fELF\x02\x01" or header[1:3] != (1, 62):
            raise Unreadable("no object file for x86-64")
        self.table, count, names = header[6], header[12], header[13]
        self.sections = [SECTION.unpack_from(self.data, self.table + at * SECTION.size) for at in range(count)]
        self.titles = [self.text(self.sections[names], section[0]) for section in self.sections]
        (self.symbols_at,) = [at for at, section in enumerate(self.sections) if section[1] == SYMBOLS]
        table = self.sections[self.symbols_at]
        self.symbols = list(SYMBOL.iter_unpack(self.held(table)))
        texts = self.sections[table[6]]
        self.names = [self.text(texts, symbol[0]) for symbol in self.symbols]
        if count >= BEYOND or any(BEYOND <= symbol[3] < 0xFFF1 for symbol in self.symbols):
            raise Unreadable("an object file has more sections than can be read here")
        # the relocations of each section
        self.fixed = {section[7]: section for section in self.sections if section[1] == RELOCATIONS}
        # the sections of the global symbols that are defined here
        self.homes = {
            name: symbol[3]
            for name, symbol in zip(self.names, self.symbols) if symbol[1] >> 4 and 0 < symbol[3] < BEYOND
        }

    def text(self, texts: tuple[int, ...], at: int) -> str:
        begin = texts[4] + at
        return self.data[begin : self.data.index(0, begin)].decode()

    def is_writable(self) -> bool:
        """Whether the program can write to some of it, so that there must not be two."""
        return any(
            section[2] & WRITABLE and section[5] and not title.startswith(FIXED)
            for title, section in zip(self.titles, self.sections)
        )

    def has_hidden(self) -> bool:
        """Whether it has a function that no other object can replace."""
        return any(symbol[1] == HIDDEN for symbol in self.symbols)

    def defined(self) -> set[str]:
        return set(self.homes)

    def references(self) -> dict[str, set[str]]:
        """The symbols that each function and each static names, those by way of a section without a name too."""
        named = {
            home: {info >> 32 for _, info, _ in RELOCATION.iter_unpack(self.held(section))}
            for home, section in self.fixed.items()
        }
        found = {}
        for name, home in self.homes.items():
            found[name] = set()
            waiting, seen = [home], {home}
            while waiting:
                for at in named.get(waiting.pop(), ()):
                    if self.symbols[at][1] >> 4:
                        found[name].add(self.names[at])
                    elif self.symbols[at][3] not in seen:
                        seen.add(self.symbols[at][3])
                        waiting.append(self.symbols[at][3])
        return found

    def likeness(self, name: str, is_numbered: Callable[[str], bool]) -> tuple[object, ...]:
        """A function as it is in any object: its bytes, and what is put where in them; of what modules number, only
        that it is something so."""
        home = self.homes[name]
        found = []
        for place, info, added in RELOCATION.iter_unpack(self.held(self.fixed.get(home))):
            named = self.names[info >> 32] if self.symbols[info >> 32][1] >> 4 else ""
            is_any = not named or is_numbered(named)
            found.append((place, info & 0xFFFFFFFF, 0 if is_any else added, "" if is_any else named))
        return self.held(self.sections[home]), tuple(found)

    def held(self, section: tuple[int, ...] | None) -> bytes:
        return bytes(self.data[section[4] : section[4] + section[5]]) if section else b""

    def changed(self, out: set[str], renamed: dict[str, str]) -> bytes:
        """The file in which some symbols are not defined, so that the linker must find each that is named in another
        file, and some have other names."""
        data = bytearray(self.data)
        # (constants share a section, which stays as long as one of them does)
        gone = {self.homes[name] for name in out} - {
            symbol[3]
            for name, symbol in zip(self.names, self.symbols) if symbol[1] & 15 != OF_SECTION and name not in out
        }
        begin, texts_at = self.sections[self.symbols_at][4], self.sections[self.symbols_at][6]
        texts = self.sections[texts_at]
        added = bytearray(self.data[texts[4] : texts[4] + texts[5]])
        for at, (name, symbol) in enumerate(zip(self.names, self.symbols)):
            place = begin + at * SYMBOL.size
            if name in renamed and symbol[1] >> 4:
                symbol = (len(added), *symbol[1:])
                added += renamed[name].encode() + b"\0"
                SYMBOL.pack_into(data, place, *symbol)
            if name in out and symbol[1] >> 4:
                SYMBOL.pack_into(data, place, symbol[0], 1 << 4, symbol[2], 0, 0, 0)
        for at, section in enumerate(self.sections):
            if at in gone or section[1] == RELOCATIONS and section[7] in gone:
                SECTION.pack_into(data, self.table + at * SECTION.size, section[0], 0, 0, 0, section[4], 0, 0, 0, 1, 0)
        SECTION.pack_into(
            data, self.table + texts_at * SECTION.size, *texts[:4], len(data), len(added), *texts[6:]
        )
        return bytes(data + added)
