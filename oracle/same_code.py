#!/usr/bin/env python3
"""Whether two objects (ELF, 64 bits, little-endian) have the same code and constants: the same sections of that kind, each with the same
bytes and the same references. Symbol tables, and what a linker only looks at, are not compared.

    same_code.py ONE.o OTHER.o
"""
import struct
import sys


def text_at(table, at):
    return table[at:table.index(b'\0', at)].decode()


def code(path):
    """Of each section that is loaded, by its name: its bytes and references. A reference into a section is by name and distance."""
    with open(path, 'rb') as file:
        data = file.read()
    if data[:6] != b'\x7fELF\x02\x01':
        sys.exit(f'same_code.py: {path} is no such object')
    table, = struct.unpack_from('<Q', data, 40)
    size, count, names_at = struct.unpack_from('<HHH', data, 58)
    heads = [struct.unpack_from('<IIQQQQIIQQ', data, table + size * at) for at in range(count)]
    held = [data[head[4]:head[4] + head[5]] if head[1] != 8 else b'' for head in heads]
    names = [text_at(held[names_at], head[0]) for head in heads]
    loaded = {names[at]: (held[at], []) for at, head in enumerate(heads) if head[2] & 2 and not names[at].startswith('.note')}
    if len(loaded) != sum(1 for at, head in enumerate(heads) if head[2] & 2 and not names[at].startswith('.note')):
        sys.exit(f'same_code.py: {path} has two sections of one name')
    for at, head in enumerate(heads):
        if head[1] != 4 or names[head[7]] not in loaded:
            continue
        symbols, strings = held[head[6]], held[heads[head[6]][6]]
        for place, info, more in struct.iter_unpack('<QQq', held[at]):
            name, kind, _, section, value, _ = struct.unpack_from('<IBBHQQ', symbols, 24 * (info >> 32))
            to = (names[section], value + more) if kind & 15 == 3 or (kind >> 4 == 0 and section) else (text_at(strings, name), more)
            loaded[names[head[7]]][1].append((place, info & 0xffffffff, to))
    return {name: (held_bytes, sorted(found)) for name, (held_bytes, found) in loaded.items() if held_bytes}


def main():
    if len(sys.argv) != 3:
        sys.exit(__doc__)
    one, other = code(sys.argv[1]), code(sys.argv[2])
    differ = [name for name in sorted(one.keys() | other.keys()) if one.get(name) != other.get(name)]
    for name in differ:
        print(f'same_code.py: section {name} differs, or is in one of them alone')
    return len(differ) > 0


sys.exit(main())
