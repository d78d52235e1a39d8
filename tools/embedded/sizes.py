#!/usr/bin/env python3
"""sizes.py LINKER OBJECT..: for each exported call the bytes of code and constants that it reaches, the bytes of writable data, and what it asks of the linker."""
import struct
import subprocess
import sys
import tempfile


def table(data):
    """The sections (name, type, flags, offset, size, link, entry size) of an ELF file of either width, little-endian."""
    wide = data[4] == 2
    if wide:
        at, = struct.unpack_from('<Q', data, 40)
        size, count, names = struct.unpack_from('<HHH', data, 58)
        form = '<IIQQQQIIQQ'
    else:
        at, = struct.unpack_from('<I', data, 32)
        size, count, names = struct.unpack_from('<HHH', data, 46)
        form = '<IIIIIIIIII'
    rows = [struct.unpack_from(form, data, at + i * size) for i in range(count)]
    text = data[rows[names][4]:]
    return [(text[r[0]:text.index(b'\0', r[0])].decode(), r[1], r[2], r[4], r[5], r[6], r[9]) for r in rows]


def symbols(data):
    """(name, whether it is defined, whether it is global) of each symbol."""
    sections = table(data)
    found = []
    for _, kind, _, offset, size, link, entry in sections:
        if kind != 2:
            continue
        text = data[sections[link][3]:]
        for at in range(offset, offset + size, entry):
            name, = struct.unpack_from('<I', data, at)
            info, where = (data[at + 4], struct.unpack_from('<H', data, at + 6)[0]) if entry == 24 else (data[at + 12], struct.unpack_from('<H', data, at + 14)[0])
            found.append((text[name:text.index(b'\0', name)].decode(), where != 0, info >> 4 != 0))
    return found


def main(linker, objects):
    calls, asked = [], set()
    for path in objects:
        for name, defined, wide in symbols(open(path, 'rb').read()):
            if wide and defined and name.startswith('orohkaril_'):
                calls.append(name)
            if wide and not defined and name:
                asked.add(name)
    print('asked of the linker:', ', '.join(sorted(asked)))
    print('| call | code | constants | writable data |')
    for call in [*sorted(calls), 'all']:
        with tempfile.NamedTemporaryFile() as file:
            roots = ['-u', call, '-e', call] if call != 'all' else [w for c in calls for w in ('-u', c)] + ['-e', calls[0]]
            subprocess.run([linker, *roots, '--gc-sections', '--unresolved-symbols=ignore-all', '-o', file.name, *objects], check=True, stderr=subprocess.DEVNULL)
            sections = table(open(file.name, 'rb').read())
        def total(wanted, without=0):
            return sum(s[4] for s in sections if s[2] & 2 and s[2] & wanted == wanted and not s[2] & without and s[0] not in ('.eh_frame', '.ARM.exidx'))
        print(f'| {call} | {total(4)} | {total(0, 5)} | {total(1)} |')


main(sys.argv[1], sys.argv[2:])
