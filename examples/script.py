#!/usr/bin/env python3
"""Scripts as text, one record a line: `script.py write < TEXT > SCRIPT` and `script.py show < SCRIPT > TEXT`. README.md has the notation."""
import json
import re
import struct
import sys

# What a payload holds, part by part: a number (a letter of Python's struct, big-endian), s a String, c a byte that is a letter, t TupleData, * a text to the
# end, x bytes to the end in hexadecimal; a list is the letter of its count (none: to the end) and the parts of an item.
COLUMNS = ['H', 's', 'I']
RECORDS = {
    'T': ['s', 's', 'I', COLUMNS, ['H', 'H']], 'B': ['H', ['I', 't']], 'G': ['I', 's', 'I', COLUMNS, ['I', 't']],
    'N': ['*'], 'Q': ['*'], 'W': ['I'], 'S': ['I'], 'R': ['I', 'I'], 'D': ['I', 'x'], 'X': ['I', 'B'], 'F': ['x'],
    'U': ['Q'], 'K': ['Q'], 'O': [], 'E': [],
}
ROWS = ['I', ['', 'c', 't']]
MESSAGES = {
    'Begin': ['Q', 'q', 'I'], 'Commit': ['B', 'Q', 'Q', 'q'], 'Origin': ['Q', 's'], 'Type': ['I', 's', 's'],
    'Relation': ['I', 's', 's', 'c', ['H', 'B', 's', 'I', 'i']], 'Insert': ROWS, 'Update': ROWS, 'Delete': ROWS,
    'Truncate': ['I', 'B', ['', 'I']], 'Message': ['B', 'Q', 's', 'I', '*'],
}


def text_of(data):
    return data.decode('utf-8', 'surrogateescape')


def bytes_of(text):
    return text.encode('utf-8', 'surrogateescape')


class Reader:
    def __init__(self, data):
        self.data, self.at = data, 0

    def take(self, count):
        if self.at + count > len(self.data):
            raise ValueError('too short')
        self.at += count
        return self.data[self.at - count:self.at]

    def number(self, letter):
        return struct.unpack('>' + letter, self.take(struct.calcsize('>' + letter)))[0]

    def value(self):
        kind = self.take(1)
        if kind in b'nu':
            return None if kind == b'n' else False
        data = self.take(self.number('I'))
        return text_of(data) if kind == b't' else [data.hex()]

    def rest(self):
        return self.take(len(self.data) - self.at)

    def part(self, part):
        if part == 's':
            return text_of(self.take(self.data.index(b'\0', self.at) + 1 - self.at)[:-1])
        if part == 't':
            return [self.value() for _ in range(self.number('H'))]
        if isinstance(part, list):
            return self.items(part[0], part[1:])
        other = {'c': lambda: text_of(self.take(1)), '*': lambda: text_of(self.rest()), 'x': lambda: self.rest().hex()}
        return other[part]() if part in other else self.number(part)

    def items(self, count, parts):
        found = []
        left = self.number(count) if count else None
        while self.at < len(self.data) if left is None else len(found) < left:
            item = [self.part(part) for part in parts]
            found.append(item if len(parts) > 1 else item[0])
        return found


def value_bytes(value):
    if value is None or value is False:
        return b'n' if value is None else b'u'
    kind, data = (b't', bytes_of(value)) if isinstance(value, str) else (b'b', bytes.fromhex(value[0]))
    return kind + struct.pack('>I', len(data)) + data


def part_bytes(part, value):
    if part in ('s', 'c', '*'):
        return bytes_of(value) + (b'\0' if part == 's' else b'')
    if part == 't':
        return struct.pack('>H', len(value)) + b''.join(map(value_bytes, value))
    if part == 'x':
        return bytes.fromhex(value)
    if isinstance(part, list):
        items = value if len(part) > 2 else [[item] for item in value]
        count = struct.pack('>' + part[0], len(value)) if part[0] else b''
        return count + b''.join(map(part_bytes, part[1:] * len(items), sum(items, [])))
    return struct.pack('>' + part, value)


def payload_bytes(parts, values):
    if len(parts) != len(values):
        raise ValueError(f'{len(parts)} parts are wanted')
    return b''.join(map(part_bytes, parts, values))


def record_bytes(line):
    """The bytes of the record of a line."""
    kind, _, rest = line.partition(' ')
    parts, front = RECORDS.get(kind), b''
    if kind == 'M' and not rest.startswith('hex '):
        name, _, rest = rest.partition(' ')
        parts, front = MESSAGES[name], (b'M' if name == 'Message' else bytes_of('Y' if name == 'Type' else name[0]))
    if rest.startswith('hex '):
        payload = bytes.fromhex(rest[4:])
    else:
        values, at, decoder = [], 0, json.JSONDecoder()
        while at < len(rest):
            value, at = decoder.raw_decode(rest, at)
            values, at = values + [value], at + 1
        payload = front + payload_bytes(parts, values)
    return bytes_of(kind) + struct.pack('>I', len(payload)) + payload


def shown(value):
    return re.sub('[\udc80-\udcff]', lambda byte: f'\\u{ord(byte[0]):04x}', json.dumps(value, ensure_ascii=False))


def line_of(kind, payload):
    """The line of a record; one that is not of its form has its payload in hexadecimal."""
    names = {('Y' if name == 'Type' else name[0]): name for name in MESSAGES}
    name = names.get(text_of(payload[:1])) if kind == 'M' else None
    parts, reader = MESSAGES[name] if name else RECORDS.get(kind), Reader(payload[1:] if name else payload)
    try:
        line = ' '.join([kind] + [name] * bool(name) + [shown(reader.part(part)) for part in parts])
        if record_bytes(line)[5:] == payload:
            return line
    except (TypeError, ValueError):
        pass
    return f'{kind} hex {payload.hex()}'


def show(script):
    reader = Reader(script)
    while reader.at < len(script):
        kind = text_of(reader.take(1))
        yield line_of(kind, reader.take(reader.number('I')))


def main():
    if sys.argv[1:] == ['write']:
        lines = sys.stdin.buffer.read().decode().split('\n')
        sys.stdout.buffer.write(b''.join(record_bytes(line) for line in lines if line and not line.startswith('#')))
    elif sys.argv[1:] == ['show']:
        sys.stdout.buffer.write(''.join(line + '\n' for line in show(sys.stdin.buffer.read())).encode())
    else:
        sys.exit('usage: script.py write|show')


main()
