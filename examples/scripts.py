#!/usr/bin/env python3
"""Makes the scripts of `scripts.cases`, runs a program over each, and compares what it prints, byte for byte, with what the case says.

    scripts.py PROGRAM [CASE]        runs all cases, or those whose name holds CASE (or whose number it is); the status is 1 where one differs
    scripts.py --without WORD PROGRAM [CASE]    the same, without the cases that have this option (as --all)
    scripts.py --list                the names of the cases, numbered
    scripts.py --render CASE         what is to be printed, byte for byte; the status and the complaint go to standard error
    scripts.py --script CASE         the script's bytes

The notation stands at the head of `scripts.cases`. Nothing here knows how a server answers: the cases say what is answered, and this file knows only how
records, replies and lines are spelled. It checks its spelling against known lengths and against one script in hexadecimal each time that it starts."""
import json
import os
import re
import subprocess
import sys

HERE = os.path.dirname(os.path.abspath(__file__))
CASES = os.path.join(HERE, 'scripts.cases')
# Seconds that one run may take; it is ended then, and differs.
LONGEST = 300


class Fault(Exception):
    """A case that is not of the notation, or that contradicts itself."""


# ---- numbers and texts in bytes

def number(size, value):
    return int(value).to_bytes(size, 'big')


def string(text):
    return (text if isinstance(text, bytes) else text.encode()) + b'\0'


def record(kind, payload=b''):
    return kind.encode() + number(4, len(payload)) + payload


def frame(kind, payload=b''):
    """A frame, or a message of the database: the length counts itself."""
    return kind.encode() + number(4, len(payload) + 4) + payload


# ---- the notation's values

class Unsent:
    """A value that was not sent."""


class Binary(bytes):
    """A value in binary form."""


VALUE = re.compile(r"""(?: '((?:[^']|'')*)' | ("(?:[^"\\]|\\.)*") | hex:([0-9a-f]*) | binary:([0-9a-f]*) | ([^\s'"(),/|*]+) ) (?: \*([0-9]+) )?""", re.X)


def value_at(text, at):
    """The value that stands at this place of the text (None for null), and the place behind it."""
    found = VALUE.match(text, at)
    if not found:
        raise Fault(f'no value at {text[at:]!r}')
    single, double, digits, binary, bare, times = found.groups()
    if bare == 'null':
        return None, found.end()
    if bare == 'unsent':
        return Unsent, found.end()
    if binary is not None:
        return Binary(bytes.fromhex(binary)), found.end()
    if digits is not None:
        value = bytes.fromhex(digits)
    else:
        value = (single.replace("''", "'") if single is not None else json.loads(double) if double else bare).encode()
    return value * int(times or 1), found.end()


class Words:
    """A text that is read word by word."""

    def __init__(self, text):
        self.text, self.at = text.strip(), 0

    def blanks(self):
        while self.at < len(self.text) and self.text[self.at] == ' ':
            self.at += 1

    def more(self):
        self.blanks()
        return self.at < len(self.text)

    def next_is(self, front):
        self.blanks()
        return self.text.startswith(front, self.at)

    def skip(self, front):
        if not self.next_is(front):
            return False
        self.at += len(front)
        return True

    def word(self):
        self.blanks()
        found = re.compile(r'[^ ]+').match(self.text, self.at)
        if not found:
            raise Fault(f'a word is missing in {self.text!r}')
        self.at = found.end()
        return found.group()

    def option(self, name, default):
        """The word behind a name, where this name comes next."""
        return self.word() if self.skip(name + ' ') else default

    def rest(self):
        self.blanks()
        return self.text[self.at:]

    def value(self):
        self.blanks()
        value, self.at = value_at(self.text, self.at)
        return value

    def word_or_quoted(self):
        return self.value() if self.next_is("'") or self.next_is('"') else self.word().encode()

    def row(self):
        if not self.skip('('):
            raise Fault(f'a row is missing in {self.text!r}')
        row = []
        while not self.skip(')'):
            row.append(self.value())
            self.skip(',')
        return row

    def rows(self):
        rows = []
        while self.next_is('('):
            rows.append(self.row())
        return rows

    def bytes(self):
        """Values joined by ` + `, to the end."""
        out = b''
        while self.more():
            out += self.value()
            self.skip('+')
        return out


def parts_of(text):
    """The parts between bars that stand outside of quotes."""
    quoted = r"""'(?:[^']|'')*'|"(?:[^"\\]|\\.)*"|[^|'"]"""
    return [part.strip() for part in re.findall(f'(?:^|\\|)((?:{quoted})*)', text)]


# ---- tables and rows

COLUMN = re.compile(r'("(?:[^"\\]|\\.)*"|hex:[0-9a-f]*|[^\s:]*):([0-9]+)')


class Table:
    def __init__(self, words):
        namespace, dot, name = words.word().partition('.')
        self.namespace, self.name = (namespace, name) if dot else ('public', namespace)
        self.oid, self.columns = int(words.word()), []
        while words.more() and not re.compile('key( |$)').match(words.text, words.at):
            found = COLUMN.match(words.text, words.at)
            if not found:
                raise Fault(f'no column at {words.rest()!r}')
            name, words.at = found.group(1), found.end()
            self.columns.append((value_at(name, 0)[0] if name else b'', int(found.group(2))))
        words.skip('key')
        self.key = [int(place) for place in words.rest().split()]

    def columns_bytes(self):
        return number(2, len(self.columns)) + b''.join(string(name) + number(4, oid) for name, oid in self.columns)

    def declaration(self):
        key = number(2, len(self.key)) + b''.join(number(2, place) for place in self.key)
        return string(self.namespace) + string(self.name) + number(4, self.oid) + self.columns_bytes() + key

    def relation(self):
        columns = b''.join(b'\x01' + string(name) + number(4, oid) + b'\xff' * 4 for name, oid in self.columns)
        return b'R' + number(4, self.oid) + string(self.namespace) + string(self.name) + b'f' + number(2, len(self.columns)) + columns

    def description(self, form, oid):
        fields = b''.join(string(name) + number(4, oid) + number(2, place + 1) + number(4, kind) + number(2, 4) + b'\xff' * 4 + number(2, form)
                          for place, (name, kind) in enumerate(self.columns))
        return frame('T', number(2, len(self.columns)) + fields)


def tuple_data(row):
    def field(value):
        if value is None or value is Unsent:
            return b'n' if value is None else b'u'
        return (b'b' if isinstance(value, Binary) else b't') + number(4, len(value)) + value
    return number(2, len(row)) + b''.join(map(field, row))


def data_row(row):
    return frame('D', number(2, len(row)) + b''.join(b'\xff' * 4 if value is None else number(4, len(value)) + value for value in row))


# ---- messages of the stream

class Speller:
    """Spells the records of one case. It knows the tables by their names, and which Relation the stream had last for an OID."""

    def __init__(self, tables):
        self.tables, self.related, self.spelled = tables, {}, []

    def table(self, words):
        name = words.word()
        if name not in self.tables:
            raise Fault(f'no table {name}')
        return self.tables[name]

    def message(self, text):
        words = Words(text)
        name = words.word()
        if not hasattr(self, 'message_' + name):
            raise Fault(f'no message {name}')
        spelled = getattr(self, 'message_' + name)(words)
        less, more = words.option('less', None), words.skip('more ')
        spelled = spelled[:-int(less)] if less else spelled
        spelled += words.bytes() if more else b''
        if words.more():
            raise Fault(f'too much in {text!r}')
        return spelled

    def message_bytes(self, words):
        return words.bytes()

    def message_begin(self, words):
        return b'B' + number(8, words.word()) + number(8, 0) + number(4, words.word())

    def message_commit(self, words):
        lsn = int(words.word())
        end, flags = words.option('end', lsn + 8), words.option('flags', 0)
        return b'C' + number(1, flags) + number(8, lsn) + number(8, end) + number(8, 0)

    def message_origin(self, words):
        return b'O' + number(8, words.word()) + string(words.word())

    def message_type(self, words):
        return b'Y' + number(4, words.word()) + string(words.word()) + string(words.word())

    def message_logical(self, words):
        prefix, content = words.value(), words.value()
        return b'M\x01' + number(8, 0) + string(prefix) + number(4, len(content)) + content

    def message_relation(self, words):
        table = self.table(words)
        self.related[table.oid] = table
        return table.relation()

    def message_insert(self, words):
        return b'I' + number(4, self.table(words).oid) + b'N' + tuple_data(words.row())

    def message_update(self, words):
        oid, mark = self.table(words).oid, b'K' if words.skip('key ') else b'O'
        before = mark + tuple_data(words.row()) if words.next_is('(') else b''
        if not words.skip('>'):
            raise Fault('an update without a new row')
        return b'U' + number(4, oid) + before + b'N' + tuple_data(words.row())

    def message_delete(self, words):
        return b'D' + number(4, self.table(words).oid) + (b'K' if words.skip('key ') else b'O') + tuple_data(words.row())

    def message_truncate(self, words):
        oids = []
        while words.more() and not re.compile('(options|less|more) ').match(words.text, words.at):
            oids.append(self.table(words).oid)
        options = words.option('options', 0)
        return b'T' + number(4, len(oids)) + number(1, options) + b''.join(number(4, oid) for oid in oids)

    def commit(self, words):
        """The messages of `commit LSN ID: CHANGES`; a Relation stands before the first change of a table, and where its columns are others than before."""
        lsn, xid = words.word(), words.word().rstrip(':')
        out, table = [self.message(f'begin {lsn} {xid}')], 'items'
        while words.more():
            if words.next_is('+') or words.next_is('-') or words.next_is('('):
                change = self.change(words, table)
            else:
                word = words.word()
                change = f'truncate {table}' if word == 'truncate' else None
                table = table if change else word
            if change:
                known = self.tables[table] if table in self.tables else self.table(Words(table))
                if self.related.get(known.oid) is not known:
                    out.append(self.message(f'relation {table}'))
                out.append(self.message(change))
        return out + [self.message(f'commit {lsn}')]

    def change(self, words, table):
        """The message of the change that comes next."""
        start = words.at
        if words.skip('+'):
            name = 'insert'
            start = words.at
            words.row()
        elif words.skip('-'):
            name = 'delete'
            start = words.at
            words.row()
        else:
            name = 'update'
            words.row()
            words.skip('>')
            words.row()
        return f'{name} {table} {words.text[start:words.at]}'

    # ---- frames of the stream, and messages of the database

    def frames(self, text):
        words = Words(text)
        name = words.word()
        if name == 'wal':
            return self.wal(self.message(words.rest()))
        if name == 'commit':
            return b''.join(map(self.wal, self.commit(words)))
        if name == 'keepalive':
            return frame('d', b'k' + number(8, 0) + number(8, 0) + number(1, words.option('wanted', 0)))
        if name == 'done':
            return frame('C', string(words.value())) if words.more() else frame('c')
        if name == 'error':
            return self.error(words)
        if name == 'frame':
            return frame(words.word(), words.bytes())
        if name == 'bytes':
            return words.bytes()
        raise Fault(f'no frame {name}')

    @staticmethod
    def wal(message):
        return frame('d', b'w' + number(8, 0) + number(8, 0) + number(8, 0) + message)

    @staticmethod
    def error(words):
        """`error 42P01`: a list of fields with this code."""
        return frame('E', b'S' + string('ERROR') + b'C' + string(words.value()) + b'M' + string('a message') + b'\0')

    def answer(self, text):
        """What the database says."""
        words = Words(text)
        name = words.word()
        simple = {'ok': frame('R', number(4, 0)), 'ready': frame('Z', b'I')}
        if name in simple:
            return simple[name]
        if name == 'auth':
            return frame('R', number(4, words.word()) + words.bytes())
        if name == 'status':
            return frame('S', string(words.word()) + string(words.word()))
        if name == 'keydata':
            return frame('K', number(4, words.word()) + number(4, words.word()))
        if name == 'notice':
            return frame('N', b'M' + string(words.value()) + b'\0')
        if name == 'complete':
            return frame('C', string(words.rest()))
        if name == 'shows':
            return Table(Words('x 0 pg_current_snapshot:5038')).description(0, 0) + data_row([words.word_or_quoted()])
        if name == 'fields':
            table = self.table(words)
            oid = int(words.option('oid', table.oid))
            return table.description(int(words.option('format', 0)), oid)
        if name == 'row':
            return data_row(words.row())
        if name == 'error':
            return self.error(words)
        if name == 'message':
            return frame(words.word(), words.bytes())
        if name == 'bytes':
            return words.bytes()
        if name == 'dialogue':
            return self.dialogue(words)
        raise Fault(f'the database says no {name}')

    def dialogue(self, words):
        """All that the database says, from the startup to the answer to COMMIT."""
        shows, table, rows = words.word(), self.table(words), words.rows()
        before = ['ok', 'status server_version 16.1', 'keydata 7 9', 'notice hello', 'ready']
        before += ['complete BEGIN', 'ready', f'shows {shows}', 'complete SELECT 1', 'ready']
        after = [f'complete SELECT {len(rows)}', 'ready', 'complete COMMIT', 'ready']
        middle = table.description(0, table.oid) + b''.join(map(data_row, rows))
        return b''.join(map(self.answer, before)) + middle + b''.join(map(self.answer, after))

    # ---- records

    def records(self, text):
        """The records of a line, as a list."""
        words = Words(text)
        kind = words.word()
        if kind == 'repeat':
            return self.records(text.split(':', 1)[1]) * int(words.word().rstrip(':'))
        if kind == 'commit':
            return [record('M', message) for message in self.commit(words)]
        if kind == 'raw':
            return [words.bytes()]
        if kind == 'record':
            return [record(words.word(), words.bytes())]
        spell = getattr(self, 'record_' + kind, None)
        if not spell:
            raise Fault(f'no record {kind}')
        return spell(words)

    def record_T(self, words):
        name = words.text[words.at:].strip()
        if name not in self.tables:
            table = Table(words)
            self.tables = dict(self.tables, **{table.name: table})
            name = table.name
        return [record('T', self.tables[name].declaration())]

    def record_B(self, words):
        place, rows = words.word(), words.rows()
        return [record('B', number(2, place) + number(4, len(rows)) + b''.join(map(tuple_data, rows)))]

    def record_O(self, words):
        self.related = {}
        return [record('O')]

    def record_E(self, words):
        return [record('E')]

    def record_M(self, words):
        return [record('M', self.message(words.rest()))]

    def pieces(self, words, spell):
        """The bytes of parts between bars, in pieces of the size that the words name."""
        size = None
        if words.skip('in pieces of '):
            size = int(words.word().rstrip(':'))
        whole = b''.join(spell(part) for part in parts_of(words.rest()) if part)
        return [whole[at:at + size] for at in range(0, len(whole), size)] if size else [whole]

    def record_F(self, words):
        return [record('F', piece) for piece in self.pieces(words, self.frames)]

    def record_D(self, words):
        exchange = number(4, words.word())
        return [record('D', exchange + piece) for piece in self.pieces(words, self.answer)]

    def record_Q(self, words):
        if words.skip('bytes'):
            return [record('Q', words.bytes())]
        line, *fields = parts_of(words.rest())
        version = '' if re.search(r' HTTP/\S+$', line) else ' HTTP/1.1'
        return [record('Q', ''.join(part + '\r\n' for part in [line + version] + fields + ['']).encode())]

    def record_G(self, words):
        exchange, shows = number(4, words.word()), words.word_or_quoted()
        table, rows = self.table(words), words.rows()
        return [record('G', exchange + string(shows) + number(4, table.oid) + table.columns_bytes() + number(4, len(rows)) + b''.join(map(tuple_data, rows)))]

    def record_X(self, words):
        return [record('X', number(4, words.word()) + number(1, words.word()))]

    def record_N(self, words):
        return [record('N', words.bytes() if words.skip('bytes ') else words.rest().encode())]

    def record_S(self, words):
        return [record('S', number(4, words.word()))]

    def record_W(self, words):
        return [record('W', number(4, words.word()))]

    def record_R(self, words):
        return [record('R', number(4, words.word()) + number(4, words.word()))]

    def record_U(self, words):
        return [record('U', number(8, words.word()))]

    def record_K(self, words):
        return [record('K', number(8, words.word()))]


# ---- what is printed

ESCAPES = {'"': '\\"', '\\': '\\\\', '\b': '\\b', '\t': '\\t', '\n': '\\n', '\f': '\\f', '\r': '\\r'}


def json_text(value):
    """A JSON string with as few escapes as may be; null for None."""
    if value is None:
        return 'null'
    return '"' + ''.join(ESCAPES.get(c, f'\\u{ord(c):04x}' if c < ' ' else c) for c in value) + '"'


def json_object(members):
    """Members in byte order of their names: the case has to have them so."""
    names = [name.encode() for name, _ in members]
    if names != sorted(set(names)):
        raise Fault(f'members out of order: {names}')
    return '{' + ','.join(json_text(name) + ':' + (str(value) if isinstance(value, int) else json_text(value)) for name, value in members) + '}'


def quoted(part):
    return '"' + part.replace('"', '""') + '"'


def text_of(value):
    return None if value is None else value.decode()


class Printer:
    """Spells what is printed."""

    def __init__(self, tables):
        self.tables = tables

    def key(self, words):
        """`items/1`: the key text of the row of this table with these key values."""
        table = self.tables[re.compile('[^/]+').match(words.text, words.at).group()]
        words.at = words.text.index('/', words.at)
        text = quoted(table.namespace) + '.' + quoted(table.name)
        while words.at < len(words.text) and words.text[words.at] == '/':
            value, words.at = value_at(words.text, words.at + 1)
            text += '/' + quoted(value.decode())
        return text

    def cells(self, words):
        """`id=1 n=null`: cells, to the end."""
        cells = []
        while words.more():
            found = re.compile(r'("(?:[^"\\]|\\.)*"|[^=\s"]+)=').match(words.text, words.at)
            if not found:
                raise Fault(f'no cell at {words.rest()!r}')
            words.at = found.end()
            name = json.loads(found.group(1)) if found.group(1)[0] == '"' else found.group(1)
            cells.append((name, text_of(words.value())))
        return json_object(cells)

    def row_line(self, text):
        words = Words(text)
        key = self.key(words)
        return json_text(key) + ' ' + self.cells(words)

    def entry(self, text):
        words = Words(text)
        operation = words.word()
        words.blanks()
        key = self.key(words)
        if not words.skip('at '):
            raise Fault(f'no offset in {text!r}')
        offset = words.word()
        return f'{{"headers":{{"operation":{json_text(operation)}}},"key":{json_text(key)},"offset":{json_text(offset)},"value":{self.cells(words)}}}'

    def body(self, lines):
        """The body of a page: its entries and its control, or the text itself behind `body`."""
        if len(lines) == 1 and lines[0].startswith('body '):
            return lines[0][5:]
        return '[' + ','.join(control(line) if line in CONTROLS else self.entry(line) for line in lines) + ']'

    def reply(self, line, lines):
        """The bytes of `reply EXCHANGE STATUS ..` and of its body's lines."""
        exchange, status, *words = line.split(' ')[1:]
        close = words[-1:] == ['close']
        named = dict(word.split('=', 1) for word in words if '=' in word)
        error = next((word for word in words if '=' not in word and word != 'close'), None)
        wanted = {name: int(named.pop(name)) for name in ('length', 'size') if name in named}
        if status == '200':
            head, body = self.page_head(named), self.body(lines)
        elif status == '409':
            head, body = ([('electric-handle', named['handle'])] if named else []), self.body(['must-refetch'])
        else:
            head, body = [], refusal_body(error, named)
        text = reply_text(int(status), named.get('age') if status == '200' else '5' if status == '409' else None, head, body, close)
        for name, size in (('length', len(body.encode())), ('size', len(text))):
            if wanted.get(name, size) != size:
                raise Fault(f'{name} is {size}')
        return f'reply {exchange} {len(text)}\n'.encode() + text + b'\n'

    @staticmethod
    def page_head(named):
        missing = {'handle', 'offset', 'schema', 'age'} - set(named)
        strange = set(named) - {'handle', 'offset', 'schema', 'age', 'cursor'}
        if missing or strange:
            raise Fault(f'a page: missing {missing}, strange {strange}')
        return [('electric-' + name, named[name]) for name in ('handle', 'offset', 'schema', 'cursor') if name in named]

    def item(self, line, lines):
        """The bytes of one line that is printed, with the lines that belong to it."""
        if line.startswith('reply '):
            return self.reply(line, lines)
        if line.startswith('client ') and ' up-to-date ' in line:
            if int(line.split(' ')[-1]) != len(lines):
                raise Fault(f'{len(lines)} rows')
            rows = [self.row_line(text) for text in lines]
            return '\n'.join([line] + rows + ['']).encode()
        if lines or not re.fullmatch(r'client \d+ (refetch|server-refused \d+)|cut \d+|stream refused [a-z0-9_]+ \d+|end \d+', line):
            raise Fault(f'no such line: {line}')
        return line.encode() + b'\n'


CONTROLS = ('up-to-date', 'must-refetch')
NUMBERS = ('place', 'atom', 'last', 'xmax', 'limit', 'live', 'bytes')
PHRASES = {200: 'OK', 409: 'Conflict', 400: 'Bad Request', 404: 'Not Found', 405: 'Method Not Allowed', 413: 'Payload Too Large',
           431: 'Request Header Fields Too Large', 500: 'Internal Server Error', 502: 'Bad Gateway', 503: 'Service Unavailable'}


def control(name):
    return json_object([('headers', 0)]).replace('0', json_object([('control', name)]))


def refusal_body(error, named):
    members = dict(named, error=error)
    return json_object([(name, int(members[name]) if name in NUMBERS else members[name]) for name in sorted(members)])


def reply_text(status, age, head, body, close):
    """A reply: the status line, the head's lines in their order, an empty line and the body."""
    lines = [f'HTTP/1.1 {status} {PHRASES[status]}', 'content-type: application/json', f'content-length: {len(body.encode())}']
    lines.append('cache-control: ' + ('no-store' if age is None else f'public, max-age={age}'))
    lines += [f'{name}: {value}' for name, value in head]
    lines += ['allow: GET'] if status == 405 else []
    lines += ['connection: close'] if close else []
    return '\r\n'.join(lines + ['', body]).encode()


# ---- cases

class Case:
    """A script with its options, what is printed behind which of its lines, and how the program ends."""

    def __init__(self, name, line, tables):
        self.name, self.line, self.options, self.piece = name, line, [], None
        self.speller, self.script, self.places, self.items = Speller(tables), [], [], []
        self.status, self.complaint, self.record_line = 0, None, None

    def script_bytes(self):
        return b''.join(self.script)

    def output(self):
        return b''.join(spelled for _, _, _, spelled in self.items)

    def said(self):
        return f'shape_replay: {self.complaint}\n'.encode() if self.complaint else b''

    def take_record(self, text):
        self.record_line = text
        for spelled in self.speller.records(text):
            self.places.append(sum(map(len, self.script[-1:])) + (self.places[-1] if self.places else 0))
            self.script.append(spelled)

    def take_complaint(self, text):
        """`! NAME`; for a bad script its cause follows, and its place may stand before that."""
        names = {'usage': 2, 'unfinished': 6, 'too_long': 7, 'too_many_exchanges': 8}
        name, *words = text.split(' ')
        if name in names and not words:
            self.status, self.complaint = names[name], name
            return
        place = self.places[-1]
        if name != 'bad_script' or not words or (len(words) == 2 and int(words[0]) != place):
            raise Fault(f'{text}, at {place}')
        self.status, self.complaint = 5, f'bad_script {place} {words[-1]}'


def lines_of(path):
    """The lines of the cases with their numbers; a line that begins with a blank goes on with the one before."""
    joined = []
    with open(path, encoding='utf-8') as cases:
        for at, line in enumerate(cases, 1):
            line = line.rstrip('\n')
            if line.startswith(' ') and joined:
                joined[-1][1] += ' ' + line.strip()
            elif line.strip() and not line.startswith('#'):
                joined.append([at, line])
    return joined


def printed_items(lines):
    """Lines behind `> ` in groups: one that begins with two more blanks belongs to the one before."""
    groups = []
    for at, line, after in lines:
        if line.startswith('  '):
            groups[-1][3].append(line.strip())
        else:
            groups.append((at, line, after, []))
    return groups


def read_cases(path):
    tables, cases, printed = {}, [], []

    def close():
        if cases:
            printer = Printer(cases[-1].speller.tables)
            for at, line, after, lines in printed_items(printed):
                cases[-1].items.append((at, line, after, faulty_at(at, printer.item, line, lines)))
            if (cases[-1].status == 0) != (printed[-1:] != [] and printed[-1][1].startswith('end ')):
                raise SystemExit(f'scripts.cases:{cases[-1].line}: neither an end nor a complaint, or both')
        printed.clear()

    for at, line in lines_of(path):
        if line.startswith('== '):
            close()
            cases.append(Case(line[3:], at, dict(tables)))
        elif line.startswith('table '):
            words = Words(line[6:])
            target = cases[-1].speller.tables if cases else tables
            name = words.word()
            target[name] = Table(words)
        elif line.startswith('with '):
            cases[-1].options = line.split(' ')[1:]
        elif line.startswith('fed in pieces of '):
            cases[-1].piece = int(line.split(' ')[-1])
        elif line.startswith('> '):
            printed.append((at, line[2:], cases[-1].record_line))
        elif line.startswith('! '):
            faulty_at(at, cases[-1].take_complaint, line[2:])
        else:
            faulty_at(at, cases[-1].take_record, line)
    close()
    names = [case.name for case in cases]
    if len(set(names)) != len(names):
        raise SystemExit(f'scripts.cases: a name stands twice: {[name for name in names if names.count(name) > 1][0]}')
    return cases


def faulty_at(at, call, *words):
    try:
        return call(*words)
    except (Fault, KeyError, ValueError, IndexError, AttributeError, OverflowError) as fault:
        raise SystemExit(f'scripts.cases:{at}: {type(fault).__name__}: {fault}')


# ---- runs

def run(program, case):
    """The status of the program over a case's script, what it prints, and what it says."""
    script = case.script_bytes()
    running = subprocess.Popen([program, 'replay'] + case.options, stdin=subprocess.PIPE, stdout=subprocess.PIPE, stderr=subprocess.PIPE)
    if case.piece:
        try:
            for at in range(0, len(script), case.piece):
                running.stdin.write(script[at:at + case.piece])
                running.stdin.flush()
        except BrokenPipeError:
            pass
        script = b''
    try:
        printed, said = running.communicate(script, timeout=LONGEST)
    except subprocess.TimeoutExpired:
        running.kill()
        printed, said = running.communicate()
    return running.returncode, printed, said


def items_of(printed):
    """What was printed, cut into items: replies, and lines with the rows behind them."""
    items, at = [], 0
    while at < len(printed):
        end = printed.find(b'\n', at) + 1 or len(printed)
        found = re.fullmatch(rb'reply \d+ (\d+)\n', printed[at:end])
        if found:
            end = min(end + int(found.group(1)) + 1, len(printed))
        if items and printed[at:at + 1] == b'"' and items[-1].startswith(b'client '):
            items[-1] += printed[at:end]
        else:
            items.append(printed[at:end])
        at = end
    return items


def shown(item):
    """The lines of an item, readable; the end of a line of a head is left out."""
    return [line.decode('utf-8', 'backslashreplace').rstrip('\r') for line in item.rstrip(b'\n').split(b'\n')]


def near(line, other):
    """A line, cut to what stands round the first place where the other one differs."""
    same = next((at for at, (a, b) in enumerate(zip(line, other)) if a != b), min(len(line), len(other)))
    front = max(0, same - 60)
    return ('..' if front else '') + line[front:same + 100] + ('..' if len(line) > same + 100 else '')


def compare_items(case, wanted, got, place):
    at, line, after, _ = case.items[place] if place < len(case.items) else (case.line, '(nothing more)', case.record_line, b'')
    print(f'  behind `{after[:120]}`, line {at}: {line[:150]}')
    ours, theirs = shown(wanted), shown(got)
    for row in range(max(len(ours), len(theirs))):
        one, two = (ours + ['(nothing)'] * len(theirs))[row], (theirs + ['(nothing)'] * len(ours))[row]
        if one != two:
            print(f'    wanted: {near(one, two)}')
            print(f'    got:    {near(two, one)}')
            return
    print(f'    the bytes differ: {wanted[-80:]!r}, {got[-80:]!r}')


def compare(case, status, printed, said):
    """Prints the first difference; true where there is none."""
    if (status, printed, said) == (case.status, case.output(), case.said()):
        return True
    print(f'scripts.py: scripts.cases:{case.line}: {case.name}')
    if (status, said) != (case.status, case.said()):
        print(f'  wanted: status {case.status} {case.said().decode().strip()!r}')
        print(f'  got:    status {status} {said[:300].decode("utf-8", "backslashreplace").strip()!r}')
    wanted, got = [spelled for _, _, _, spelled in case.items], items_of(printed)
    for place in range(max(len(wanted), len(got))):
        one, two = (wanted + [b''] * len(got))[place], (got + [b''] * len(wanted))[place]
        if one != two:
            compare_items(case, one, two, place)
            break
    return False


# ---- known lengths, and one script in hexadecimal

KNOWN_SCRIPT = '''
540000002a 7075626c696300 6974656d7300 00004000 0003 696400 00000017 6e00 00000017 7300 00000019 0001 0000
4e0000000b 7461626c653d6974656d73
5700000004 00000000
4700000026 00000000 313a313a00 00004000 0003 696400 00000017 6e00 00000017 7300 00000019 00000000
5700000004 00000000
4d00000015 42 0000000000000064 0000000000000000 00000005
4d00000037 52 00004000 7075626c696300 6974656d7300 66 0003 01 696400 00000017 ffffffff 01 6e00 00000017 ffffffff 01 7300 00000019 ffffffff
4d0000001a 49 00004000 4e 0003 74 00000001 31 74 00000001 35 74 00000001 61
4d0000001a 43 00 0000000000000064 000000000000006c 0000000000000000
5700000004 00000000
4500000000
'''


def check_spelling():
    """Compares the spelling with what is known of it."""
    items = Table(Words('public.items 16384 id:23 n:23 s:25 key 0'))
    printer = Printer({'items': items})
    spell = Speller({'items': items}).records
    lines = ['T items', 'N table=items', 'W 0', 'G 0 1:1: items', 'W 0', 'commit 100 5: +(1,5,a)', 'W 0', 'E']
    head = 'reply 0 {} handle={} offset={} schema=id:23,n:23,s:25 age=5 cursor=1'
    first = [printer.entry('insert items/1 at 0_1 id=1 n=5 s=a'), control('up-to-date')]
    page = ['insert items/1 at 0_1 id=1 n=5 s=a', 'up-to-date']

    def length(line, lines):
        return len(printer.reply(line, lines)) - len(f'reply 0 {len(printer.reply(line, lines))}\n\n')

    known = [
        (b''.join(sum(map(spell, lines), [])), bytes.fromhex(''.join(KNOWN_SCRIPT.split()))),
        (len(printer.entry('insert items/1 at 100_0 id=1 n=5 s=a')), 121),
        (len(printer.entry("insert items/1 at 100_0 id=1 n=5 s='x'*2100")), 2220),
        (len('[' + ','.join(first) + ']'), 158),
        (length(head.format(200, '1-replay', '0_1'), page), 367),
        (length(head.format(200, '1-keep', '0_1'), page), 365),
        (length(head.format(200, '2-replay', '0_0'), ['up-to-date']), 246),
        (length('reply 0 400 offset_ahead', []), 129),
        (length('reply 0 502 upstream_link', []), 130),
        (len(refusal_body('snapshot_stale', {'last': '30', 'xmax': '30'})), 46),
        (json_text('"\\\b\t\n\f\r\x01\x1f\x7f\u00e9/'), '"\\"\\\\\\b\\t\\n\\f\\r\\u0001\\u001f\x7f\u00e9/"'),
    ]
    for place, (ours, theirs) in enumerate(known):
        if ours != theirs:
            raise SystemExit(f'scripts.py: spelling {place}: {ours!r} in the place of {theirs!r}')


# ---- the command line

def chosen(cases, part):
    found = [case for at, case in enumerate(cases, 1) if part == str(at) or part in case.name]
    exact = [case for case in found if case.name == part]
    if not found:
        raise SystemExit(f'scripts.py: no case {part}')
    return exact or found


def main(words):
    check_spelling()
    cases = read_cases(CASES)
    if words == ['--list']:
        for at, case in enumerate(cases, 1):
            print(f'{at:4} {case.name}')
        return 0
    if words[:1] in (['--render'], ['--script']) and len(words) == 2:
        case = chosen(cases, words[1])[0]
        sys.stdout.buffer.write(case.script_bytes() if words[0] == '--script' else case.output())
        sys.stdout.flush()
        print(f'scripts.py: {case.name}: {" ".join(["replay"] + case.options)}, status {case.status}, {case.said()}', file=sys.stderr)
        return 0
    if words[:1] == ['--without']:
        cases, words = [case for case in cases if words[1] not in case.options], words[2:]
    if not 1 <= len(words) <= 2 or words[0].startswith('--'):
        sys.exit(__doc__)
    cases = chosen(cases, words[1]) if len(words) == 2 else cases
    same = [compare(case, *run(words[0], case)) for case in cases]
    if not all(same):
        print(f'scripts.py: {same.count(False)} of {len(same)} cases differ')
    return int(not all(same))


if __name__ == '__main__':
    sys.exit(main(sys.argv[1:]))
