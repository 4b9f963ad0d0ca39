#!/usr/bin/env python3
"""Writes down what a real PostgreSQL sends on a replication connection: wire.py FILE [CHANGES].

Starts a server of its own in a temporary folder, with a table, a publication and a slot, changes rows in transactions of a few changes (100 changes
without the second word) while a connection streams them by pgoutput, version 1, and writes to FILE all bytes that came behind CopyBothResponse, cut
at the end of the frame that is a keepalive behind the last commit. Ends with 2 where a tool is missing. The protocol is that of the PostgreSQL
manual, 'Streaming Replication Protocol'.
"""
import os
import shutil
import socket
import struct
import subprocess
import sys
import tempfile
import threading

TABLE = 'create table things (id int primary key, amount numeric(10,2), note text); alter table things replica identity full; create publication sent for table things'


def changes(count):
    """Transactions of one to eight changes: an insert, an update, now and then a delete."""
    number = 0
    while number < count:
        size = min(1 + number * 7 % 8, count - number)
        words = []
        for place in range(number, number + size):
            kind = place % 5
            if kind < 3:
                words.append(f"insert into things values ({place}, {place % 1000}.5, repeat('a note ', {place % 9}))")
            elif kind == 3:
                words.append(f"update things set amount = amount + 1, note = null where id = {place - 2}")
            else:
                words.append(f"delete from things where id = {place - 4}")
        yield 'begin; ' + '; '.join(words) + '; commit;'
        number += size


class Link:
    """One connection, by the messages of the frontend and backend protocol."""

    def __init__(self, path):
        self.socket = socket.socket(socket.AF_UNIX)
        self.socket.connect(path)
        self.kept = b''
        words = b''.join(word + b'\0' for word in [b'user', b'postgres', b'database', b'postgres', b'replication', b'database', b''])
        self.socket.sendall(struct.pack('>II', 8 + len(words), 196608) + words)
        self.until(b'Z')

    def message(self):
        """The next message: its first byte, and its bytes with their head."""
        while len(self.kept) < 5 or len(self.kept) < 1 + struct.unpack('>I', self.kept[1:5])[0]:
            piece = self.socket.recv(65536)
            if not piece:
                raise SystemExit('wire.py: the server closed the connection')
            self.kept += piece
        size = 1 + struct.unpack('>I', self.kept[1:5])[0]
        message, self.kept = self.kept[:size], self.kept[size:]
        if message[:1] == b'E':
            raise SystemExit(f'wire.py: {message!r}')
        return message

    def until(self, kind):
        while self.message()[:1] != kind:
            pass

    def query(self, text, ends):
        self.socket.sendall(b'Q' + struct.pack('>I', 5 + len(text)) + text.encode() + b'\0')
        self.until(ends)


def captured(link, last):
    """The frames up to the keepalive whose position is not before the last commit."""
    frames = []
    while True:
        frame = link.message()
        frames.append(frame)
        if frame[:1] == b'd' and frame[5:6] == b'k':
            position = struct.unpack('>Q', frame[6:14])[0]
            link.socket.sendall(b'd' + struct.pack('>IcQQQqB', 38, b'r', position, position, position, 0, 0))
            if last.is_set() and position >= last.position:
                return b''.join(frames)


def main():
    if len(sys.argv) < 2 or not shutil.which('initdb') or not shutil.which('pg_ctl') or not shutil.which('psql'):
        print('wire.py: skipped, no file is named, or there is no initdb, pg_ctl or psql', file=sys.stderr)
        return 2
    count = int(sys.argv[2]) if len(sys.argv) > 2 else 100
    folder = tempfile.mkdtemp()
    owner = dict(user='postgres') if os.getuid() == 0 else {}
    if owner:
        shutil.chown(folder, 'postgres')
    data = folder + '/data'

    def run(*words, **more):
        return subprocess.run(words, check=True, cwd=folder, stdout=subprocess.PIPE, text=True, **owner, **more).stdout

    def psql(text):
        return run('psql', '-XAtq', '-v', 'ON_ERROR_STOP=1', '-h', folder, '-U', 'postgres', 'postgres', input=text).strip()

    run('initdb', '-D', data, '-U', 'postgres', '-A', 'trust', '-E', 'UTF8')
    settings = f"-c wal_level=logical -c listen_addresses='' -c unix_socket_directories={folder} -c fsync=off -c wal_sender_timeout=4s"
    run('pg_ctl', '-D', data, '-w', '-l', folder + '/log', '-o', settings, 'start')
    try:
        psql(TABLE)
        link = Link(folder + '/.s.PGSQL.5432')
        link.query('CREATE_REPLICATION_SLOT taken TEMPORARY LOGICAL pgoutput', b'Z')
        link.query("START_REPLICATION SLOT taken LOGICAL 0/0 (proto_version '1', publication_names 'sent')", b'W')
        last = threading.Event()

        def work():
            psql('\n'.join(changes(count)))
            high, low = psql('select pg_current_wal_insert_lsn()').split('/')
            last.position = int(high, 16) << 32 | int(low, 16)
            last.set()

        worker = threading.Thread(target=work)
        worker.start()
        frames = captured(link, last)
        worker.join()
        with open(sys.argv[1], 'wb') as out:
            out.write(frames)
    finally:
        run('pg_ctl', '-D', data, '-m', 'immediate', 'stop')
        shutil.rmtree(folder)
    return 0


if __name__ == '__main__':
    sys.exit(main())
