#!/usr/bin/env python3
"""Makes the scripts of `runs.cases`, runs them and compares: `runs.py PROGRAM < runs.cases`. Each run whose answer is another one has a line; the status is 1 then."""
import array
import fcntl
import os
import resource
import signal
import socket
import struct
import subprocess
import sys
import tempfile
import termios
import time

HERE = os.path.dirname(os.path.abspath(__file__))
program = sys.argv[1]
records, blocks, failures = {}, {}, []


def script_of(letters):
    """The records of a script, as `script.py` makes them of their texts."""
    text = ''.join(records[letter] + '\n' for letter in letters.rstrip('<').replace('-', ''))
    made = subprocess.run([sys.executable, os.path.join(HERE, 'script.py'), 'write'], input=text.encode(), stdout=subprocess.PIPE, check=True).stdout
    return made[:-1] if letters.endswith('<') else made


def printed_by(names):
    return ''.join(blocks[name] for name in names if name != '-').encode()


def compare(case, status, printed, complaint, got):
    said = f'shape_replay: {complaint}\n'.encode() if complaint else b''
    if got != (status, printed, said):
        failures.append(case)
        print(f'runs.py: {case}: status {got[0]}, it prints {got[1][:200]!r} and says {got[2][:200]!r}')


def run(letters, status, names, complaint=''):
    done = subprocess.run([program, 'replay'], input=script_of(letters), capture_output=True)
    compare(f'run {letters}', int(status), printed_by(names.split(',')), complaint, (done.returncode, done.stdout, done.stderr))


def cut_at(script, place):
    """Gives so much of a script over a connection, and resets it once all of that is read."""
    listener = socket.create_server(('127.0.0.1', 0))
    sender = socket.create_connection(listener.getsockname())
    receiver, _ = listener.accept()
    running = subprocess.Popen([program, 'replay'], stdin=receiver, stdout=subprocess.PIPE, stderr=subprocess.PIPE)
    sender.sendall(script[:place])
    waiting = array.array('i', [place])
    while waiting[0] > 0:
        time.sleep(0.01)
        fcntl.ioctl(receiver, termios.FIONREAD, waiting)
    sender.setsockopt(socket.SOL_SOCKET, socket.SO_LINGER, struct.pack('ii', 1, 0))
    sender.close()
    printed, said = running.communicate()
    for end in (receiver, listener):
        end.close()
    return running.returncode, printed, said


def places_of(script):
    """Before each record, and behind its head where a payload follows."""
    at = 0
    while at < len(script):
        size = struct.unpack('>I', script[at + 1:at + 5])[0]
        yield at
        if size:
            yield at + 5
        at += 5 + size


def reads(letters, count, *firsts):
    script = script_of(letters)
    places = list(places_of(script))
    if len(places) != int(count):
        failures.append(letters)
        print(f'runs.py: reads {letters}: {len(places)} reads')
    for number, place in enumerate(places):
        names = [name for first, name in zip(firsts[::2], firsts[1::2]) if number >= int(first)]
        compare(f'reads {letters} {number}', 3, printed_by(names), 'read_fault', cut_at(script, place))


def at_most(size):
    """A file may have so many bytes; a write past them fails."""
    def limit():
        signal.signal(signal.SIGXFSZ, signal.SIG_IGN)
        resource.setrlimit(resource.RLIMIT_FSIZE, (size, size))
    return limit


def writes(letters, *names):
    script = script_of(letters)
    for count in range(len(names)):
        printed = printed_by(names[:count])
        with tempfile.TemporaryFile() as out:
            done = subprocess.run([program, 'replay'], input=script, stdout=out, stderr=subprocess.PIPE, preexec_fn=at_most(len(printed)))
            out.seek(0)
            compare(f'writes {letters} {count}', 4, printed, 'write_fault', (done.returncode, out.read(), done.stderr))


for line in sys.stdin.read().splitlines():
    word, _, rest = line.partition(' ')
    name, _, text = rest.partition(' ')
    if word == 'record':
        records[name] = text
    elif word == 'block':
        blocks[name] = blocks.get(name, '') + text + '\n'
    elif word == 'run':
        run(*rest.split(' ', 3))
    elif word in ('reads', 'writes'):
        {'reads': reads, 'writes': writes}[word](*rest.split(' '))
    elif line and not line.startswith('#'):
        sys.exit(f'runs.py: {line}')
sys.exit(bool(failures))
