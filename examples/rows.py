#!/usr/bin/env python3
"""Compares the last block of each client in what a script prints with the rows that PostgreSQL had: `rows.py ROWS < OUTPUT`. ROWS has a line `client N` for each client, and
its rows below, as a block prints them. Each client whose rows are others has a line; the status is 1 then."""
import sys


def last_blocks(output):
    """The rows of each client's last block."""
    blocks, at = {}, 0
    while at < len(output):
        end = output.index(b'\n', at)
        words = output[at:end].split(b' ')
        at = end + 1
        if words[0] == b'reply':
            at += int(words[2]) + 1
        elif words[0] == b'client' and words[2] == b'up-to-date':
            rows = []
            for _ in range(int(words[5])):
                end = output.index(b'\n', at)
                rows.append(output[at:end])
                at = end + 1
            blocks[int(words[1])] = rows
    return blocks


def wanted_rows(lines):
    """The rows of each client in the file."""
    clients, rows = {}, []
    for line in lines:
        if line.startswith(b'client '):
            rows = clients[int(line.split(b' ')[1])] = []
        else:
            rows.append(line)
    return clients


with open(sys.argv[1], 'rb') as file:
    wanted = wanted_rows(file.read().splitlines())
got = last_blocks(sys.stdin.buffer.read())
wrong = [client for client in wanted.keys() | got.keys() if wanted.get(client) != got.get(client)]
for client in sorted(wrong):
    print(f'rows.py: {sys.argv[1]}: client {client}: {len(got.get(client, []))} rows in the place of {len(wanted.get(client, []))}, or others')
sys.exit(bool(wrong))
