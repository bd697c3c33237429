#!/usr/bin/env python3
"""The digests (FNV-1a, 32 bits) that the tests of `assemble` and `drive` expect, computed by the model.
For `assemble`: all graphs of 1 to 5 tables, their pairs counted by the higher table and then by the lower; the complete graph and the
ring of 64 tables; and the two random graphs of crates/assemble_cases/src/graphs.rt.
For `drive`: all graphs of 1 to 5 tables with every choice of as many of their joins as marks as a spanning tree has; the complete graph
and the ring of 64 tables; the two random graphs with their trees of crates/drive_cases/src/graphs.rt; and the ring of four tables, cut
off at every length and changed at every byte."""
import os, re, sys
sys.path.insert(0, os.path.dirname(os.path.abspath(__file__)))
from model import assemble, drive

def digest(h, data):
    for x in data:
        h = ((h ^ x) * 16777619) & 0xffffffff
    return h

SEED = 2166136261

def query(n, joins, marks=(), rows=()):
    out = 'G%5d%5d     \n' % (n, len(joins))
    for v, w in joins:
        out += 'J     %5d%5d\n' % (v, w)
    for v, w in marks:
        out += 'M     %5d%5d\n' % (v, w)
    for t, c in rows:
        out += 'R%5d%10d\n' % (t, c)
    return out.encode()

def numbers(crate):
    """The arrays of numbers in a file of graphs, by their names."""
    path = os.path.join(os.path.dirname(os.path.abspath(__file__)), '../crates', crate, 'src/graphs.rt')
    found = re.findall(r'const (\w+): \[[^=]*\] = \[(.*?)\];', open(path).read(), re.S)
    return {name: [int(x, 0) for x in re.findall(r'\b(?:0x[0-9a-f]+|\d+)\b', body)] for name, body in found}

def paired(flat):
    return list(zip(flat[::2], flat[1::2]))

ALL = [(v, w) for w in range(64) for v in range(w)]
PATH = [(v, v + 1) for v in range(63)]

print('assemble')
for n in range(1, 6):
    pairs = [(v, w) for w in range(n) for v in range(w)]
    h = SEED
    for mask in range(1 << len(pairs)):
        h = digest(h, assemble(query(n, [p for i, p in enumerate(pairs) if mask >> i & 1])))
    print('all graphs of', n, 'tables:', h)
print('complete graph:', digest(SEED, assemble(query(64, ALL))))
print('ring:', digest(SEED, assemble(query(64, [(v, (v + 1) % 64) for v in range(64)]))))
for name, flat in numbers('assemble_cases').items():
    print(name + ':', digest(SEED, assemble(query(64, paired(flat)))))

print('drive')
for n in range(1, 6):
    pairs = [(v, w) for w in range(n) for v in range(w)]
    h = SEED
    for joins in range(1 << len(pairs)):
        for marks in range(joins + 1):
            if marks & ~joins == 0 and bin(marks).count('1') == n - 1:
                chosen = [[p for i, p in enumerate(pairs) if mask >> i & 1] for mask in (joins, marks)]
                rows = [(t, (joins * t ^ marks) // 2 % 4 - 1) for t in range(n)]
                h = digest(h, drive(query(n, *chosen, rows)))
    print('all graphs and trees of', n, 'tables:', h)
ROWS = [(t, 1000 + t) for t in range(64)]
print('complete graph, path:', digest(SEED, drive(query(64, sorted(ALL), PATH, ROWS))))
print('ring, path:', digest(SEED, drive(query(64, sorted(PATH + [(0, 63)]), PATH, ROWS))))
print('complete graph, star:', digest(SEED, drive(query(64, sorted(ALL), [(63, v) for v in range(63)], ROWS))))
graphs = numbers('drive_cases')
for name in ('SPARSE', 'DENSE'):
    joins = [(v, w) for v in range(64) for w in range(64) if graphs[name][v] >> w & 1]
    print(name + ':', digest(SEED, drive(query(64, joins, paired(graphs[name + '_MARKS']), ROWS))))
RING = query(4, [(0, 1), (1, 2), (2, 3), (0, 3)], PATH[:3])
text = RING + query(4, [], [], [(0, -1), (3, 900)])[17:]
h = SEED
for k in range(len(text)):
    h = digest(h, drive(text[:k]))
print('cut off:', h)
h = SEED
for byte in (0, 9, 10, 13, 32, 43, 45, 48, 49, 50, 51, 52, 57, 58, 68, 71, 72, 74, 77, 82, 88, 127, 255):
    for at in range(len(RING)):
        h = digest(h, drive(RING[:at] + bytes([byte]) + RING[at + 1:]))
print('damaged:', h)
