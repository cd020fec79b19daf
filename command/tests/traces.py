"""Small traces, byte by byte as document 01 has them, and their lists, written down by hand."""
import operator
import os

from command.blocks import BLOCK, CHECK
from command.tree import ROOT

# the listing's router: three ports, one VC, depth two
SIZES = (3, 1, 2, 2, 1, 1, 1)
# document 01's printed lines, as the gate holds the program to them
with open(os.path.join(ROOT, 'crates', 'night_list', 'stdout'), encoding='utf-8') as printed:
    LISTING = printed.read()


def sealed(data):
    """A block with its check."""
    data = bytearray(data.ljust(BLOCK, b'\0'))
    data[CHECK:] = (sum(map(operator.mul, range(1, CHECK + 1), data)) % 65521).to_bytes(2, 'big')
    return bytes(data)


def block(kind, count, number, body):
    return sealed(bytes([kind, count]) + number.to_bytes(4, 'big') + bytes(2) + body)


def row(kind=0, vc=0, destination=0, credit=0, payload=0):
    return bytes([kind, vc, destination, credit]) + payload.to_bytes(4, 'big')


def cycle(rows):
    """A cycle from its ports' rows."""
    return b''.join(rows.get(port, row()) for port in range(8))


def trace(cycles, sizes=SIZES, total=None):
    """A file: the configuration, the cycles by sevens, the end."""
    blocks = [block(1, 0, 0, bytes(sizes))]
    for at in range(0, len(cycles), 7):
        held = cycles[at:at + 7]
        blocks.append(block(2, len(held), len(blocks), b''.join(held)))
    blocks.append(block(3, 0, len(blocks), (len(cycles) if total is None else total).to_bytes(4, 'big')))
    return b''.join(blocks)


def idle(cycles):
    """A trace in which nothing is offered."""
    return trace([cycle({})] * cycles)


def busy(cycles):
    """Port 0 offers a single for port 1 in every cycle, and downstream gives each credit back: the trace, and its list by hand."""
    rows = [{0: row(4, 0, 1, 0, t), 1: row(credit=1 if t >= 2 else 0)} for t in range(cycles)]
    lines = []
    for t in range(1, cycles):  # what is offered in t leaves in t + 1, and its credit is home in t + 2
        lines += [f'C {t} 0 0\n'] if t >= 2 else []
        lines.append(f'F {t} 1 0 0 0 S {t - 1:08x}\n')
    return trace([cycle(rows_of) for rows_of in rows]), ''.join(lines) + f'E {cycles} {cycles - 1}\n'


def changed(data, at, value, seal=True):
    """A trace with one byte changed, the check of its block made right again or not."""
    data = bytearray(data)
    data[at] = value
    start = at // BLOCK * BLOCK
    if seal:
        data[start:start + BLOCK] = sealed(bytes(data[start:start + CHECK]))
    return bytes(data)
