"""A trace's blocks, read once more to say in words what the proved program refused. Nothing here decides what a list has."""

BLOCK, ROW, PART, BODY, CHECK = 512, 8, 64, 8, 510
CONFIGURATION, CYCLES, END = 1, 2, 3
KINDS = {CONFIGURATION: 'a configuration block', CYCLES: 'a block of cycles', END: 'an end block'}
PIECE = 1 << 20


def check_of(block):
    return sum((i + 1) * byte for i, byte in enumerate(block[:CHECK])) % 65521


def number_at(block, at, length):
    return int.from_bytes(block[at:at + length], 'big')


def block_at(trace, number):
    return trace.again(number * BLOCK, BLOCK)


def reached(trace, cycles):
    """The first block before which so many cycles stand, or else the one that holds the cycle of that number; and the cycles before it."""
    at, before = max(mark for mark in trace.marks if mark[1] < cycles or mark[0] == 0)
    while before < cycles:
        counts = trace.again(at, PIECE)[1::BLOCK]
        if not counts:
            break
        for count in counts:
            if before == cycles or before + count > cycles:
                return at // BLOCK, before
            at, before = at + BLOCK, before + count
    return at // BLOCK, before


def row_of(trace, cycles, port):
    """The row of a port in the cycle of that number, with its block and its place there."""
    number, before = reached(trace, cycles)
    while True:  # a configuration block brings no cycle
        block = block_at(trace, number)
        if len(block) < BLOCK:
            return None
        if before + block[1] > cycles:
            break
        number, before = number + 1, before + block[1]
    place = cycles - before
    at = BODY + place * PART + port * ROW
    return (number, place, block[at:at + ROW]) if at + ROW <= CHECK else None


def faults(block, number, accepted):
    """What number 8 finds in a block before the end of the file, each in words."""
    kind, count = block[0], block[1]
    if kind not in KINDS:
        return [f'kind: byte 0 is {kind}, not 1, 2 or 3']
    found = []
    if number_at(block, 2, 4) != number:
        found.append(f'number: bytes 2 to 5 say {number_at(block, 2, 4)}')
    used = {CONFIGURATION: 15, CYCLES: BODY + PART * count, END: 12}[kind]
    if kind == CYCLES and not 1 <= count <= 7:
        found.append(f'count: byte 1 is {count}, not 1 to 7')
        used = CHECK  # which bytes are unused is not known then
    elif kind != CYCLES and count:
        found.append(f'count: byte 1 is {count}, and only a block of cycles has one')
    for at in [6, 7, *range(used, CHECK)]:
        if block[at]:
            found.append(f'unused byte: byte {at} is {block[at]}')
            break
    if (number == 0) != (kind == CONFIGURATION):
        found.append(f'place: it is {KINDS[kind]}, ' + ('and only the first is' if number else 'and the first is the configuration'))
    if kind == END and number_at(block, 8, 4) != accepted:
        found.append(f'end total: bytes 8 to 11 say {number_at(block, 8, 4)}, accepted were {accepted}')
    return found
