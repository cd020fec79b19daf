"""The R line in words: what its number says and, where the trace can be asked again, where it was and what stood there."""
from command.blocks import BLOCK, CHECK, END, block_at, check_of, faults, number_at, reached, row_of

WORDS = {
    1: 'a configuration value is out of range',
    2: 'the state is not sound',
    3: 'a row breaks the byte rules, or its VC, destination or credit is too large',
    4: 'a body or tail without an open packet, or a head or single inside one',
    5: 'no sender credit',
    6: 'a credit from downstream where the output VC already has all',
    7: "a block's check is wrong",
    8: "a block's kind, number, count, an unused byte, its place in the file or the end total is wrong",
    9: 'a block has fewer than 512 bytes, or the input ends before the end block',
    10: 'the run already has 1,000,000,000 cycles',
}
FIELDS = {1: ('P', 8), 2: ('V', 4), 3: ('D', 16), 4: ('E', 16), 5: ('F', 8), 6: ('B', 8), 7: ('the arbiter code', 2)}
LETTERS = {1: 'H', 2: 'B', 3: 'T', 4: 'S'}


def refusal(trace, number, cycles, place):
    """A refusal in words; of the trace only what agrees with the R line is said."""
    words = WORDS[number]
    if number == 1:
        words += f', field {place}'
    elif 3 <= number <= 6:
        words += f', port {place}'
    more = details(trace, number, cycles, place)
    return words + (f'; {more}' if more else '')


def details(trace, number, cycles, place):
    """What the trace has there, where it can still be asked."""
    try:
        if not trace.still_there():
            return None
        if number == 1:
            return field(trace, place)
        if 3 <= number <= 6:
            return row(trace, number, cycles, place)
        if number in (7, 8):
            return block(trace, number, cycles)
        if number == 9:
            return end(trace)
    except (OSError, LookupError):
        pass  # the list has the answer; these words only help
    return None


def field(trace, place):
    letter, most = FIELDS[place]
    return f'{letter} is {block_at(trace, 0)[7 + place]}, not 1 to {most}'


def row(trace, number, cycles, port):
    found = row_of(trace, cycles, port)
    if found is None:
        return None
    at, place, data = found
    kind, vc, credit = data[0], data[1], data[3]
    words = f'block {at}, its cycle {place}, row {data[:4].hex(" ")} {data[4:].hex()}'
    if number == 4 and kind in LETTERS:
        words = f'{LETTERS[kind]} on VC {vc}, where ' + ('no' if kind in (2, 3) else 'a') + f' packet is open: {words}'
    elif number == 5:
        words = f'VC {vc}: {words}'
    elif number == 6 and credit:
        words = f'output VC {credit - 1}: {words}'
    return words


def block(trace, number, cycles):
    """The block that was refused: of those before which the accepted cycles stand, the first with such a fault."""
    at, before = reached(trace, cycles)
    ended = at > 0 and block_at(trace, at - 1)[0] == END
    while before == cycles:
        data = block_at(trace, at)
        if number == 8 and ended and data:
            return f'block {at}: place: it comes after the end block'
        if len(data) < BLOCK:
            return None
        stored, formed = number_at(data, CHECK, 2), check_of(data)
        if stored != formed:
            return f'block {at}: its check says {stored}, its bytes give {formed}' if number == 7 else None
        found = faults(data, at, cycles)
        if found:
            return f'block {at}: {"; ".join(found)}' if number == 8 else None
        ended = data[0] == END
        at, before = at + 1, before + data[1]
    return None


def end(trace):
    at, left = divmod(trace.read, BLOCK)
    if trace.read == 0:
        return 'the trace is empty'
    return f'block {at} has {left} bytes' if left else f'the trace ends after {at} blocks, and none of them is an end block'
