"""One night: a trace in, its list out."""
import os
import re
import signal

from command import moving
from command.building import wanted
from command.built import started
from command.destination import destination
from command.naming import named, same_file
from command.progress import Progress
from command.refusals import WORDS, refusal
from command.source import open_trace
from command.trouble import INCOMPLETE, REFUSED, USAGE, WHOLE, Ended, Trouble, named_in_errors, say


def night(asked):
    """All that can be told without the program is told before it is built or run; a list is whole before that is said."""
    source, goal = named(asked.names[0], 0), named(asked.names[1], 1)
    trace = open_trace(source)
    if same_file(trace.opened, os.fstat(2)):
        os.dup2(os.open(os.devnull, os.O_WRONLY), 2)  # a word of ours would be written to the trace
        return USAGE
    out = destination(goal, trace)
    quiet = '--quiet' in asked
    program = wanted('--as-built' in asked, quiet)
    with named_in_errors(out.name):
        out.open(trace)
    try:
        letter, *numbers = listed(program, trace, out, Progress(asked, trace, out))
    except Trouble as trouble:
        raise Trouble(INCOMPLETE, f'{trouble}; the list is incomplete: {out.left}') from None
    except Ended as ended:
        say(f'ended by {signal.Signals(ended.number).name}; the list is incomplete: {out.left}')
        raise
    if letter == 'R':
        say(f'refused with {numbers[0]} after {numbers[1]} accepted cycles: {refusal(trace, *numbers)}')
        return REFUSED
    if not quiet:
        say(f'whole: {numbers[0]} cycles accepted, {numbers[1]} flits out')
    return WHOLE


def listed(program, trace, out, progress):
    """Runs the program and puts the list in its place; gives its last line."""
    try:
        tail = moving.run(started(program.folder), trace, out, progress)
    finally:
        progress.clear()
    last = last_line(tail)
    with named_in_errors(out.name):
        out.finish(trace)
    return last


def last_line(tail):
    """The letter and the numbers of the E or R line that makes a list whole; its newline belongs to it."""
    last = re.search(rb'(?:^|\n)(?:(E) (\d{1,10}) (\d{1,10})|(R) (\d{1,2}) (\d{1,10}) ([0-7]))\n\Z', tail)
    letter, *numbers = [word for word in last.groups() if word] if last else [b'']
    numbers = [int(word) for word in numbers]
    if not last or letter == b'R' and numbers[0] not in WORDS:
        raise Trouble(INCOMPLETE, 'the list has no last line, E or R')
    return [letter.decode(), *numbers]
