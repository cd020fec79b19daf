"""What the command says on standard error, and how it ends."""
import os
import select
import signal
from contextlib import contextmanager

# the exit statuses; --help and docs/FORMATS.md say the same
WHOLE, REFUSED, INCOMPLETE, USAGE, NOT_BUILT, OUT_OF_DATE = range(6)


class Trouble(Exception):
    """Ends the command with a status and words."""

    def __init__(self, status, words):
        super().__init__(words)
        self.status = status


class Ended(BaseException):
    """A signal asked the command to end."""

    def __init__(self, number):
        super().__init__(number)
        self.number = number


@contextmanager
def named_in_errors(name):
    """What the system refuses of a file ends the command in the system's words."""
    try:
        yield
    except OSError as fault:
        raise Trouble(INCOMPLETE, f'{shown(name)}: {os.strerror(fault.errno)}') from None


def shown(name):
    """A file's name as a message has it: odd characters are not sent to a terminal."""
    return name if name.isprintable() else ascii(name)


def say(words):
    """A line on standard error. By the descriptor: where it is closed, Python would print to standard output, into the list."""
    put(2, f'night-list: {words}\n')


def put(descriptor, text):
    """Writes all of a text, also to a stream that does not block; tells whether it could."""
    left = text.encode(errors='backslashreplace')
    while left:
        try:
            left = left[os.write(descriptor, left):]
        except BlockingIOError:
            waiting = select.poll()
            waiting.register(descriptor, select.POLLOUT)
            waiting.poll()
        except OSError:
            return False
    return True


def hold_standard_descriptors():
    """A closed one must not become the next file opened: a message would land in a list. What stands in cannot be read or written."""
    for descriptor, other_way in ((0, os.O_WRONLY), (1, os.O_RDONLY), (2, os.O_RDONLY)):
        try:
            os.fstat(descriptor)
        except OSError:
            os.open(os.devnull, other_way)  # the lowest free number, which is this one


ENDING = (signal.SIGHUP, signal.SIGINT, signal.SIGTERM)


def catch_signals():
    """Makes a signal an exception, so that what was begun is cleaned up; one that the caller had ignored stays so (nohup)."""

    def ended(number, _frame):
        ignore_signals()  # cleaning up takes a moment, and nothing stays behind
        raise Ended(number)

    for number in ENDING:
        if signal.getsignal(number) != signal.SIG_IGN:
            signal.signal(number, ended)


def ignore_signals():
    """From here on the outcome stands."""
    for number in ENDING:
        signal.signal(number, signal.SIG_IGN)


@contextmanager
def signals_held():
    """For a step that must not be told half done: a signal waits until it is over."""
    before = signal.pthread_sigmask(signal.SIG_BLOCK, ENDING)
    try:
        yield
    finally:
        signal.pthread_sigmask(signal.SIG_SETMASK, before)


def end_by(number):
    """Ends as the signal would have, so that a caller's loop ends too; the status is for one that lets us live."""
    signal.signal(number, signal.SIG_DFL)
    os.kill(os.getpid(), number)
    return INCOMPLETE
