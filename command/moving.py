"""The program between two pipes of its own. Every byte passes through here, so that an error comes in the system's words, and a
stream of the caller's that does not block, which to the program would look like one that fails, is waited for."""
import os
import select
import signal
import subprocess

from command.trouble import INCOMPLETE, Trouble, named_in_errors

PIECE = 1 << 16
TAIL = 64  # more than two of a list's longest lines


def run(command, trace, out, progress):
    """Hands the trace to the program and its list to its place; gives the end of the list. The program has ended then, however it went."""
    pipe = subprocess.PIPE
    with named_in_errors(command[0]):  # no environment: it reads none, and an emulator or a loader would
        program = subprocess.Popen(command, stdin=pipe, stdout=pipe, stderr=pipe, bufsize=0, env={})
    try:
        passage = Passage(program, trace, out)
        while passage.goes_on():
            passage.move(progress.wait())
            progress.show()
        program.wait()
    finally:
        program.kill()
        program.wait()
        for end in (program.stdin, program.stdout, program.stderr):
            end.close()
    if program.returncode < 0:
        raise Trouble(INCOMPLETE, f'the program was ended by {signal.Signals(-program.returncode).name}')
    # it has no status of its own: what it says on standard error is what went wrong
    if program.returncode or passage.said:
        said = passage.said.decode(errors='replace').strip() or f'it ended with status {program.returncode}'
        raise Trouble(INCOMPLETE, f'the program failed: {said}')
    return passage.tail


class Passage:
    """Bytes on their way: from the trace to the program, from the program to the list."""

    def __init__(self, program, trace, out):
        self.program, self.trace, self.out = program, trace, out
        self.to_program = self.to_list = self.tail = self.said = b''
        self.feed, self.listed, self.saying = (end.fileno() for end in (program.stdin, program.stdout, program.stderr))
        os.set_blocking(self.feed, False)
        self.feeding, self.open_ends = True, {self.listed, self.saying}

    def goes_on(self):
        """Until the program has closed its list. Its input it may close before: at a refusal it reads no further."""
        return self.open_ends or self.to_list

    def move(self, wait):
        """Waits until something can be moved, and moves it."""
        steps = {self.saying: (select.POLLIN, self.take_said)} if self.saying in self.open_ends else {}
        if self.to_list:  # no more is taken before this is written
            steps[self.out.descriptor] = select.POLLOUT, self.give_list
        elif self.listed in self.open_ends:
            steps[self.listed] = select.POLLIN, self.take_list
        if self.feeding and self.to_program:
            steps[self.feed] = select.POLLOUT, self.give_trace
        elif self.feeding:
            steps[self.trace.descriptor] = select.POLLIN, self.take_trace
        polled = select.poll()
        for end, (event, _) in steps.items():
            polled.register(end, event)
        for end, _ in polled.poll(wait):
            steps[end][1]()

    def take_trace(self):
        data = now(self.trace.name, os.read, self.trace.descriptor, PIECE)
        if data is None:
            return
        self.trace.passed(data)
        self.to_program = data
        if not data:
            self.feeding = False
            self.program.stdin.close()

    def give_trace(self):
        try:
            self.to_program = self.to_program[os.write(self.feed, self.to_program):]
        except BrokenPipeError:
            self.feeding = False

    def take_list(self):
        self.to_list = os.read(self.listed, PIECE)
        self.tail = (self.tail + self.to_list)[-TAIL:]
        if not self.to_list:
            self.open_ends.remove(self.listed)

    def give_list(self):
        count = now(self.out.name, os.write, self.out.descriptor, self.to_list) or 0
        self.to_list, self.out.written = self.to_list[count:], self.out.written + count

    def take_said(self):
        said = os.read(self.saying, PIECE)
        self.said += said
        if not said:
            self.open_ends.remove(self.saying)


def now(name, call, *words):
    """What a read or a write gives, or nothing where a stream that does not block is not ready after all."""
    with named_in_errors(name):
        try:
            return call(*words)
        except BlockingIOError:
            return None
