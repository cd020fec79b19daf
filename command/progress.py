"""How far a run is: on a terminal, once it has taken two seconds."""
import os
import time

from command.trouble import put, say

FIRST, EVERY, EVERY_LINE = 2.0, 0.5, 10.0  # seconds: a terminal's line is written over, in a file each is one more


class Progress:
    """Shown on a terminal, unless the list itself goes to one; `--progress` shows it elsewhere too, `--quiet` never."""

    def __init__(self, asked, trace, out):
        self.trace, self.terminal = trace, os.isatty(2)
        self.on = '--progress' in asked or '--quiet' not in asked and self.terminal and not os.isatty(out.descriptor)
        self.began = time.monotonic()
        self.due = self.began + FIRST
        self.shown = False

    def wait(self):
        """Milliseconds until something is to be shown; none where nothing is."""
        return max(0, int((self.due - time.monotonic()) * 1000) + 1) if self.on else None

    def show(self):
        now = time.monotonic()
        if not self.on or now < self.due:
            return
        self.due = now + (EVERY if self.terminal else EVERY_LINE)
        words = self.words(now - self.began)
        if self.terminal:
            put(2, f'\r\x1b[Knight-list: {words}')
            self.shown = True
        else:
            say(words)

    def words(self, seconds):
        cycles = f'{self.trace.cycles:,} cycles, {clock(seconds)}'
        if not self.trace.size:
            return cycles
        share = min(self.trace.read / self.trace.size, 1.0)
        left = f', {clock(seconds * (1 - share) / share)} left' if share > 0 else ''
        return f'{int(share * 100)} % of the trace read, {cycles}{left}'

    def clear(self):
        """Takes the line away again, before anything else is said."""
        if self.shown:
            put(2, '\r\x1b[K')
            self.shown = False


def clock(seconds):
    minutes, seconds = divmod(int(seconds), 60)
    hours, minutes = divmod(minutes, 60)
    return f'{hours}:{minutes:02}:{seconds:02}' if hours else f'{minutes}:{seconds:02}'
