"""The command line: words in, what is asked for out."""
from command.trouble import USAGE, Trouble, shown

USAGE_LINES = """\
usage: night-list [--quiet | --progress] [--as-built] TRACE LIST
       night-list --build [--take-over] [--quiet]
       night-list --version | --help
"""

HELP = USAGE_LINES + """
The list of a trace, by the proved program. '-' is standard input or output.

LIST appears whole or not at all: it is written to LIST.part, which takes its name when the last line is there. What is no
regular file (a pipe, a device, '-') is written as it comes, and the status says whether it is whole. TRACE is never written.

  --build      prove and build the program of this tree, if that is not done; the first use does it too, in some minutes
  --take-over  with --build: what rt ci has proved of the same files on this machine is not proved again
  --as-built   run what was built, though the tree has changed since
  --progress   tell how far it is, also where standard error is no terminal
  --quiet      tell nothing but what went wrong
  --version    what was built, and what this tree is
  --           what follows are names

status 0  the list ends in E: whole
       1  the list ends in R: whole, up to the first refusal, which standard error has in words
       2  the list is incomplete: a file could not be opened, read or written, or the program failed
       3  usage: these words are not understood, or TRACE and LIST are one file
       4  the program is not built
       5  the tree is not what was built
A signal (SIGINT, SIGTERM, SIGHUP) ends the program and the command by that signal; the list is then incomplete.
"""

# each use: the options that it may have, and how many names
USES = {
    '--build': ({'--build', '--take-over', '--quiet'}, 0),
    '--version': ({'--version'}, 0),
    '--help': ({'--help'}, 0),
    None: ({'--quiet', '--progress', '--as-built'}, 2),
}
OPTIONS = set().union(*(options for options, _ in USES.values()))


class Asked:
    """The options and the names, or a Trouble that says the usage."""

    def __init__(self, words):
        end = words.index('--') if '--' in words else len(words)
        # one dash makes no option: a list may be named -f
        self.options = {word for word in words[:end] if word.startswith('--')}
        self.names = [word for word in words[:end] if not word.startswith('--')] + words[end + 1:]
        use = next((use for use in USES if use in self.options), None)
        options, names = USES[use]
        unknown = sorted(self.options - OPTIONS)
        if unknown:
            self.refuse(f'there is no option {shown(unknown[0])}')
        if not self.options <= options or {'--quiet', '--progress'} <= self.options:
            self.refuse('these options do not go together')
        if len(self.names) != names or '' in self.names:
            self.refuse(f'{use} takes no names' if use else 'TRACE and LIST are wanted')

    def refuse(self, words):
        raise Trouble(USAGE, f'{words}\n{USAGE_LINES}')

    def __contains__(self, option):
        return option in self.options
