"""`night-list`, from its words to its status."""
from command import building, built
from command.asked import HELP, Asked
from command.night import night
from command.tree import ROOT, commit
from command.trouble import INCOMPLETE, WHOLE, Ended, Trouble, catch_signals, end_by, hold_standard_descriptors, put, say


def main(words):
    """Does what is asked and gives the status; 0 and 1 only where a list is whole."""
    hold_standard_descriptors()
    try:
        catch_signals()
        return told(words)
    except Ended as ended:
        return end_by(ended.number)


def told(words):
    try:
        return done(Asked(words))
    except Trouble as trouble:
        say(str(trouble).rstrip('\n'))
        return trouble.status
    except Exception as fault:  # whatever it is: Python's own status, 1, would say that a list ends in R
        say(f'the command failed: {type(fault).__name__}: {fault}')
        return INCOMPLETE


def done(asked):
    if '--help' in asked:
        return WHOLE if put(1, HELP) else INCOMPLETE
    if '--version' in asked:
        return WHOLE if put(1, version()) else INCOMPLETE
    if '--build' not in asked:
        return night(asked)
    build = building.build('--quiet' in asked, '--take-over' in asked)
    if '--quiet' not in asked:
        say(f'built from {build.commit}: {build.check}')
    return WHOLE


def version():
    """What was built, as its record has it, and what the tree is now."""
    build = built.current()
    lines = [f'night-list, built from {build.commit} on {build.when}', build.check, build.kit] if build else ['night-list, not built']
    return '\n'.join([*lines, f'this tree: {commit(ROOT)}', ''])
