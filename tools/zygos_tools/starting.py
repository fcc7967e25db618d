"""What a program does before it imports anything else. Any Python 3 can read this module."""
import _signal  # the modules that signal imports take long, and Ctrl-C may come meanwhile
import sys

# the least Python that the programs need
LEAST = (3, 9)


def start():  # type: () -> None
    """Ends the program with one line if this Python is too old. Until the program says otherwise, Ctrl-C ends it without a
    trace, while it imports its modules too, and also if it came while Python started: starting.sh has it wait."""
    if sys.version_info < LEAST:
        sys.exit("%s: Python %d.%d or later is needed, and this is %d.%d" % ((sys.argv[0],) + LEAST + sys.version_info[:2]))
    if _signal.getsignal(_signal.SIGINT) in (_signal.default_int_handler, _signal.SIG_IGN):
        _signal.signal(_signal.SIGINT, _signal.SIG_DFL)
    _signal.pthread_sigmask(_signal.SIG_UNBLOCK, [_signal.SIGINT])
