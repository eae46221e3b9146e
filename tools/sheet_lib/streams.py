"""The standard streams at their edges: closed, full, or a pipe that nobody reads."""
import os
import signal
import sys

# The program's name in messages.
_named = ['waikurpeho']


class Lost(Exception):
    """Standard output takes no more: the OSError that told so."""


def settle(program):
    """Makes the three streams fit for use, and a stop by TERM or HUP end a command as Ctrl-C does. program: its name in messages."""
    _named.append(program)
    # so that no file that is opened later takes a closed stream's number. What stands in for it refuses input and output as a closed one does
    for number, way in ((0, os.O_WRONLY), (1, os.O_RDONLY), (2, os.O_WRONLY)):
        try:
            os.fstat(number)
        except OSError:
            os.set_inheritable(os.open(os.devnull, way), True)
    sys.stdin = sys.stdin or open(0)
    sys.stdout = sys.stdout or open(1, 'w')
    sys.stderr = sys.stderr or open(2, 'w')
    # a file's name may have bytes that are no UTF-8: they go out as they came in
    sys.stdout.reconfigure(errors='surrogateescape')
    for stop in (signal.SIGTERM, signal.SIGHUP):
        if signal.getsignal(stop) == signal.SIG_DFL:
            signal.signal(stop, signal.default_int_handler)


def say(data):
    """Prints text or bytes on standard output. Lost where it takes no more."""
    try:
        if isinstance(data, str):
            sys.stdout.write(data)
        else:
            sys.stdout.flush()
            sys.stdout.buffer.write(data)
        sys.stdout.flush()
    except OSError as error:
        raise Lost(error) from None


def tell(message):
    """Prints a message on the error stream, each line of it with the program's name."""
    try:
        for line in message.split('\n'):
            print('%s: %s' % (_named[-1], line), file=sys.stderr, flush=True)
    except OSError:
        _to_nowhere(2)


def pass_on(words):
    """Prints on the error stream what another program said."""
    try:
        print(words, end='', file=sys.stderr, flush=True)
    except OSError:
        _to_nowhere(2)


def lost(error):
    """Standard output took no more. Nobody needs to hear that a pipe was closed. The status to end with."""
    _to_nowhere(1)
    if not isinstance(error, BrokenPipeError):
        tell('standard output cannot be written: %s' % error.strerror)
    return 2


def flushed(status):
    """The status to end with once what was printed is out."""
    try:
        sys.stdout.flush()
        return status
    except OSError as error:
        return lost(error)


def _to_nowhere(number):
    """Lets what is left in a stream's buffer go nowhere, so that the end of the program does not try it again."""
    try:
        os.dup2(os.open(os.devnull, os.O_WRONLY), number)
    except OSError:
        pass
