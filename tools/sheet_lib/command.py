"""What the commands of tools/sheet and ./waikurpeho share: files in and out, and errors that a person can act on."""
import os
import sys
import tempfile
import traceback

from . import findings, load_file, streams, text


class Problem(Exception):
    """Ends a command with a message and an exit status. refused: the number of the refusal that brings it, or 0."""

    def __init__(self, message, status=2, refused=0):
        super().__init__(message)
        self.status, self.refused = status, refused


# ---- words of the command line

def take_output(words):
    """Takes '-o NAME' out of the words. Gives the rest and NAME, or None. A folder that is not there is told before anything runs."""
    if '-o' not in words:
        return words, None
    at = words.index('-o')
    if at + 1 == len(words):
        raise Problem("-o needs a file's name after it")
    rest = words[:at] + words[at + 2:]
    if '-o' in rest:
        raise Problem('-o is there twice')
    out = words[at + 1]
    if not os.path.isdir(os.path.dirname(out) or '.'):
        raise Problem('%s cannot be written: there is no folder %s' % (out, os.path.dirname(out)))
    return rest, out


def take_options(words, known):
    """Takes '--NAME' and '--NAME=VALUE' out of the words. Gives the rest, and the values by name, None where there is none."""
    rest, found = [word for word in words if not word.startswith('--')], {}
    for word in words:
        if word.startswith('--'):
            name, equals, value = word[2:].partition('=')
            if name not in known or (equals and name != 'csv'):
                raise Problem("'%s' is not an option here; the options are %s" % (word, ', '.join('--' + each for each in known)))
            found[name] = value or None
    return rest, found


def want(words, count, usage):
    if len(words) != count:
        raise Problem('usage: %s %s' % (_program(), usage))
    return words


def _program():
    return os.path.basename(sys.argv[0])


# ---- files in

def read_bytes(name):
    try:
        if name == '-':
            return sys.stdin.buffer.read()
        with open(name, 'rb') as source:
            return source.read()
    except OSError as error:
        raise Problem('%s cannot be read: %s' % (name, error.strerror)) from None


def is_text(name):
    return name.lower().endswith('.txt')


def text_sheet(data, name):
    """A text's sheet, and where in it the kinds and lines stand."""
    try:
        return text.read(data)
    except text.TextError as error:
        faults = ['%s: line %d: %s' % (name, *fault) for fault in error.faults[:20]]
        if len(error.faults) > 20:
            faults.append('%s: and %d more' % (name, len(error.faults) - 20))
        raise Problem('\n'.join(faults)) from None


def sheet_of(data, name):
    try:
        return load_file.read(data)
    except load_file.FileError as error:
        raise Problem('%s: %s' % (name, error)) from None


def read_findings(name):
    try:
        return findings.read(read_bytes(name).decode('utf-8', 'replace'))
    except findings.FindingsError as error:
        raise Problem('%s: %s' % (name, error)) from None


# ---- what goes out

def put(out, data, inputs):
    """Writes text or bytes to a file. Where out is None or '-' it gives them back as bytes, for standard output."""
    data = data.encode('utf-8') if isinstance(data, str) else data
    if out in (None, '-'):
        if b'\0' in data and sys.stdout.isatty():
            raise Problem('a load file is not for the screen: give -o FILE')
        return data
    if any(os.path.exists(out) and os.path.exists(name) and os.path.samefile(out, name) for name in inputs):
        raise Problem('%s is what was read: give -o another name' % out)
    try:
        _write(out, data)
    except OSError as error:
        raise Problem('%s cannot be written: %s' % (out, error.strerror)) from None
    return b''


def _write(out, data):
    """Writes a file whole or not at all: beside its place, and then moved into it. What is no plain file is written as it is."""
    if os.path.exists(out) and not os.path.isfile(out):
        with open(out, 'wb') as target:
            target.write(data)
        return
    out = os.path.realpath(out)
    number, beside = tempfile.mkstemp('.part', '.waikurpeho.', os.path.dirname(out))
    try:
        with open(number, 'wb') as target:
            target.write(data)
            target.flush()
            os.fsync(number)
            os.fchmod(number, _mode(out))
        os.replace(beside, out)
    except BaseException:
        os.remove(beside)
        raise


def _mode(out):
    """The mode that a file has, or that a new one gets."""
    if os.path.exists(out):
        return os.stat(out).st_mode & 0o7777
    mask = os.umask(0)
    os.umask(mask)
    return 0o666 & ~mask


def as_text(sheet, name):
    try:
        return text.write(sheet)
    except load_file.FileError as error:
        raise Problem('%s: %s' % (name, error)) from None


def draw(sheet, result, name, engine=None):
    # loaded here, as it takes a while that other commands need not wait
    from . import picture
    refused = bool(result) and result.refused not in (0, 6)
    try:
        # a name may have bytes that are no UTF-8
        return picture.draw(sheet, result, os.fsencode(os.path.basename(name)).decode('utf-8', 'replace'), engine)
    except load_file.FileError as error:
        raise Problem('%s: %s' % (name, error), 1 if refused else 2) from None


def with_sentences(result, places=None, parts=None, names=()):
    """What check_sheet printed, and below each line a comment that says it in words. parts: what the sheet has, in words. names: those of its
    kinds, by id."""
    if result.refused:
        needed = '' if result.needed is None else ' %d' % result.needed
        return 'refused %d%s\n    # %s\n' % (result.refused, needed, findings.refusal_in_words(result.refused))
    out = ['findings %d' % len(result.findings)]
    for finding in result.findings:
        out += [finding.said, '    # ' + findings.in_words(finding, places, names)]
    if not result.findings:
        out.append('    # looked at %s: %s' % (parts or 'the sheet', findings.LOOKED_FOR))
    return '\n'.join(out + ['    # ' + findings.NOT_JUDGED, '    # ' + findings.UPWARDS]) + '\n'


# ---- the command itself

def main(commands, words):
    """Runs the command that the first word names, and ends the program with its status."""
    streams.settle(_program())
    sys.exit(streams.flushed(_status(commands, words)))


def _status(commands, words):
    """What a command ends with, and whatever happens it is not 1 but where the command says so."""
    try:
        return _run(commands, words) or 0
    except Problem as problem:
        streams.tell(str(problem))
        return problem.status
    except streams.Lost as lost:
        return streams.lost(lost.args[0])
    except OSError as error:
        # files are read and written above with words of their own
        streams.tell(str(error))
        return 2
    except KeyboardInterrupt:
        return 2
    except Exception:  # a fault of this tool
        streams.tell(traceback.format_exc().rstrip())
        return 2


def _run(commands, words):
    if not words:
        words = ['help']
    name, words = words[0], words[1:]
    name = {'-h': 'help', '--help': 'help', '--version': 'version'}.get(name, name)
    if name not in commands:
        raise Problem("there is no command '%s'%s; the commands are %s" % (name, text.near(name, commands), ', '.join(commands)))
    if words in (['-h'], ['--help']):
        name, words = 'help', [name]
    return commands[name](words)
