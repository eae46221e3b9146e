"""A file that was named: read as a text or a load file by what it holds, and a refusal of it in words."""
import re

from . import bounds, command, findings, load_file, locate, text
from .command import Problem
from .programs import CHECK, run

# A line that a text has and that nothing else is likely to have.
_ENTRY = re.compile(rb'^[ \t]*(container|margin|spacing|limit|kind|line|unplaced)[ \t]', re.M)
# What takes room in a load file, how much, how many there may be, and what to call them.
_ROOM = ((b'kind', load_file.KIND.size, bounds.MOST_KINDS, 'kinds'), (b'line', load_file.LINE.size, bounds.MOST_LINES, 'lines'),
         (b'unplaced', load_file.UNPLACED.size, bounds.MOST_UNPLACED, 'unplaced ids'))
_UTF_16 = (text.codecs.BOM_UTF16_LE, text.codecs.BOM_UTF16_BE)


def is_text(name, data):
    """Whether a file is a text: by its name, or by what it holds. A load file has bytes that are 0, and a text has none."""
    return command.is_text(name) or data.startswith(_UTF_16) or (b'\0' not in data and bool(_ENTRY.search(data)))


def read_sheet(name):
    """The sheet of a text or a load file. For a text also where its kinds and lines stand, else None."""
    data = command.read_bytes(name)
    return read_text(name, data) if is_text(name, data) else (command.sheet_of(data, name), None)


def read_text(name, data):
    over = _overfull(data)
    if over:
        raise Problem('%s: line %d: %s' % (name, *over))
    return command.text_sheet(data, name)


def _overfull(data):
    """Where a text has more than a load file has room for, the line that is past a bound and that bound; else None.

    A text that a load file has room for is left to the proved programs, however much it has.
    """
    if len(data) < bounds.MOST_BYTES // 16:
        return None
    data = data.replace(b'\r\n', b'\n').replace(b'\r', b'\n')
    rows = {b'kind': [], b'line': [], b'unplaced': []}
    for entry in _ENTRY.finditer(data):
        ids = len(data[entry.end():_end(data, entry.end())].split(b'#')[0].split()) if entry.group(1) == b'unplaced' else 1
        rows.get(entry.group(1), []).extend([entry.start(1)] * ids)
    if sum(size * len(rows[word]) for word, size, _, _ in _ROOM) <= bounds.MOST_BYTES:
        return None
    for word, _, most, said in _ROOM:
        if len(rows[word]) > most:
            return 1 + data.count(b'\n', 0, rows[word][most]), 'at most %s %s, and this text has %s' % (bounds.told(most), said, bounds.told(len(rows[word])))
    return None


def _end(data, at):
    """Where the line ends in which a place lies."""
    found = data.find(b'\n', at)
    return len(data) if found < 0 else found


class Source:
    """A file's bytes as a load file, and for a text what it holds and where. data: its bytes, where they are known."""

    def __init__(self, name, data=None):
        self.name, self.sheet, self.places = name, None, None
        self.data = command.read_bytes(name) if data is None else data
        if is_text(name, self.data):
            self.sheet, self.places = read_text(name, self.data)
            self.data = load_file.write(self.sheet)

    def named(self, sheet):
        """A sheet planned from this, with the names that its kinds have in the text."""
        return text.named(sheet, self.sheet) if self.sheet else sheet

    def names(self):
        """The names of the kinds, by id. A load file has none."""
        return text.names_of(self.sheet) if self.sheet else {}

    def cause(self, number, program):
        """The line of a text that brings a program's refusal, or None, and the refusal as a sentence."""
        entry, line = None, None
        if self.places and number != 6:
            entry, line = locate.entry_of(self.sheet, self.places, number, lambda data: refusal_by(program, data))
        return line, findings.refusal_in_words(number, entry) + (self._too_long() if number == 1 else '')

    def _too_long(self):
        """What is too much in a load file that is refused for its length."""
        if len(self.data) <= bounds.MOST_BYTES:
            return ''
        told = ': at most %s bytes, and this has %s' % (bounds.told(bounds.MOST_BYTES), bounds.told(len(self.data)))
        try:
            kinds = len(load_file.read(self.data).kinds)
        except load_file.FileError:
            return told
        return told + (', with %s kinds (at most %d kinds)' % (bounds.told(kinds), bounds.MOST_KINDS) if kinds > bounds.MOST_KINDS else '')

    def refusal_in_words(self, number, program=CHECK):
        """The same with the file before it. Findings count a sheet's lines, so it says that this is a line of the text."""
        line, why = self.cause(number, program)
        return '%s: %s%s' % (self.name, 'line %d of the text: ' % line if line else '', why)

    def refusal(self, number, then):
        """What ends a command whose file is refused, as the check refuses it. then: what comes of it."""
        line, why = self.cause(number, CHECK)
        return Problem('%s: %srefused %d: %s; %s' % (self.name, 'line %d: ' % line if line else '', number, why, then), 1, number)


def number_of(words):
    """N of 'refused N' or 'refused N COUNT', or 0 for other words."""
    told = len(words) in (2, 3) and words[0] == 'refused' and all(word.isdigit() for word in words[1:])
    return int(words[1]) if told else 0


def refusal_by(program, data):
    return number_of(run(program, data)[0].decode('utf-8', 'replace').split())
