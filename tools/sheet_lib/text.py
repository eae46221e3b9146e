"""The text form of an order or a sheet: what a packer writes and reads.

A text says what a load file says, one entry to a line. It is read without judging: a length of 0 or
an id that repeats goes into the load file as it stands, and the proved programs refuse it by number.
What is refused here is what a load file cannot hold, and what is not written as it should be.
"""
import codecs
import difflib
import math
import re
from collections import namedtuple

from . import load_file

HELP = """\
The text form of an order or a sheet

One entry to a line. What follows a # is a comment. Numbers have a decimal point (0.1), and all
lengths are in one unit of your choice. A decimal is read as the nearest binary64 number.

  container WIDTH DEPTH HEIGHT    the case, inside. Must be there
  margin LENGTH                   air along the walls; 0 if left out
  spacing LENGTH                  air between boxes; 0 if left out
  limit MASS                      the most mass that the case takes; 'limit none' or left out: no limit
  kind ID name "WORDS" quantity N size WIDTH DEPTH HEIGHT rule RULE mass MASS
                                  N boxes of one kind. RULE says how it may be turned: any (six ways),
                                  upright (two) or fixed (one). 'mass MASS' may be left out, and the
                                  name too: it is shown in lists and pictures, and no load file has it

An order ends here. A sheet also says where boxes are and which kinds are short:

  line ID instance N at X Y Z orientation N bin N
                                  one box. Instances of a kind are counted from 0. X Y Z is the corner
                                  nearest 0. The orientation is its place among the ways that the
                                  rule allows, from 0. 'orientation' and 'bin' are 0 if left out
  unplaced ID ID ...              kinds of which a box is left out

ID and N are whole numbers up to 4294967295. After its id, the fields of a kind or a line may come in
any order. Findings count lines from 0, in the order in which they are written.

Any:     0 w d h   1 w h d   2 d w h   3 d h w   4 h w d   5 h d w
Upright: 0 w d h   1 d w h
Fixed:   0 w d h                  (the box's width, depth and height as they lie along x, y and z)
"""

# Where in the text things stand, counted from 1: the entries on the case by their word, each kind, line and unplaced id.
Places = namedtuple('Places', 'case kinds lines unplaced')

MOST_WHOLE = 2 ** 32 - 1
_NUMBER = re.compile(r'[+-]?([0-9]+(\.[0-9]*)?|\.[0-9]+)([eE][+-]?[0-9]+)?')
_COMMA = re.compile(r'[+-]?[0-9]+,[0-9]+')
_THOUSANDS = re.compile(r'[+-]?[1-9][0-9]{0,2}(,[0-9]{3})+(\.[0-9]+)?')
_WHOLE = re.compile(r'[0-9]+')
# A word of a line: what stands in quotes is one, with them.
_WORD = re.compile(r'"[^"]*"|[^\s"#]+|["#]')
# As different machines end a line.
_LINE_END = re.compile(r'\r\n|\n|\r')


class TextError(Exception):
    """What is wrong with a text: a list of (line, message), the line counted from 1."""

    def __init__(self, faults):
        super().__init__('\n'.join('line %d: %s' % fault for fault in faults))
        self.faults = faults


class _Fault(Exception):
    """What is wrong with one line."""


# ---- words to values

def _quoted(word):
    """A word for a message: not too long, and with nothing in it that a screen does not show."""
    word = word if len(word) <= 40 else word[:37] + '...'
    return "'%s'" % ''.join(letter if letter.isprintable() else '\\x%02x' % ord(letter) for letter in word)


def _number(word, name):
    if _THOUSANDS.fullmatch(word):
        raise _Fault("%s: write %s, without a comma, not '%s'%s" % (
            name, word.replace(',', ''), word, '; if it is a fraction, write it with a point' if word.count(',') == 1 and '.' not in word else ''))
    if _COMMA.fullmatch(word):
        raise _Fault("%s: write %s, with a point, not '%s'" % (name, word.replace(',', '.'), word))
    if not _NUMBER.fullmatch(word):
        raise _Fault("%s: %s is not a number; write one like 4 or 0.25, and no unit" % (name, _quoted(word)))
    value = float(word)
    if math.isinf(value):
        raise _Fault("%s: %s is too large for a binary64 number, of which the largest is some 1.8e308" % (name, _quoted(word)))
    return value


def _whole(word, name):
    digits = word.lstrip('0') or '0'
    if not _WHOLE.fullmatch(word) or len(digits) > 10 or int(digits) > MOST_WHOLE:
        raise _Fault("%s: %s is not a whole number from 0 to %d" % (name, _quoted(word), MOST_WHOLE))
    return int(digits)


def _rule(word, name):
    if word not in load_file.RULES:
        raise _Fault("%s: %s is not a rule: write any, upright or fixed%s" % (name, _quoted(word), near(word, load_file.RULES)))
    return load_file.RULES.index(word)


def _limit(word, name):
    if word == 'none':
        return None
    value = _number(word, name)
    if value == 0:
        raise _Fault("limit: in a load file 0 stands for no limit, so a limit of 0 cannot be written; write 'limit none', or a limit above 0")
    return value


def _name(word, name):
    if not word.startswith('"'):
        raise _Fault('%s: write it in quotes, like "drive tray", and not %s' % (name, _quoted(word)))
    if not word[1:-1].strip() or not word.isprintable():
        raise _Fault('%s: %s has nothing in it that a screen shows, or something that it does not' % (name, _quoted(word)))
    return word[1:-1]


def _words_of(line):
    """The words of a line up to its comment."""
    out = []
    for word in _WORD.findall(line):
        if word == '#':
            break
        if word == '"':
            raise _Fault('a quote (") is opened in this line and not closed')
        out.append(word)
    return out


def near(word, words):
    """A question after one of the words, if a word is like it, else nothing."""
    found = difflib.get_close_matches(word.lower(), list(words), 1)
    return " (did you mean '%s'?)" % found[0] if found else ''


# Each field's value: how many words, how each is read, what to call them.
_FIELDS = {
    'container': (3, _number, 'WIDTH DEPTH HEIGHT'), 'margin': (1, _number, 'LENGTH'),
    'spacing': (1, _number, 'LENGTH'), 'limit': (1, _limit, 'MASS'),
    'quantity': (1, _whole, 'N'), 'size': (3, _number, 'WIDTH DEPTH HEIGHT'),
    'mass': (1, _number, 'MASS'), 'rule': (1, _rule, 'RULE'),
    'instance': (1, _whole, 'N'), 'at': (3, _number, 'X Y Z'),
    'orientation': (1, _whole, 'N'), 'bin': (1, _whole, 'N'), 'name': (1, _name, '"WORDS"'),
}
# The entries that say one thing about the case, and those with fields: which must be there, and what the others are if left out.
_CASE = ('container', 'margin', 'spacing', 'limit')
_ENTRIES = {
    'kind': (('quantity', 'size', 'rule'), {'mass': None, 'name': None}),
    'line': (('instance', 'at'), {'orientation': 0, 'bin': 0}),
}
_WORDS = _CASE + tuple(_ENTRIES) + ('unplaced',)


def _value(field, words):
    """Takes a field's value off the front of the words that follow its name."""
    count, reader, names = _FIELDS[field]
    taken = words[:count]
    for word in taken:
        if word in _FIELDS or word in _WORDS:
            taken = taken[:taken.index(word)]
            break
    if len(taken) < count:
        raise _Fault("%s needs %s after it%s, and has %s" % (
            field, names, ' (three numbers, with spaces between)' if count > 1 else '', _quoted(' '.join(taken)) if taken else 'nothing'))
    values = tuple(reader(word, field) for word in taken)
    return (values if count > 1 else values[0]), words[count:]


def _entry(word, words):
    """The id and the fields of a kind or a line."""
    must, may = _ENTRIES[word]
    if not words or words[0] in _FIELDS:
        raise _Fault("%s needs an id after it, and has %s" % (word, _quoted(words[0]) if words else 'nothing'))
    number, words = _whole(words[0], word + ' id'), words[1:]
    known, found = must + tuple(may), dict()
    while words:
        field, words = words[0], words[1:]
        if field not in known:
            raise _Fault("%s is not a field of a %s, which has %s%s" % (_quoted(field), word, ', '.join(known), near(field, known)))
        if field in found:
            raise _Fault('%s is there twice' % field)
        found[field], words = _value(field, words)
    missing = [field for field in must if field not in found]
    if missing:
        raise _Fault('this %s (id %d) has no %s' % (word, number, ' and no '.join(missing)))
    return number, {**may, **found}


# ---- the whole text

class _Reader:
    """Reads line by line and keeps what was found, faults too, so that all of them are told at once."""

    def __init__(self):
        self.case, self.kinds, self.lines, self.unplaced = {}, [], [], []
        self.places, self.faults = Places({}, [], [], []), []
        # whether a line says what the container is, perhaps with a misspelt word
        self.container = False

    def take(self, number, line):
        try:
            words = _words_of(line)
            if words:
                self.say(number, words[0], words[1:])
        except _Fault as fault:
            self.faults.append((number, str(fault)))

    def say(self, number, word, words):
        if word in _CASE:
            self.say_case(number, word, words)
        elif word == 'kind':
            self.places.kinds.append(number)
            one, f = _entry(word, words)
            self.kinds.append(load_file.Kind(one, f['quantity'], f['size'], f['mass'], f['rule'], f['name']))
        elif word == 'line':
            self.places.lines.append(number)
            one, f = _entry(word, words)
            self.lines.append(load_file.Line(one, f['instance'], f['orientation'], f['bin'], f['at']))
        elif word == 'unplaced':
            if not words:
                raise _Fault('unplaced needs an id after it, or leave the line out')
            self.unplaced += [_whole(each, 'unplaced id') for each in words]
            self.places.unplaced.extend([number] * len(words))
        else:
            meant = near(word, _WORDS)
            self.container = self.container or 'container' in meant
            raise _Fault("a line begins with %s or %s, and not with %s%s"
                         % (', '.join(_WORDS[:-1]), _WORDS[-1], _quoted(word), meant))

    def say_case(self, number, word, words):
        if word in self.places.case:
            raise _Fault('%s is there twice; the first is in line %d' % (word, self.places.case[word]))
        self.places.case[word] = number
        self.container = self.container or word == 'container'
        self.case[word], rest = _value(word, words)
        if rest:
            raise _Fault("%s has more after it than %s: %s" % (word, _FIELDS[word][2], _quoted(' '.join(rest))))

    def sheet(self, count):
        if not self.container:
            self.faults.append((count, "the text ends and no line says 'container WIDTH DEPTH HEIGHT'"))
        if self.faults:
            raise TextError(self.faults)
        case = {'margin': 0.0, 'spacing': 0.0, 'limit': None, **self.case}
        return load_file.Sheet(case['container'], case['margin'], case['spacing'], case['limit'],
                               self.kinds, self.lines, self.unplaced)


def read(data):
    """The sheet that a text (bytes, UTF-8) holds, and where its kinds and lines stand. TextError tells every fault."""
    if load_file.looks_like_a_load_file(data):
        raise TextError([(1, 'this is a load file and not a text (a name in .txt is read as a text)')])
    lines = _LINE_END.split(_decoded(data))
    reader = _Reader()
    for number, line in enumerate(lines, 1):
        reader.take(number, line)
    count = len(lines) - 1 if len(lines) > 1 and not lines[-1] else len(lines)
    return reader.sheet(count), reader.places


def _decoded(data):
    if data.startswith((codecs.BOM_UTF16_LE, codecs.BOM_UTF16_BE)):
        raise TextError([(1, 'this is UTF-16 text; save it as UTF-8')])
    data = data[len(codecs.BOM_UTF8):] if data.startswith(codecs.BOM_UTF8) else data
    try:
        return data.decode('utf-8')
    except UnicodeDecodeError as error:
        # what stands before the byte is good UTF-8
        line = len(_LINE_END.split(data[:error.start].decode('utf-8')))
        raise TextError([(line, 'the byte %02X here is not UTF-8 text; save the file as UTF-8' % data[error.start])]) from None


# ---- names of kinds

def names_of(sheet):
    """The names of a sheet's kinds, by id."""
    return {kind.id: kind.name for kind in reversed(sheet.kinds) if kind.name}


def named(sheet, order):
    """A sheet that came from a load file, with the names that the kinds have in the order's text."""
    names = names_of(order)
    return sheet._replace(kinds=[kind._replace(name=names.get(kind.id)) for kind in sheet.kinds])


def kind_said(number, names):
    """A kind's id, with its name if it has one: 7 (drive tray)."""
    return '%d (%s)' % (number, names[number]) if number in names else '%d' % number


def kinds_said(numbers, names):
    """Some ids, with the names of those that have one."""
    return (', ' if any(number in names for number in numbers) else ' ').join(kind_said(number, names) for number in numbers)


# ---- values to text

def number(value):
    """The shortest decimal that reads back to the same bits, whole numbers without '.0'."""
    if not math.isfinite(value):
        raise load_file.FileError('the file holds %r, and there are no words for it' % value)
    text = repr(float(value))
    return text[:-2] if text.endswith('.0') else text


def numbers(values, between=' '):
    return between.join(map(number, values))


def _columns(rows):
    """Rows of words, each column as wide as its widest word. A column with no words is left out."""
    widths = [max(map(len, column)) for column in zip(*rows)]
    return ['  '.join(word.ljust(width) for word, width in zip(row, widths) if width).rstrip() for row in rows]


def _kind_row(kind):
    row = ['kind %d' % kind.id, 'name "%s"' % kind.name if kind.name else '', 'quantity %d' % kind.quantity,
           'size ' + numbers(kind.size), 'rule ' + load_file.RULES[kind.rule]]
    return row + ['' if kind.mass is None else 'mass ' + number(kind.mass)]


def _line_row(place, line, kinds):
    note = '# %d' % place
    if line.id in kinds:
        name = kinds[line.id].name
        note += ': %s%s' % (name + ', ' if name else '', numbers(load_file.lengths_as_placed(kinds[line.id], line.orientation), ' x '))
    return ['line %d' % line.id, 'instance %d' % line.instance, 'at ' + numbers(line.at),
            'orientation %d' % line.orientation, 'bin %d' % line.bin if line.bin else '', note]


def write(sheet):
    """The text of a sheet. Reading it gives the same sheet, and writing that gives the same text."""
    names = names_of(sheet)
    out = ['container %s  # width depth height' % numbers(sheet.size), 'margin ' + number(sheet.margin),
           'spacing ' + number(sheet.spacing), 'limit ' + ('none' if sheet.limit is None else number(sheet.limit))]
    if sheet.kinds:
        out += [''] + _columns([_kind_row(kind) for kind in sheet.kinds])
    if sheet.lines:
        kinds = load_file.kinds_by_id(sheet)
        name = "its kind's name, " if names else ''
        out += ['', "# After each line: its number as findings give it, %sand the box's lengths along x, y and z." % name]
        out += _columns([_line_row(place, line, kinds) for place, line in enumerate(sheet.lines)])
    if sheet.unplaced:
        out.append('')
        for first in range(0, len(sheet.unplaced), 16):
            some = sheet.unplaced[first:first + 16]
            said = [names[number] for number in some if number in names]
            out.append('unplaced ' + ' '.join(map(str, some)) + ('  # ' + ', '.join(said) if said else ''))
    return '\n'.join(out) + '\n'
