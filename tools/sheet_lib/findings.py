"""What the program check_sheet prints, read and put in words. Nothing is judged here."""
import re
import struct
from collections import namedtuple

from . import bounds, text
from .bounds import told

# refused 0: the sheet was accepted. needed: the number that follows refusal 6, else None.
Result = namedtuple('Result', 'refused needed findings')
# fields: numbers, the floats as Python floats. said: the line as the program printed it.
Finding = namedtuple('Finding', 'name fields said')

# A finding's fields, and its sentence. A field 'line' is a line's number, from 0; 'bits' is a float.
FORMS = {
    'unknown': (('line', 'id'), 'line {0}: there is no kind {1}'),
    'out-of-range': (('line', 'id', 'instance', 'quantity'),
                     'line {0}: instance {2} of kind {1} is past its quantity, {3} (instances are counted from 0)'),
    'repeated': (('line', 'id', 'instance'), 'line {0}: instance {2} of kind {1} is on an earlier line too'),
    'orientation': (('line', 'id', 'index'), 'line {0}: the rule of kind {1} has no orientation {2}'),
    'bin': (('line', 'bin'), 'line {0}: bin {1}, and there is one case, bin 0'),
    'outside': (('line', 'id'), 'line {0}: a box of kind {1} is past a wall, or in its margin'),
    'overlap': (('line', 'line'), 'lines {0} and {1}: the boxes overlap'),
    'too-close': (('line', 'line', 'bits', 'bits'), 'lines {0} and {1}: {2} apart, where the spacing is {3}'),
    'mass': (('bits', 'bits'), 'the boxes weigh {0}, and the limit is {1}'),
    'missing': (('id',), 'kind {0}: not all its boxes are on the sheet, and it is not listed as unplaced'),
    'wrongly-unplaced': (('id',), 'kind {0}: listed as unplaced, but complete, listed before, or not a kind of this sheet'),
}

# What each of a finding's fields is called in JSON and CSV (docs/OUTPUT.md).
NAMES = {
    'unknown': ('line', 'kind'), 'out-of-range': ('line', 'kind', 'instance', 'quantity'), 'repeated': ('line', 'kind', 'instance'),
    'orientation': ('line', 'kind', 'orientation'), 'bin': ('line', 'bin'), 'outside': ('line', 'kind'), 'overlap': ('line', 'other_line'),
    'too-close': ('line', 'other_line', 'distance', 'spacing'), 'mass': ('mass', 'limit'), 'missing': ('kind',), 'wrongly-unplaced': ('kind',),
}

# What a check looks for, and what it does not judge.
LOOKED_FOR = 'ids, instances, orientations, bins, walls and margin, overlaps, spacing, mass, missing and wrongly unplaced kinds'
NOT_JUDGED = "support and stability are not judged: that stays with the depot's test bench"
UPWARDS = 'spacing and margin hold upwards too, so boxes may stand off each other'

REFUSALS = {
    1: 'the shape of the load file is wrong',
    2: 'a count or the total quantity is over its bound',
    3: 'a measure or a position is outside its range',
    4: 'a kind has quantity 0 (or its record has a wrong rule, mass flag, filler or mass)',
    5: "an id repeats an earlier kind's",
    6: 'there are more findings than the program has room for, which is ' + told(bounds.SLOTS),
    7: 'the placer already holds as many boxes as it can',
    8: 'a length of the container or of a kind is not whole or is over %s, so there is no fill per thousand' % told(bounds.MOST_SIDE),
    9: "an instance list holds a kind past the order's kinds",
}

_LENGTH = 'a length is from %s to %s' % (told(bounds.LEAST_LENGTH), told(bounds.MOST))
_MEASURE = 'it is from 0 to %s, and not -0' % told(bounds.MOST)

# What refusals 2 and 3 ask of the entry of a text that brings them.
BOUNDS = {
    2: {'kind': 'at most %s kinds, and %s boxes of all kinds together' % (told(bounds.MOST_KINDS), told(bounds.MOST_BOXES)),
        'line': 'at most %s lines' % told(bounds.MOST_LINES), 'unplaced': 'at most %s ids' % told(bounds.MOST_UNPLACED)},
    3: {'container': _LENGTH, 'margin': _MEASURE, 'spacing': _MEASURE,
        'limit': 'it is above 0, and %s or less' % told(bounds.MOST_LIMIT),
        'kind': '%s, a mass from 0 to %s and not -0' % (_LENGTH, told(bounds.MOST)),
        'line': 'a position is from -%s to %s' % (told(bounds.MOST), told(bounds.MOST))},
}

_BITS = re.compile(r'[0-9A-F]{16}')
_WHOLE = re.compile(r'[0-9]+')


class FindingsError(Exception):
    """The text is not what check_sheet prints."""


def read(said):
    """The result that a print of check_sheet holds. Empty lines and lines that begin with # say nothing."""
    lines = [(number, line.strip()) for number, line in enumerate(said.split('\n'), 1)]
    lines = [(number, line) for number, line in lines if line and not line.startswith('#')]
    if not lines:
        raise FindingsError('there is nothing in it; expected what check_sheet prints')
    (number, head), rest = lines[0], lines[1:]
    words = head.split()
    if not all(map(_WHOLE.fullmatch, words[1:])):
        words = []
    if words[:1] == ['refused'] and len(words) in (2, 3) and not rest:
        return Result(int(words[1]), int(words[2]) if len(words) == 3 else None, [])
    if words[:1] != ['findings'] or len(words) != 2:
        raise FindingsError("line %d: expected 'findings N' or 'refused N', found '%s'" % (number, head))
    if int(words[1]) != len(rest):
        raise FindingsError('line %d: it says %s findings, and %d follow' % (number, words[1], len(rest)))
    return Result(0, None, [_finding(number, line) for number, line in rest])


def _finding(number, line):
    name, *words = line.split()
    if name not in FORMS:
        raise FindingsError("line %d: '%s' is not the name of a finding" % (number, name))
    fields = FORMS[name][0]
    forms = [_BITS if field == 'bits' else _WHOLE for field in fields]
    if len(words) != len(fields) or not all(form.fullmatch(word) for form, word in zip(forms, words)):
        raise FindingsError("line %d: '%s' needs %s after it, found '%s'" % (number, name, ', '.join(fields), ' '.join(words)))
    values = [float_of(word) if field == 'bits' else int(word) for field, word in zip(fields, words)]
    return Finding(name, tuple(values), line)


def float_of(bits):
    """The float whose bits are these 16 hex digits."""
    return struct.unpack('>d', bytes.fromhex(bits))[0]


def parts(sheet):
    """What a sheet has, in words."""
    counts = ((len(sheet.kinds), 'kind'), (len(sheet.lines), 'line'), (len(sheet.unplaced), 'unplaced id'))
    return ', '.join('%d %s%s' % (count, name, '' if count == 1 else 's') for count, name in counts)


def lines_of(finding):
    """The numbers of the lines that a finding is on."""
    return [value for value, field in zip(finding.fields, FORMS[finding.name][0]) if field == 'line']


def kinds_of(finding):
    """The ids of the kinds that a finding is on which is on no line."""
    fields = FORMS[finding.name][0]
    return [] if 'line' in fields else [value for value, field in zip(finding.fields, fields) if field == 'id']


def in_words(finding, places=None, names=()):
    """A finding as a sentence. places: where each line stands in the text that the sheet came from. names: those of its kinds, by id."""
    fields, form = FORMS[finding.name]
    said = {'bits': _plain, 'id': lambda number: text.kind_said(number, names)}
    values = [said[field](value) if field in said else value for value, field in zip(finding.fields, fields)]
    said = form.format(*values)
    rows = [places[line] for line in lines_of(finding) if line < len(places)] if places else []
    if rows:
        said += ' [line%s %s of the text]' % ('s' if len(rows) > 1 else '', ' and '.join(map(str, rows)))
    return said


def _plain(value):
    return repr(value) if value != value or value in (float('inf'), float('-inf')) else text.number(value)


def refusal_in_words(number, entry=None):
    """A refusal as a sentence. entry: the first word of the text line that brings it."""
    asked = BOUNDS.get(number, {}).get(entry)
    return REFUSALS.get(number, 'a number that this tool has no words for') + (': ' + asked if asked else '')
