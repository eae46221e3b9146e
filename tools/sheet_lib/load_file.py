"""The load file, form 1: bytes to plain values and back.

Nothing here says whether a sheet is good. It tests no more than it needs to find the records, and it
writes what it is given. The proved programs judge.
"""
import struct
from collections import namedtuple

# limit None: no limit. mass None: the kind has no mass. rule: a place in RULES. name: only a text has it, and no file; None where it doesn't.
Sheet = namedtuple('Sheet', 'size margin spacing limit kinds lines unplaced')
Kind = namedtuple('Kind', 'id quantity size mass rule name', defaults=(None,))
Line = namedtuple('Line', 'id instance orientation bin at')

RULES = ('any', 'upright', 'fixed')

# Width, depth, height, margin, spacing, mass limit.
CONTAINER = struct.Struct('<6d')
# Id, quantity; three lengths, mass; rule, mass flag, two zero bytes.
KIND = struct.Struct('<2I4d2BH')
# Id, instance, orientation, bin; x, y, z.
LINE = struct.Struct('<4I3d')
UNPLACED = struct.Struct('<I')
# Starts of kinds, lines, unplaced ids and trailer; form; the last two bytes.
TRAILER = struct.Struct('<4IH2B')
FORM = 1
MARK = (76, 83)

# The six axis orders, and which of them a rule allows, first to last.
AXES = ((0, 1, 2), (0, 2, 1), (1, 0, 2), (1, 2, 0), (2, 0, 1), (2, 1, 0))
SHARES = ((0, 1, 2, 3, 4, 5), (0, 2), (0,))


class FileError(Exception):
    """The bytes cannot be read as a load file, or the text form has no words for what they hold."""


def lengths_as_placed(kind, orientation):
    """Width, depth and height of a box in an orientation. An index past the rule's list leaves it unrotated."""
    share = SHARES[kind.rule]
    if orientation >= len(share):
        return kind.size
    return tuple(kind.size[axis] for axis in AXES[share[orientation]])


def kinds_by_id(sheet):
    """Each id's kind. Where an id repeats, the first counts."""
    found = {}
    for kind in sheet.kinds:
        found.setdefault(kind.id, kind)
    return found


def looks_like_a_load_file(data):
    return len(data) >= CONTAINER.size + TRAILER.size and tuple(data[-2:]) == MARK and b'\0' in data


def write(sheet):
    """The bytes of a sheet."""
    limit = 0.0 if sheet.limit is None else sheet.limit
    body = [CONTAINER.pack(*sheet.size, sheet.margin, sheet.spacing, limit)]
    body += [_kind_record(kind) for kind in sheet.kinds]
    body += [LINE.pack(line.id, line.instance, line.orientation, line.bin, *line.at) for line in sheet.lines]
    body += [UNPLACED.pack(one) for one in sheet.unplaced]
    lines_at = CONTAINER.size + KIND.size * len(sheet.kinds)
    unplaced_at = lines_at + LINE.size * len(sheet.lines)
    trailer_at = unplaced_at + UNPLACED.size * len(sheet.unplaced)
    return b''.join(body) + TRAILER.pack(CONTAINER.size, lines_at, unplaced_at, trailer_at, FORM, *MARK)


def _kind_record(kind):
    massed = kind.mass is not None
    return KIND.pack(kind.id, kind.quantity, *kind.size, kind.mass if massed else 0.0, kind.rule, massed, 0)


def read(data):
    """The sheet that the bytes hold. FileError says why there is none."""
    kinds_at, lines_at, unplaced_at, trailer_at = _starts(data)
    *size, margin, spacing, limit = CONTAINER.unpack_from(data, 0)
    no_limit = data[CONTAINER.size - 8:CONTAINER.size] == bytes(8)
    kinds = [_kind(place, record) for place, record in enumerate(_records(KIND, data, kinds_at, lines_at, 'kinds'))]
    lines = [Line(*record[:4], record[4:]) for record in _records(LINE, data, lines_at, unplaced_at, 'lines')]
    unplaced = [one for one, in _records(UNPLACED, data, unplaced_at, trailer_at, 'unplaced ids')]
    return Sheet(tuple(size), margin, spacing, None if no_limit else limit, kinds, lines, unplaced)


def _starts(data):
    """The four starts that the trailer holds, once they can be followed."""
    if len(data) < CONTAINER.size + TRAILER.size:
        raise FileError('not a load file: %d bytes, and the shortest has %d' % (len(data), CONTAINER.size + TRAILER.size))
    *starts, form, first, last = TRAILER.unpack_from(data, len(data) - TRAILER.size)
    if (first, last) != MARK:
        raise FileError('not a load file: its last two bytes are %d, %d and not %d, %d' % (first, last, *MARK))
    if form != FORM:
        raise FileError('a load file of form %d, and this reads form %d' % (form, FORM))
    if starts[0] != CONTAINER.size or starts[3] != len(data) - TRAILER.size or sorted(starts) != starts:
        raise FileError('not a load file: the starts in its trailer, %s, do not fit its %d bytes'
                        % (', '.join(map(str, starts)), len(data)))
    return starts


def _records(form, data, start, end, name):
    if (end - start) % form.size:
        raise FileError('not a load file: the %s take %d bytes, which is not whole records of %d'
                        % (name, end - start, form.size))
    return list(form.iter_unpack(data[start:end]))


def _kind(place, record):
    """A kind from its record. The text form has no words for a record that every program refuses by 4."""
    number, quantity, *size, mass, rule, flag, filler = record
    said = 'kind record %d (id %d)' % (place, number)
    if rule >= len(RULES):
        raise FileError('%s has rule %d, and there are words for 0, 1 and 2 only' % (said, rule))
    if flag > 1 or filler:
        raise FileError('%s has mass flag %d and filler %d, and there are no words for these' % (said, flag, filler))
    if not flag and struct.pack('<d', mass) != bytes(8):
        raise FileError('%s has a mass but not the flag for one, and there are no words for this' % said)
    return Kind(number, quantity, tuple(size), mass if flag else None, rule)
