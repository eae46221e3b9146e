"""Which line of a text brings a refusal. The proved programs find it: they are asked about the first
part of the text, and about a longer or shorter part, until one more entry makes the difference."""
from . import load_file


def _pieces(places):
    """The entries of a text in the order of a load file: what each is, and where it stands."""
    out = [(word, places.case[word]) for word in ('container', 'margin', 'spacing', 'limit') if word in places.case]
    for word, rows in (('kind', places.kinds), ('line', places.lines), ('unplaced', places.unplaced)):
        out += [(word, row) for row in rows]
    return out


def _first_part(sheet, words):
    """The sheet that has these entries alone. A part without its container gets a case of 1 by 1 by 1."""
    return load_file.Sheet(sheet.size if 'container' in words else (1.0, 1.0, 1.0),
                           sheet.margin if 'margin' in words else 0.0,
                           sheet.spacing if 'spacing' in words else 0.0,
                           sheet.limit if 'limit' in words else None,
                           sheet.kinds[:words.count('kind')], sheet.lines[:words.count('line')],
                           sheet.unplaced[:words.count('unplaced')])


def entry_of(sheet, places, number, refusal_of):
    """The entry without which, and without what follows it, the refusal is not this number: its first word and its line.

    Two times None if there is none. refusal_of: the number that a program gives for a load file's bytes.
    """
    pieces = _pieces(places)
    words = [word for word, _ in pieces]

    def refused(count):
        return refusal_of(load_file.write(_first_part(sheet, words[:count]))) == number

    low, high = 0, len(pieces)
    if refused(low) or not refused(high):
        return None, None
    while high - low > 1:
        middle = (low + high) // 2
        low, high = (low, middle) if refused(middle) else (middle, high)
    return pieces[high - 1]
