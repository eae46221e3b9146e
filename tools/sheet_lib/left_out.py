"""What a plan leaves out, counted from the planned sheet and put in words. Which boxes these are, the planner alone decides."""
from collections import Counter, namedtuple

from . import text

# The kinds that a row has room for.
MOST_IN_A_ROW = 5
# A kind of an order and its name or None, how many boxes it asks for and how many of them a plan places.
Share = namedtuple('Share', 'id name quantity placed')


def shares(sheet):
    """Each kind's share of a planned sheet, in the order of the kinds."""
    placed = Counter(line.id for line in sheet.lines)
    return [Share(kind.id, kind.name, kind.quantity, placed[kind.id]) for kind in sheet.kinds]


def totals(sheet):
    """How many boxes are asked for, and how many of them are left out."""
    asked = sum(kind.quantity for kind in sheet.kinds)
    return asked, asked - len(sheet.lines)


def in_words(sheet):
    """A line for each kind of which boxes are left out, so many of so many, and why nothing fits where nothing does."""
    return ['left out: ' + one for one in _short(sheet)] + _nothing(sheet)


def in_a_row(sheet):
    """The same in one line, of no more than some kinds."""
    short = _short(sheet)
    more = ['%d kinds more' % (len(short) - MOST_IN_A_ROW)] if len(short) > MOST_IN_A_ROW else []
    return '; '.join((['left out: ' + ', '.join(short[:MOST_IN_A_ROW] + more)] if short else []) + _nothing(sheet))


def _short(sheet):
    names = text.names_of(sheet)
    return ['kind %s: %d of %d' % (text.kind_said(one.id, names), one.quantity - one.placed, one.quantity) for one in shares(sheet) if one.placed < one.quantity]


def _nothing(sheet):
    """What is told where no box is placed, with a reason that is plain to see. It is no judgement: the planner has given that."""
    if sheet.lines or not sheet.kinds:
        return []
    if all(any(length > room for length, room in zip(sorted(kind.size), sorted(sheet.size))) for kind in sheet.kinds):
        least = min(sheet.kinds, key=lambda kind: sorted(kind.size)).size
        return ['no box is placed: the boxes are larger than the case, %s in a case of %s; are all lengths in one unit?'
                % (text.numbers(least, ' x '), text.numbers(sheet.size, ' x '))]
    if sheet.limit is not None and all(kind.mass is not None and kind.mass > sheet.limit for kind in sheet.kinds):
        return ['no box is placed: each is heavier than the limit, %s' % text.number(sheet.limit)]
    return ['no box is placed']


def side_by_side(plans):
    """The kinds of an order with what each placer leaves out of them, a line each. plans: planned sheets by their placer."""
    engines, names = list(plans), text.names_of(next(iter(plans.values())))
    rows = [['kind', 'asked'] + ['left out by ' + engine for engine in engines]]
    for each in zip(*(shares(plans[engine]) for engine in engines)):
        rows.append([text.kind_said(each[0].id, names), str(each[0].quantity)] + [str(one.quantity - one.placed) for one in each])
    sums = [totals(plans[engine]) for engine in engines]
    rows.append(['all', str(sums[0][0])] + [str(left) for _, left in sums])
    out = [''.join(word.rjust(width + 2) for word, width in zip(row, [max(map(len, column)) for column in zip(*rows)])) for row in rows]
    for engine in engines:
        out += ['%s: %s' % (engine, line) for line in _nothing(plans[engine])]
    return '\n'.join(out) + '\n'
