"""The words of a picture: what the sheet says of the case, what the check said, the kinds with their colours, a key."""
import textwrap

from . import findings, load_file, paint, text
from .labels import say
from .views import Rect

WIDTH, ROW = 440.0, 17.0
MOST_LISTED = 24

NOT_JUDGED = '%s. %s.' % (findings.NOT_JUDGED.capitalize(), findings.UPWARDS.capitalize())


def _say_all(values):
    return ' × '.join(map(say, values))


def _count(things, name):
    return '%d %s%s' % (len(things), name, '' if len(things) == 1 else 's')


def _legend(kind, lines, mark, most):
    """The rows that tell of a kind: one if that is short enough."""
    said = '%s%d%s: %s, %s' % (mark, kind.id, ' ' + kind.name if kind.name else '', _say_all(kind.size), load_file.RULES[kind.rule])
    said += '' if kind.mass is None else ', mass %s' % say(kind.mass)
    wanted = 'wanted %d, lines %d' % (kind.quantity, lines)
    one = '%s; %s' % (said, wanted)
    return [one] if len(one) <= most else textwrap.wrap(said + ';', most) + [wanted]


class Panel:
    """Written from its own top left corner downwards; nothing is cut, and what is long goes on in the next row. height: where it ends."""

    def __init__(self, sheet, result, title, layered=False):
        self.out, self.height = [], 22.0
        for row in textwrap.wrap(title, 36):
            self.add(0, row, 17, bold=True)
            self.height += 24
        self.names = text.names_of(sheet)
        self.about(sheet)
        self.banner(result)
        found = result.findings if result else []
        self.findings(found)
        self.kinds(sheet, {number for finding in found for number in findings.kinds_of(finding)})
        self.key(any(map(findings.lines_of, found)), layered)

    def add(self, x, words, size=12.0, fill=paint.INK, bold=False):
        self.out.append(paint.text(x, self.height, words, size, fill, bold=bold))

    def rows(self, x, rows, size=12.0, fill=paint.INK, bold=False):
        for row in rows:
            self.add(x, row, size, fill, bold)
            self.height += ROW

    def about(self, sheet):
        limit = 'none' if sheet.limit is None else say(sheet.limit)
        self.rows(0, ['case %s (width × depth × height)' % _say_all(sheet.size),
                      'margin %s, spacing %s, mass limit %s' % (say(sheet.margin), say(sheet.spacing), limit),
                      '%s, %s' % (_count(sheet.lines, 'line'), _count(sheet.kinds, 'kind'))])
        self.rows(0, textwrap.wrap('unplaced kinds: ' + (text.kinds_said(sheet.unplaced, self.names) or 'none'), 60))

    def banner(self, result):
        if result is None:
            words, colour = 'NOT CHECKED', paint.GREY
        elif result.refused:
            words, colour = 'CHECKED: %s findings, too many to list or mark' % result.needed, paint.RED
        elif result.findings:
            words, colour = 'CHECKED: ' + _count(result.findings, 'finding'), paint.RED
        else:
            words, colour = 'CHECKED: no findings', paint.GREEN
        self.out.append(paint.rect(Rect(0, self.height - 4, WIDTH, self.height + 24), colour, round_by=5))
        self.height += 15
        self.add(10, words, 14, '#ffffff', bold=True)
        self.height += 29
        clean = result is not None and not result.refused and not result.findings
        self.rows(0, textwrap.wrap(('Looked for: %s. ' % findings.LOOKED_FOR if clean else '') + NOT_JUDGED, 72), 11, paint.GREY)
        self.height += 8

    def findings(self, found):
        for finding in found[:MOST_LISTED]:
            self.add(0, '!', 12, paint.RED, bold=True)
            self.rows(12, textwrap.wrap(findings.in_words(finding, None, self.names), 62))
        if len(found) > MOST_LISTED:
            self.rows(12, ['and %d more; the check lists them all' % (len(found) - MOST_LISTED)])
        self.height += 10

    def kinds(self, sheet, flagged):
        """The colour of each kind, and what is wanted of it. flagged: ids of kinds that a finding is on."""
        self.add(0, 'Kinds', 13, bold=True)
        self.height += 21
        for place, kind in enumerate(sheet.kinds):
            swatch = Rect(0, self.height - 13, 34, self.height + 4)
            self.out.append(paint.rect(swatch, 'url(#%s)' % paint.kind_fill(place), paint.INK, 0.9))
            red = kind.id in flagged
            rows = _legend(kind, sum(line.id == kind.id for line in sheet.lines), '! ' if red else '', 56 if red else 64)
            self.rows(42, rows, 11, paint.RED if red else paint.INK, bold=red)
            self.height += 4
        self.height += 9

    def key(self, flagged, layered):
        """What the marks in the views stand for."""
        said = ['In a box: its kind and the number of its line (7 #3: kind 7, line 3), or its line alone (#3). Lines are counted from 0. '
                'A box without a number has it in another view.']
        if layered:
            said.append('In a layer also: i2 is instance 2, z 100 the height of its underside, and h up, w up or d up which of its own '
                        'lengths is upwards: height, width or depth. What finds no room in a box stands beside the layer.')
        if flagged:
            said.append('Red hatching and ! 3: line 3 has a finding. Dashed, and ! 3 in white: another box hides it in this view. '
                        'A cross: a line of no listed kind, or one that lies far outside.')
        for words in said:
            self.rows(0, textwrap.wrap(words, 72), 11, paint.GREY)
