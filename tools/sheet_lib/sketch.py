"""One view of a case as SVG elements, from its own top left corner: the case with its measures, the boxes with their
labels, and what the check program found, in red."""
from collections import namedtuple

from . import findings, labels, paint, text, views
from .views import Rect

# Room above a view for its name and a note, room below it for its axis, and the least room that a view gets across.
CAPTION, BELOW, NARROWEST = 36.0, 46.0, 190.0
TICK = 11.0
NAMES = ('x, width →', 'y, depth →', 'z, height →')

# What was drawn. hidden, labelled: the places of the boxes that others hide, and of the lines that have a label.
Drawn = namedtuple('Drawn', 'out hidden labelled')
# A badge: where it goes, its words, and whether all its boxes are hidden.
Badge = namedtuple('Badge', 'spot words behind')


class Sketch:
    """Draws the views of a sheet. flagged: the lines that a finding is on."""

    def __init__(self, sheet, result):
        self.sheet, self.out, self.fills = sheet, [], {}
        for place, kind in enumerate(sheet.kinds):
            self.fills.setdefault(kind.id, paint.kind_fill(place))
        self.flagged = {line for finding in (result.findings if result else []) for line in findings.lines_of(finding)}

    def add(self, *elements):
        self.out += elements

    def view(self, view, axes, bodies, forms=labels.in_view):
        """Draws one view. forms: what a box is labelled with; only in a view from a side a label may also stand beside a marked line."""
        self.out = []
        faces = views.faces_of(view, axes, bodies)
        hidden = views.hidden_in(faces)
        self.caption(view, hidden)
        self.frame(view, axes)
        seen = [face for face in faces if views.is_drawn(face) and face.body.place not in hidden]
        self.boxes(seen)
        self.axis_across(view, axes, seen)
        self.axis_up(view, axes, seen)
        self.outlines(faces, hidden)
        badges = self.badges(faces, hidden)
        taken = [badge.spot for badge in badges]
        labelled = self.labels(seen, taken, forms)
        if forms is labels.in_view:
            marked = [face for face in faces if not views.is_drawn(face) or face in seen and face.body.place in self.flagged]
            labelled |= self.labels_near([face for face in marked if face.body.place not in labelled], marked, seen, taken,
                                         Rect(0, 0, axes[view.right].page, axes[view.up].page))
        for badge in badges:
            self.write_badge(badge)
        return Drawn(self.out, hidden, labelled)

    def caption(self, view, hidden):
        self.add(paint.text(0, -22 if hidden else -9, view.name, 13, bold=True))
        if hidden:
            note = '%d box%s hidden behind others' % (len(hidden), '' if len(hidden) == 1 else 'es')
            self.add(paint.text(0, -8, note, 11, paint.GREY))

    # ---- the case and its measures

    def frame(self, view, axes):
        """The case itself and its margin."""
        size, margin = self.sheet.size, self.sheet.margin
        self.add(paint.rect(views.rect_of(view, axes, (0.0, 0.0, 0.0), size), '#ffffff', paint.INK, 2))
        if margin > 0 and all(2 * margin < length for length in size):
            inner = views.rect_of(view, axes, (margin,) * 3, tuple(length - margin for length in size))
            self.add(paint.rect(inner, 'none', paint.GREY, 1, '5 4'))

    @staticmethod
    def marks(axis, along, seen):
        """What an axis can be marked with, as pairs of page length and number: the case's ends, the sides of the boxes."""
        mark = lambda value: (axis.at(value), labels.say(value))
        sides = {value for face in seen for value in (face.body.near[along], face.body.far[along])}
        return [mark(0.0), mark(axis.length)], [mark(value) for value in sides if axis.low <= value <= axis.high]

    def axis_across(self, view, axes, seen):
        axis, low = axes[view.right], axes[view.up].page
        ends, sides = self.marks(axis, view.right, seen)
        for at, words in views.ticks(ends, sides, lambda words: paint.text_width(words, TICK) + 4):
            ink = paint.INK if (at, words) in ends else paint.GREY
            self.add(paint.path('M%s,%sv5' % (paint.short(at), paint.short(low)), ink))
            self.add(paint.text(at, low + 16, words, TICK, ink, 'middle'))
        self.add(paint.text((axis.at(0.0) + axis.at(axis.length)) / 2, low + 32, NAMES[view.right], 11, paint.GREY, 'middle'))

    def axis_up(self, view, axes, seen):
        axis, widest = axes[view.up], 0.0
        ends, sides = self.marks(axis, view.up, seen)
        for at, words in views.ticks(ends, sides, lambda words: TICK + 1):
            ink = paint.INK if (at, words) in ends else paint.GREY
            self.add(paint.path('M0,%sh-5' % paint.short(axis.page - at), ink))
            self.add(paint.text(-8, axis.page - at + 4, words, TICK, ink, 'end'))
            widest = max(widest, paint.text_width(words, TICK))
        middle = axis.page - (axis.at(0.0) + axis.at(axis.length)) / 2
        self.add(paint.text(-14 - widest, middle, NAMES[view.up], 11, paint.GREY, 'middle', turned=True))

    # ---- boxes and their labels

    def boxes(self, seen):
        for face in seen:
            line, place = face.body.line, face.body.place
            hint = 'line %d: kind %s, instance %d, at %s, %s' % (
                place, labels.kind_said(face.body), line.instance, text.numbers(line.at), labels.UP[labels.way_up(face.body)])
            self.add(paint.rect(face.rect, 'url(#%s)' % self.fills[line.id], paint.INK, 0.9, hint=hint))
            if place in self.flagged:
                self.add(paint.rect(face.rect, 'url(#finding)'))

    def labels(self, seen, taken, forms):
        """Each box that is seen gets its label, if there is room. Gives the places of those that have one, and adds their spots to what is taken."""
        labelled = set()
        for number, face in enumerate(seen):
            nearer = [other.rect for other in seen[number + 1:] if views.meet(other.rect, face.rect)]
            label = labels.placed(face.rect, forms(face.body), nearer + [spot for spot in taken if views.meet(spot, face.rect)])
            if label:
                self.add(*labels.elements(label))
                taken.append(label.spot)
                labelled.add(face.body.place)
        return labelled

    def labels_near(self, faces, marked, seen, taken, room):
        """The labels of crosses and of boxes with a finding that have no room for theirs, beside them, where they cover nothing."""
        taken = taken + [face.rect for face in seen] + [views.grown(face.rect, labels.CROSS) for face in marked if not views.is_drawn(face)]
        labelled = set()
        for face in faces:
            label = labels.near(face, taken, room)
            if label:
                self.add(*labels.elements(label))
                taken.append(label.spot)
                labelled.add(face.body.place)
        return labelled

    # ---- findings

    def badges(self, faces, hidden):
        """The badge of each line with a finding. Lines that fall on one spot share a badge."""
        groups = {}
        for face in faces:
            if face.body.place in self.flagged:
                key = tuple(round(value) for value in face.rect)
                groups.setdefault(key, []).append(face)
        out = []
        for group in groups.values():
            numbers = sorted(face.body.place for face in group)
            words = '! ' + ' '.join(map(str, numbers[:4])) + (' +%d' % (len(numbers) - 4) if len(numbers) > 4 else '')
            spot = self.badge_spot(group[0].rect, paint.text_width(words, 11, True) + 6, [badge.spot for badge in out])
            if spot:
                out.append(Badge(spot, words, hidden.issuperset(numbers)))
        return out

    @staticmethod
    def badge_spot(rect, width, taken):
        """In the box, or over its edges, or beside it, as long as no other badge is there."""
        spot = views.free_spot(rect, width, 16, taken)
        if spot:
            return spot
        x, y = (rect.x0 + rect.x1 - width) / 2, (rect.y0 + rect.y1) / 2 - 8
        flat = min(rect.x1 - rect.x0, rect.y1 - rect.y0) < 1
        for right, down in ([] if flat else [(0, 0)]) + [(0, -17), (0, 17), (width / 2 + 9, 0), (-width / 2 - 9, 0)]:
            spot = Rect(x + right, y + down, x + right + width, y + down + 16)
            if not any(views.meet(spot, other) for other in taken):
                return spot
        return None

    def write_badge(self, badge):
        back, ink = ('#ffffff', paint.RED) if badge.behind else (paint.RED, '#ffffff')
        self.add(paint.rect(badge.spot, back, ink, 1, round_by=4))
        self.add(paint.text((badge.spot.x0 + badge.spot.x1) / 2, badge.spot.y0 + 12, badge.words, 11, ink, 'middle', bold=True))

    def outlines(self, faces, hidden):
        """Red outlines over all boxes, the dashed ones of hidden boxes first, and crosses for what is no box here."""
        for face in sorted(faces, key=lambda face: face.body.place not in hidden):
            flagged = face.body.place in self.flagged
            if not views.is_drawn(face):
                self.cross(face, flagged)
            elif flagged:
                behind = face.body.place in hidden
                self.add(paint.rect(face.rect, 'none', paint.RED, 2.6, '7 5' if behind else ''))

    def cross(self, face, flagged):
        """Marks where a line of an unlisted kind is, or the edge nearest to a box that is far outside."""
        x, y = views.centre(face.rect)
        line = 'M%s,%s' % (paint.short(x), paint.short(y)) + 'm-{0},-{0}l{1},{1}m0,-{1}l-{1},{1}'.format(*map(paint.short, (labels.CROSS, 2 * labels.CROSS)))
        self.add(paint.path(line, paint.RED if flagged else paint.INK, 3))
