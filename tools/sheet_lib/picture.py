"""A sheet as a picture (SVG): each case from above, from the front and from the right side, and layer by layer where a
box is hidden in all three or has no room for its number in any.

Boxes are coloured by kind. Lines that the check program has a finding on are hatched and outlined in
red and carry a red badge; where another box hides such a line its outline is dashed and shows through.
Which lines those are comes from the check program alone.
"""
import math

from . import findings, labels, layers, load_file, paint, panel, views
from .sketch import BELOW, CAPTION, NARROWEST, TICK, Sketch
from .views import Rect

LAYERS = 'Layer by layer from below, as some boxes are hidden in the views above, or too small there for their number'


class Picture:
    """Lays views out on the page, and remembers what the whole page needs to know."""

    def __init__(self, sheet, result):
        self.sheet, self.sketch = sheet, Sketch(sheet, result)
        # corner: what is free beside the first view. layered: whether there are layers
        self.out, self.width, self.corner, self.layered = [], 0.0, None, False

    def put(self, x, y, elements):
        self.out += ['<g transform="translate(%s %s)">' % (paint.short(x), paint.short(y))] + elements + ['</g>']

    def case(self, number, bodies, top):
        """Draws one case from a height on the page on. Gives the height where it ends."""
        axes, stretched = views.axes_of(self.sheet.size, bodies)
        note = '   (not to scale: a short axis is stretched)' if stretched else ''
        self.out.append(paint.text(24, top + 20, 'Case %d%s' % (number, note), 15, bold=True))
        left = 38 + self.widest_number(bodies)
        column = left + max(axes[0].page, NARROWEST) + left
        high = top + 30 + CAPTION
        low = high + axes[1].page + BELOW
        self.corner = self.corner or Rect(column - 24, top, column, low)
        low += CAPTION
        drawn = [self.view(*where, axes, bodies) for where in (
            (views.ABOVE, left, high), (views.FRONT, left, low), (views.SIDE, column, low))]
        self.width = max(self.width, column + max(axes[1].page, NARROWEST) + 30)
        low += axes[2].page + BELOW
        told = set.union(*(one.labelled for one in drawn))
        if set.intersection(*(one.hidden for one in drawn)) or any(body.place not in told for body in bodies):
            return self.layers(axes, bodies, told, left, low)
        return low

    def view(self, view, x, y, axes, bodies):
        drawn = self.sketch.view(view, axes, bodies)
        self.put(x, y, drawn.out)
        return drawn

    @staticmethod
    def widest_number(bodies):
        """The room that the numbers of an upward axis take."""
        said = [labels.say(value) for body in bodies for value in body.near[1:] + body.far[1:]]
        return max([paint.text_width(words, TICK) for words in said] + [30.0])

    def layers(self, axes, bodies, told, left, top):
        """Puts the layers side by side, and below each other where the page ends. Gives the height where they end."""
        self.layered = True
        self.out.append(paint.text(24, top + 20, LAYERS, 13, bold=True))
        across = max(self.width, self.corner.x0 + panel.WIDTH) - 20
        x, y, low = left, top + 30 + CAPTION, top
        for layer in layers.drawn(self.sketch, axes, bodies, told):
            if x > left and x + layer.width > across:
                x, y = left, low + CAPTION
            self.put(x, y, layer.out)
            self.width = max(self.width, x + layer.width + 30)
            x, low = x + layer.width + left, max(low, y + layer.height)
        return low

    def place(self, words, low):
        """Puts the panel beside the first view if it is no taller, else beside everything. Gives the page's size."""
        corner = self.corner
        x = corner.x0 if words.height <= corner.y1 - corner.y0 else self.width + 10
        self.put(x, corner.y0, words.out)
        return max(self.width, x + panel.WIDTH + 20), max(low, corner.y0 + words.height) + 10


def _asked(sheet, result, bodies, flagged):
    """Raises FileError where there is nothing to draw."""
    if not all(math.isfinite(length) and length > 0 for length in sheet.size):
        raise load_file.FileError('a length of the container is not above 0, so there is nothing to draw')
    if result and result.refused not in (0, 6):
        raise load_file.FileError('the check program refused the sheet, by %d: %s'
                                  % (result.refused, findings.refusal_in_words(result.refused)))
    if any(place >= len(bodies) for place in flagged):
        raise load_file.FileError('the findings speak of line %d, and the sheet has %d lines: they belong to another sheet'
                                  % (max(flagged), len(bodies)))


def draw(sheet, result, title, engine=None):
    """The picture of a sheet as SVG text. result: what the check program said, or None. engine: which placer planned it, if that is known."""
    picture, bodies = Picture(sheet, result), views.bodies_of(sheet)
    _asked(sheet, result, bodies, picture.sketch.flagged)
    low = 10.0
    for number in sorted({0} | {body.line.bin for body in bodies}):
        low = picture.case(number, [body for body in bodies if body.line.bin == number], low)
    title += ', planned by %s' % engine if engine else ''
    width, height = picture.place(panel.Panel(sheet, result, title, picture.layered), low)
    head = '<svg xmlns="http://www.w3.org/2000/svg" width="%s" height="%s" viewBox="0 0 %s %s" %s>' % (
        *map(paint.short, (width, height, width, height)), paint.FONT)
    back = paint.rect(Rect(0, 0, width, height), '#ffffff')
    return '\n'.join([head, paint.definitions(len(sheet.kinds)), back] + picture.out + ['</svg>', ''])
