"""What is seen of a case from the front, from the side and from above: where each box falls on the
page, what hides it, and where a label finds room. All of it in page units, y downwards."""
import copy
from collections import namedtuple

from . import load_file

# One line of the sheet as a body: corners in the sheet's units. kind: None where it is not listed, and the body is a point.
Body = namedtuple('Body', 'place line near far kind')
# A rectangle on the page.
Rect = namedtuple('Rect', 'x0 y0 x1 y1')
# A body in a view. depth: those with a larger one are nearer. gone: it is wholly past the drawn range.
Face = namedtuple('Face', 'body rect depth gone')
# One view: name, the axes that run to the right and upwards, the axis one looks along, and whether
# the far end of that axis (1) or its beginning (-1) is towards the eye.
View = namedtuple('View', 'name right up along sign')

ABOVE = View('From above', 0, 1, 2, 1)
FRONT = View('From the front', 0, 2, 1, -1)
SIDE = View('From the right side', 1, 2, 0, 1)

# The longest that an axis (x, y, z) may be on the page, and the shortest.
LONGEST = (600.0, 450.0, 450.0)
SHORTEST = 72.0
# How far past the case boxes are drawn, as a share of the case's length on that axis.
PAST = 0.3


class Axis:
    """One axis of a case on the page: from where to where it is drawn, and its page length."""

    def __init__(self, length, low, high):
        self.length = length
        self.low = max(min(0.0, low), -PAST * length)
        self.high = min(max(length, high), (1 + PAST) * length)
        self.page = 0.0

    @property
    def range(self):
        return self.high - self.low

    def at(self, value):
        """Page length from the low end, kept within the drawn range."""
        value = min(max(value, self.low), self.high)
        return (value - self.low) / self.range * self.page

    def scaled(self, by):
        other = copy.copy(self)
        other.page = self.page * by
        return other


def bodies_of(sheet):
    kinds = load_file.kinds_by_id(sheet)
    out = []
    for place, line in enumerate(sheet.lines):
        kind = kinds.get(line.id)
        lengths = load_file.lengths_as_placed(kind, line.orientation) if kind else (0.0, 0.0, 0.0)
        far = tuple(a + b for a, b in zip(line.at, lengths))
        out.append(Body(place, line, line.at, far, kind))
    return out


def axes_of(size, bodies):
    """The three axes at one scale, except that a very short one is stretched. Also says whether one was."""
    axes = [Axis(size[a], min([b.near[a] for b in bodies], default=0.0), max([b.far[a] for b in bodies], default=0.0))
            for a in range(3)]
    scale = min(longest / axis.range for axis, longest in zip(axes, LONGEST))
    for axis in axes:
        axis.page = max(SHORTEST, scale * axis.range)
    return axes, any(axis.page > scale * axis.range * 1.001 for axis in axes)


def rect_of(view, axes, near, far):
    """Where a body from corner near to corner far falls in a view, from the view's own top left corner."""
    right, up = axes[view.right], axes[view.up]
    return Rect(right.at(near[view.right]), up.page - up.at(far[view.up]),
                right.at(far[view.right]), up.page - up.at(near[view.up]))


def faces_of(view, axes, bodies):
    """The bodies in a view, those farthest from the eye first."""
    faces = []
    for body in bodies:
        depth = body.far[view.along] if view.sign > 0 else -body.near[view.along]
        gone = any(body.far[a] < axes[a].low or body.near[a] > axes[a].high for a in (view.right, view.up))
        faces.append(Face(body, rect_of(view, axes, body.near, body.far), depth, gone))
    return sorted(faces, key=lambda face: (face.depth, face.body.place))


def meet(a, b):
    return a.x0 < b.x1 - 0.01 and b.x0 < a.x1 - 0.01 and a.y0 < b.y1 - 0.01 and b.y0 < a.y1 - 0.01


def centre(rect):
    return (rect.x0 + rect.x1) / 2, (rect.y0 + rect.y1) / 2


def grown(rect, by):
    return Rect(rect.x0 - by, rect.y0 - by, rect.x1 + by, rect.y1 + by)


def is_within(rect, room):
    return room.x0 <= rect.x0 and room.y0 <= rect.y0 and rect.x1 <= room.x1 and rect.y1 <= room.y1


def _left_of(rect, cover):
    """What is left of a rectangle beside a cover that meets it: up to four rectangles."""
    low, high = max(rect.y0, cover.y0), min(rect.y1, cover.y1)
    parts = (Rect(rect.x0, rect.y0, rect.x1, low), Rect(rect.x0, high, rect.x1, rect.y1),
             Rect(rect.x0, low, cover.x0, high), Rect(cover.x1, low, rect.x1, high))
    return [part for part in parts if part.x1 - part.x0 > 0.01 and part.y1 - part.y0 > 0.01]


def is_hidden(rect, covers):
    """Whether the covers together hide a rectangle whole."""
    left = [rect]
    for cover in covers:
        left = [part for one in left for part in (_left_of(one, cover) if meet(one, cover) else [one])]
        if not left:
            return True
    return False


def is_drawn(face):
    """Whether a face is a box on the page; what is of an unlisted kind or far outside is not."""
    return face.body.kind is not None and not face.gone


def hidden_in(faces):
    """The places of the boxes that nearer boxes hide whole. The faces come with the farthest first."""
    hidden = set()
    for number, face in enumerate(faces):
        nearer = [other.rect for other in faces[number + 1:] if is_drawn(other)]
        if is_drawn(face) and is_hidden(face.rect, nearer):
            hidden.add(face.body.place)
    return hidden


def layers_of(axes, bodies):
    """The boxes from below in layers: one that stands over nothing is in the first, any other in the one after those below it."""
    layers, below = [], []
    for face in sorted(faces_of(ABOVE, axes, bodies), key=lambda face: (face.body.near[2], face.body.place)):
        if not is_drawn(face):
            continue
        stands_over = [layer for layer, other in below if other.body.near[2] < face.body.near[2] and meet(face.rect, other.rect)]
        layer = 1 + max(stands_over, default=-1)
        below.append((layer, face))
        layers += [[] for _ in range(layer + 1 - len(layers))]
        layers[layer].append(face.body)
    return layers


def ticks(ends, edges, width_of):
    """Which marks of an axis get their number: both ends, then those of the rest that have room beside the others.

    ends, edges: pairs of where on the page and what is said there. width_of: how much room words take along the axis.
    """
    taken, out = [], []
    for at, words in list(ends) + sorted(edges):
        half = width_of(words) / 2
        if all(at + half <= low or at - half >= high for low, high in taken):
            taken.append((at - half, at + half))
            out.append((at, words))
    return out


def spots(rect, width, height):
    """Places for a label in a rectangle: the middle first, then the edges and corners."""
    xs = ((rect.x0 + rect.x1 - width) / 2, rect.x0 + 2, rect.x1 - width - 2)
    ys = ((rect.y0 + rect.y1 - height) / 2, rect.y0 + 2, rect.y1 - height - 2)
    for x in xs:
        for y in ys:
            yield Rect(x, y, x + width, y + height)


def free_spot(rect, width, height, taken, air=2.0):
    """The first place in a rectangle where a label meets nothing that is taken, or None. air: what it must leave free across and down."""
    if width > rect.x1 - rect.x0 - air or height > rect.y1 - rect.y0 - air:
        return None
    for spot in spots(rect, width, height):
        if not any(meet(spot, other) for other in taken):
            return spot
    return None
