"""What is written in a box: the forms that its words can take, from the largest to the smallest, and which of them finds room."""
from collections import namedtuple

from . import load_file, paint, text, views

# The words of a label, row by row. turned: written upwards. air: how much of the box must stay free on both sides of it together.
Form = namedtuple('Form', 'size rows turned air')
# A form where it found room.
Label = namedtuple('Label', 'spot form')

# How much more than a form needs a box is drawn for it, so that its colour is seen.
RIM = 6.0

# How far a cross reaches from its middle.
CROSS = 6.0

# A box's own width, depth and height, the way that one of them is up.
UP = ('width up', 'depth up', 'height up')


def way_up(body):
    """Which of a box's own lengths is upwards: a place in UP. An orientation past the rule's list leaves it unrotated."""
    share = load_file.SHARES[body.kind.rule]
    return load_file.AXES[share[body.line.orientation]][2] if body.line.orientation < len(share) else 2


def say(value):
    """A number for a picture: as it is if it is short, else six digits."""
    said = text.number(value)
    return said if len(said) <= 9 else '%.6g' % value


def kind_said(body):
    """Its kind's id, with the name if it has one."""
    return text.kind_said(body.line.id, {body.line.id: body.kind.name} if body.kind and body.kind.name else {})


def in_view(body):
    """In a view from a side: the kind and the line's number, or that number alone."""
    line, place = body.line, body.place
    long, short = ('kind %d' % line.id, 'line %d' % place), ('%d' % line.id, '#%d' % place)
    both, least = (' '.join(short),), short[1:]
    named = [Form(size, (body.kind.name,) + long, False, size - 1) for size in (13, 11)] if body.kind.name else []
    return named + [Form(*form) for form in (
        (13, long, False, 12), (11, long, False, 10), (11, short, False, 6), (11, both, False, 4), (11, both, True, 4),
        (9, short, False, 2), (9, both, False, 2), (9, both, True, 2), (9, short, True, 2), (9, least, False, 2), (9, least, True, 2))]


def in_layer(body):
    """In a layer: the kind, the line's number, the instance, the height of its underside and which way up it is; all of them or nothing. A name
    where there is room for it too."""
    line, z, up = body.line, say(body.near[2]), UP[way_up(body)]
    long = ('kind %d' % line.id, 'line %d' % body.place, 'instance %d' % line.instance, 'z %s' % z, up)
    name, instance, height = '%d #%d' % (line.id, body.place), 'i%d' % line.instance, 'z %s' % z
    four = (name, instance, height, up[0] + ' up')
    three = (name, '%s %s' % four[1:3], four[3])
    two = ('%s %s' % (name, instance), '%s %s' % (height, four[3]))
    one = (' '.join(two),)
    named = [(body.kind.name,) + four] if body.kind.name else []
    forms = [Form(11, (rows[0],) + long, False, 8) for rows in named] + [Form(11, long, False, 8)]
    forms += [Form(11, rows, False, 4) for rows in named + [four]]
    for rows in named + [four, three, two, one]:
        forms += [Form(9, rows, False, 2), Form(9, rows, True, 2)]
    return forms


def in_words(body):
    """All that a layer tells of a line, as a sentence."""
    said = '#%d: kind %s, instance %d' % (body.place, kind_said(body), body.line.instance)
    if body.kind is None:
        return '%s, at %s; no listed kind' % (said, ', '.join(map(say, body.near)))
    return '%s, z %s, %s' % (said, say(body.near[2]), UP[way_up(body)])


def _extent(form):
    """How wide and how high a form is on the page."""
    extent = (max(paint.text_width(row, form.size) for row in form.rows) + 4, form.size * 1.15 * len(form.rows) + 2)
    return extent[::-1] if form.turned else extent


def placed(rect, forms, taken):
    """The first form that finds room in a box where nothing is taken, or None."""
    for form in forms:
        spot = views.free_spot(rect, *_extent(form), taken, form.air)
        if spot:
            return Label(spot, form)
    return None


def near(face, taken, room):
    """The label of a line that has no room for one where it stands: right, left, above or below, where nothing is taken, or None."""
    x0, y0, x1, y1 = face.rect if views.is_drawn(face) else views.grown(face.rect, CROSS)
    form = Form(9, ('%d #%d' % (face.body.line.id, face.body.place),), False, 2)
    (wide, high), (x, y) = _extent(form), views.centre(face.rect)
    for left, top in ((x1 + 2, y - high / 2), (x0 - 2 - wide, y - high / 2), (x - wide / 2, y0 - 2 - high), (x - wide / 2, y1 + 2)):
        spot = views.Rect(left, top, left + wide, top + high)
        if views.is_within(spot, room) and not any(views.meet(spot, other) for other in taken):
            return Label(spot, form)
    return None


def scale_for(rect, forms):
    """How many times as large a box must be drawn for one of the forms to find room in it."""
    width, height = max(rect.x1 - rect.x0, 1e-9), max(rect.y1 - rect.y0, 1e-9)
    sizes = [(_extent(form), form.air + RIM) for form in forms]
    return min(max((wide + air) / width, (high + air) / height) for (wide, high), air in sizes)


def elements(label):
    """A label as it is drawn: a light back, and its rows."""
    spot, (size, rows, turned, _) = label
    out = [paint.rect(spot, '#ffffff', round_by=3, opacity=0.85)]
    middle, centre = (spot.x0 + spot.x1) / 2, (spot.y0 + spot.y1) / 2
    for number, row in enumerate(rows):
        # the row's foot, from the label's upper edge or, where it is turned, from its left one
        foot = size * (1.15 * number + 1)
        x, y = (spot.x0 + foot, centre) if turned else (middle, spot.y0 + foot)
        out.append(paint.text(x, y, row, size, anchor='middle', turned=turned))
    return out
