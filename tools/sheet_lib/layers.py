"""A case layer by layer, from above. Each box tells its kind, line, instance, height and which way up it is: in the box, which is drawn large
enough for it as far as the page allows, or else beside the layer, with a line to the box."""
import math

from . import bounds, labels, paint, sketch, views

# What a box needs on the page for its words in four rows, where they are as long as they can be.
CELL = 104.0
# How large a layer is drawn at least, beside the other views, and how long its longer side may become on the page: as long as that of a square of as
# many boxes as a sheet may have.
SMALLEST, LONGEST = 0.6, CELL * math.ceil(math.sqrt(bounds.MOST_LINES))
# The words beside a layer: their size, the step from row to row, and the room between them and the view.
SIZE, ROW, GAP = 10.0, 13.0, 40.0

CROSSES = 'Lines of no listed kind, or far outside'


class Layer:
    """One layer, drawn: its elements, and the room that it takes to the right and downwards of its top left corner."""

    def __init__(self, drawer, name, axes, bodies):
        by = _scale(axes, bodies)
        axes = [axis.scaled(by) for axis in axes]
        drawn = drawer.view(views.ABOVE._replace(name=name), axes, bodies, labels.in_layer)
        rest = [face for face in views.faces_of(views.ABOVE, axes, bodies) if face.body.place not in drawn.labelled]
        self.out = drawn.out + _beside(rest, axes[0].page + GAP, axes[1].page)
        self.width = max(axes[0].page, sketch.NARROWEST)
        if rest:
            self.width = axes[0].page + GAP + max(paint.text_width(labels.in_words(face.body), SIZE) for face in rest)
        self.height = max(axes[1].page, ROW * len(rest)) + sketch.BELOW


def _scale(axes, bodies):
    """How many times as large as in the other views a layer is drawn: the least at which each box that can have room for its words has it, and
    as high as the rows for the others."""
    faces = [face for face in views.faces_of(views.ABOVE, axes, bodies) if views.is_drawn(face)]
    asked = [labels.scale_for(face.rect, labels.in_layer(face.body)) for face in faces]
    most = LONGEST / max(axes[0].page, axes[1].page)
    rows = ROW * sum(scale > most for scale in asked)
    return max([SMALLEST, min(most, rows / axes[1].page)] + [scale for scale in asked if scale <= most])


def _beside(faces, x, height):
    """What is told of lines whose label finds no room in the layer: at its right, each with a line to where it stands, and as high as that if it can."""
    out, free = [], SIZE
    for number, face in enumerate(sorted(faces, key=lambda face: views.centre(face.rect)[::-1])):
        at = max(views.centre(face.rect)[0], face.rect.x1 - 4), views.centre(face.rect)[1]
        y = max(free, min(at[1], height - ROW * (len(faces) - 1 - number)))
        free = y + ROW
        out.append(paint.path('M%s,%sL%s,%s' % tuple(map(paint.short, (*at, x - 4, y - SIZE / 3))), paint.GREY, 0.6))
        out.append(paint.dot(*at, 1.6, paint.INK))
        out.append(paint.text(x, y, labels.in_words(face.body), SIZE))
    return out


def _name(number, layer):
    low, high = (labels.say(pick(body.near[2] for body in layer)) for pick in (min, max))
    return 'Layer %d: from z = %s' % (number, low if low == high else '%s to %s' % (low, high))


def drawn(drawer, axes, bodies, told):
    """The layers of a case from below. told: the lines that have a label in a view already; a line that is no box is drawn only where it hasn't."""
    layers = views.layers_of(axes, bodies)
    boxes = {body.place for layer in layers for body in layer}
    out = [Layer(drawer, _name(number, layer), axes, layer) for number, layer in enumerate(layers, 1)]
    crosses = [body for body in bodies if body.place not in boxes | told]
    return out + ([Layer(drawer, CROSSES, axes, crosses)] if crosses else [])
