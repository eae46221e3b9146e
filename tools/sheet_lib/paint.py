"""Colours and patterns for kinds, and the SVG elements that a picture is made of.

There can be 64 kinds. Eight colours that differ for colour-blind readers too, each with eight
patterns, tell them apart; the first eight kinds differ in both. Red is kept for findings.
"""
from xml.sax.saxutils import escape

RED, INK, GREEN, GREY = '#c4001a', '#1d1d1d', '#00634a', '#5a5a5a'
# Each colour and the darker one that its pattern is drawn in.
COLOURS = (('#9ad3f2', '#2f7fb0'), ('#f5c665', '#a86f00'), ('#62b592', '#0f5c40'), ('#f7f0a0', '#9c9000'),
           ('#f3c6e0', '#a04b80'), ('#c4c4c4', '#666666'), ('#8199dc', '#2f4590'), ('#c9a883', '#7a5730'))
# What is drawn over the plain colour, in a square of 12 by 12.
PATTERNS = ('', 'M-3,3L3,-3M-3,15L15,-3M9,15L15,9', 'M6,0V12', 'M4,4h2v2h-2zM10,10h2v2h-2z', 'M0,6H12',
            'M-3,9L3,15M-3,-3L15,15M9,-3L15,3', 'M6,0V12M0,6H12', 'M-3,-3L15,15M-3,15L15,-3')
FONT = 'font-family="DejaVu Sans, Verdana, Arial, sans-serif"'


def short(value):
    """A page number with two decimals at most."""
    return ('%.2f' % value).rstrip('0').rstrip('.')


def kind_fill(place):
    """The name of the fill of the kind at a place in the order."""
    return 'kind%d' % place


def _pattern(name, back, ink, path, opacity=1.0, width=1.1):
    rect = '<rect width="12" height="12" fill="%s"/>' % back if back else ''
    line = '<path d="%s" fill="none" stroke="%s" stroke-width="%s" stroke-opacity="%s"/>' % (path, ink, width, opacity) if path else ''
    return '<pattern id="%s" width="12" height="12" patternUnits="userSpaceOnUse">%s%s</pattern>' % (name, rect, line)


def definitions(count):
    """The fills of so many kinds, and the hatching of a line with a finding."""
    out = []
    for place in range(count):
        back, ink = COLOURS[place % len(COLOURS)]
        path = PATTERNS[(place + place // len(COLOURS)) % len(PATTERNS)]
        out.append(_pattern(kind_fill(place), back, ink, path, 0.55))
    out.append(_pattern('finding', '', RED, PATTERNS[5], 0.75, 2.2))
    return '<defs>%s</defs>' % ''.join(out)


def rect(box, fill, stroke='none', width=1.0, dash='', round_by=0.0, opacity=1.0, hint=''):
    """A rectangle. hint: what a browser shows where the pointer rests on it."""
    more = ' stroke="%s" stroke-width="%s"' % (stroke, short(width)) if stroke != 'none' else ''
    more += ' stroke-dasharray="%s"' % dash if dash else ''
    more += ' rx="%s"' % short(round_by) if round_by else ''
    more += ' fill-opacity="%s"' % short(opacity) if opacity < 1 else ''
    end = '><title>%s</title></rect>' % escape(hint) if hint else '/>'
    return '<rect x="%s" y="%s" width="%s" height="%s" fill="%s"%s%s' % (
        short(box.x0), short(box.y0), short(max(0.0, box.x1 - box.x0)), short(max(0.0, box.y1 - box.y0)), fill, more, end)


def text(x, y, words, size=12.0, fill=INK, anchor='start', bold=False, turned=False):
    more = ' font-weight="bold"' if bold else ''
    more += ' text-anchor="%s"' % anchor if anchor != 'start' else ''
    more += ' transform="rotate(-90 %s %s)"' % (short(x), short(y)) if turned else ''
    return '<text x="%s" y="%s" font-size="%s" fill="%s"%s>%s</text>' % (
        short(x), short(y), short(size), fill, more, escape(words))


def path(line, stroke, width=1.0, fill='none'):
    return '<path d="%s" fill="%s" stroke="%s" stroke-width="%s"/>' % (line, fill, stroke, short(width))


def dot(x, y, radius, fill):
    return '<circle cx="%s" cy="%s" r="%s" fill="%s"/>' % (short(x), short(y), short(radius), fill)


def text_width(words, size, bold=False):
    """About how wide words are on the page: wide rather than narrow, as fonts differ."""
    return len(words) * size * (0.70 if bold else 0.63)
