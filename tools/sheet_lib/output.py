"""Answers as JSON and CSV, by the names of docs/OUTPUT.md. A float is told twice: as a decimal that reads back to the same bits, and as its bits."""
import csv
import io
import json
import struct
from fractions import Fraction

from . import findings, left_out, load_file, version
from .programs import CHECK, FILL, PLAN

FORM = 1


# ---- values by name

def bits(value):
    """A float's bits as the proved programs print them: 16 hex digits."""
    return struct.pack('>d', value).hex().upper()


def _float(name, value):
    """A float, or three of them, under its name and with its bits."""
    if isinstance(value, tuple):
        return {name: list(value), name + '_bits': [bits(one) for one in value]}
    return {name: value, name + '_bits': None if value is None else bits(value)}


def _percent(share):
    return round(float(share * 100), 4)


def _line(number, line, kinds):
    size = load_file.lengths_as_placed(kinds[line.id], line.orientation) if line.id in kinds else None
    about = {'line': number, 'kind': line.id, 'instance': line.instance, 'orientation': line.orientation, 'bin': line.bin}
    return {**about, **_float('at', line.at), **_float('size', size)}


def _lines(sheet):
    kinds = load_file.kinds_by_id(sheet)
    return [_line(number, line, kinds) for number, line in enumerate(sheet.lines)]


def sheet(one):
    """A sheet as it stands."""
    kinds = [{'kind': kind.id, 'name': kind.name, 'quantity': kind.quantity, **_float('size', kind.size), **_float('mass', kind.mass),
              'rule': load_file.RULES[kind.rule]} for kind in one.kinds]
    return {**_float('container', one.size), **_float('margin', one.margin), **_float('spacing', one.spacing), **_float('limit', one.limit),
            'kinds': kinds, 'lines': _lines(one), 'unplaced': list(one.unplaced)}


def plan(engine, consider, one, figures):
    """A planned sheet. figures: boxes considered, and the bits of the utilization as the planner lists them."""
    asked, left = left_out.totals(one)
    considered, share = figures
    kinds = [{'kind': each.id, 'name': each.name, 'quantity': each.quantity, 'placed': each.placed, 'left_out': each.quantity - each.placed}
             for each in left_out.shares(one)]
    return {'engine': engine, 'program': PLAN, 'consider': consider and int(consider), 'considered': considered, 'boxes': asked, 'placed': asked - left,
            'left_out': left, **_float('utilization', findings.float_of(share)), 'utilization_percent': _percent(findings.float_of(share)),
            'kinds': kinds, 'lines': _lines(one), 'unplaced': list(one.unplaced)}


def check(result, source):
    """What the check found. text_lines: where the lines stand in the text that the sheet came from."""
    out = {'program': CHECK, 'refused': result.refused, 'needed': result.needed, 'kinds': None, 'lines': None, 'findings': None,
           'not_judged': ['support', 'stability']}
    if result.refused:
        return out
    one, places = load_file.read(source.data), source.places and source.places.lines
    found = [_finding(finding, places) for finding in result.findings]
    return {**out, 'kinds': len(one.kinds), 'lines': len(one.lines), 'findings': found}


def _finding(finding, places):
    told = {'finding': finding.name}
    for name, value in zip(findings.NAMES[finding.name], finding.fields):
        told.update(_float(name, value) if isinstance(value, float) else {name: value})
    rows = [places[line] for line in findings.lines_of(finding) if line < len(places)] if places else []
    return {**told, 'text_lines': rows, 'sentence': findings.in_words(finding)}


def fill(exact, refused, data):
    """The fill per thousand, and the share of the case in percent: of the fill, or worked out here from the volumes where it is refused by 8."""
    thousand = None if refused else int(exact.split()[1])
    share = Fraction(thousand, 1000) if not refused else share_of(load_file.read(data)) if refused == 8 else None
    return {'program': FILL, 'refused': refused, 'fill': thousand, 'utilization_percent': None if share is None else _percent(share),
            'utilization_by': None if share is None else 'volumes' if refused else FILL}


def share_of(one):
    """The part of the case that the lines of known kinds take, in exact numbers."""
    kinds = load_file.kinds_by_id(one)
    volume = lambda size: Fraction(size[0]) * Fraction(size[1]) * Fraction(size[2])
    return sum((volume(kinds[line.id].size) for line in one.lines if line.id in kinds), Fraction(0)) / volume(one.size)


# ---- JSON: an object to a line

def as_json(data):
    return json.dumps({'form': FORM, 'version': version.number(), **data}, allow_nan=False) + '\n'


# ---- CSV: tables

_XYZ = ('x', 'y', 'z', 'x_bits', 'y_bits', 'z_bits')
_FIELDS = tuple(dict.fromkeys(name for names in findings.NAMES.values() for name in names))
_BITS = {'distance', 'spacing', 'mass', 'limit'}
TABLES = {
    'summary': ('file', 'command', 'status', 'engine', 'kinds', 'boxes', 'considered', 'placed', 'left_out', 'lines', 'findings', 'refused', 'fill',
                'utilization', 'utilization_bits', 'utilization_percent', 'utilization_by', 'written', 'problem'),
    'boxes': ('file', 'status', 'engine', 'line', 'kind', 'instance', 'orientation', 'bin') + _XYZ + ('problem',),
    'kinds': ('file', 'status', 'engine', 'kind', 'name', 'quantity', 'placed', 'left_out', 'problem'),
    'findings': ('file', 'status', 'finding') + tuple(name for field in _FIELDS for name in ((field, field + '_bits') if field in _BITS else (field,)))
                + ('text_lines', 'sentence', 'problem'),
}
# The tables that a command has, its own first.
OF = {'plan': ('boxes', 'kinds', 'summary'), 'check': ('findings', 'summary'), 'fill': ('summary',), 'show': ('boxes', 'summary'), 'file': ('boxes', 'summary'),
      'draw': ('findings', 'summary'), 'all': ('summary', 'boxes', 'kinds', 'findings')}


def as_csv(table, data):
    """The rows of one answer, or the head of a table where there is no answer."""
    out = io.StringIO()
    rows = csv.DictWriter(out, TABLES[table], restval='', extrasaction='ignore', lineterminator='\n')
    if data is None:
        rows.writeheader()
    else:
        for row in _ROWS[table](data) or [{}]:
            values = {**data, 'problem': (data['problem'] or '').replace('\n', '; '), **row}
            rows.writerow({name: value for name, value in values.items() if value is not None and not isinstance(value, (dict, list))})
    return out.getvalue()


def _words(values):
    return ' '.join(map(str, values))


def _summary(data):
    about, told = {'written': _words(data['written'])}, data.get('check') or {}
    about.update(data.get('fill') or {})
    if told:
        about.update(kinds=told['kinds'], lines=told['lines'], findings=told['needed'] if told['findings'] is None else len(told['findings']))
    if 'sheet' in data:
        about.update(kinds=len(data['sheet']['kinds']), lines=len(data['sheet']['lines']))
    plans = [{**one, 'kinds': len(one['kinds']), 'lines': len(one['lines']), 'utilization_by': one['program']} for one in data.get('plans', [])]
    return [{**about, **one, 'refused': data['refused']} for one in plans or [{}]]


def _boxes(data):
    parts = data.get('plans') or ([{'engine': '', **data['sheet']}] if 'sheet' in data else [])
    return [{**line, 'engine': part['engine'], **dict(zip(_XYZ, line['at'] + line['at_bits']))} for part in parts for line in part['lines']]


def _kinds(data):
    return [{**kind, 'engine': part['engine']} for part in data.get('plans', []) for kind in part['kinds']]


def _findings(data):
    return [{**one, 'text_lines': _words(one['text_lines'])} for one in (data.get('check') or {}).get('findings') or []]


_ROWS = {'summary': _summary, 'boxes': _boxes, 'kinds': _kinds, 'findings': _findings}
