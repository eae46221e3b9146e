"""What each command does for one file: asks the proved programs, writes what -o names, and gives words and values to print.

Nothing is printed here, so what -o names is written whole whatever comes of standard output.
"""
from collections import namedtuple

from . import command, findings, left_out, load_file, output, source
from .command import Problem
from .programs import CHECK, FILL, PLAN, checked, prepare, run, strange
from .source import Source, number_of

ENGINES = ('points', 'layers')

# What the commands that write files end their names in, where -o names a folder or, for all, a name without its ending.
ENDINGS = {'plan': ('.sheet',), 'show': ('.txt',), 'file': ('.sheet',), 'draw': ('.svg',), 'all': ('.sheet', '.svg')}

# One file and what is asked of it. out: what -o names, or None. engine: of a plan, points, layers or both. consider: a number as it was
# typed, or None. exact: nothing but what the program prints. figures: values are asked for. strict: boxes left out are status 1.
Job = namedtuple('Job', 'command name out engine consider exact figures strict')
# said: what is printed for one file alone. row: what is printed for one of many. data: values by name, as docs/OUTPUT.md has them.
Answer = namedtuple('Answer', 'status said row data')


def answer(job):
    """A job's answer. What ends it is an answer too, with nothing to say but its row."""
    try:
        done = COMMANDS[job.command](job)
    except Problem as problem:
        return ended(job, problem)
    return done._replace(data={**_about(job, done.status), **done.data})


def ended(job, problem):
    """The answer of a job that a problem ended."""
    first, *more = str(problem).split('\n')
    row = first if first.startswith(job.name) else '%s: %s' % (job.name, first)
    data = {**_about(job, problem.status), 'refused': problem.refused, 'problem': str(problem)}
    return Answer(problem.status, None, row + (' (and %d more)' % len(more) if more else ''), data)


def _about(job, status):
    return {'command': job.command, 'file': job.name, 'status': status, 'problem': None, 'refused': 0, 'written': []}


# ---- plan

def planned(order, engine, consider):
    """The planned sheet: its bytes, and what they hold."""
    wrote = _asked(order, _plan_words(engine, consider))
    return wrote, order.named(command.sheet_of(wrote, 'what %s wrote' % PLAN))


def _plan_words(engine, consider):
    return [engine] + ([] if consider is None else [consider])


def _asked(order, words):
    """What the planner writes for an order."""
    wrote, said, status = run(PLAN, order.data, words)
    if wrote:
        return wrote
    number = number_of(said.split())
    if not number:
        raise strange(PLAN, status, said)
    # a planner refuses an order as the check refuses its file
    raise order.refusal(number, 'nothing is planned')


def figures(order, engine, consider):
    """The number of boxes considered and the utilization's bits, from the planner's list."""
    listed = _asked(order, _plan_words(engine, consider) + ['list']).decode('utf-8', 'replace').split('\n')
    words = [line.split() for line in listed]
    bits = [line[1] for line in words if line[:1] == ['utilization'] and len(line) == 2]
    if words[0][2:3] != ['considered'] or not bits:
        raise strange(PLAN, 0, listed[0])
    return int(words[0][3]), bits[0]


def _values(order, job, engine, sheet):
    """A plan's values by name."""
    return output.plan(engine, job.consider, sheet, figures(order, engine, job.consider))


def summary(sheet):
    count = len(sheet.lines)
    left = command.text.kinds_said(sheet.unplaced, command.text.names_of(sheet)) or 'none'
    return '%d box%s placed; unplaced kinds: %s' % (count, '' if count == 1 else 'es', left)


def _row(name, sheet):
    """A plan in one line."""
    asked, left = left_out.totals(sheet)
    told = left_out.in_a_row(sheet)
    return '%s: %d of %d boxes placed%s' % (name, asked - left, asked, '; ' + told if told else '')


def plan(job):
    order = Source(job.name)
    if job.exact:
        said = command.put(job.out, _asked(order, _plan_words(job.engine, job.consider) + ['list']), [job.name])
        return Answer(0, '%s: written\n' % job.out if written(job.out) else said, '', {})
    if job.engine == 'both':
        return _both(job, order)
    wrote, sheet = planned(order, job.engine, job.consider)
    left = left_out.in_words(sheet)
    if job.out == '-' or (job.out and not command.is_text(job.out)):
        said = command.put(job.out, wrote, [job.name])
    else:
        said = command.put(job.out, command.as_text(sheet, job.name) + _notes(left), [job.name])
    if written(job.out):
        said = '\n    '.join(['%s: %s' % (job.out, summary(sheet))] + left) + '\n'
    data = {'plans': [_values(order, job, job.engine, sheet)]} if job.figures else {}
    return Answer(1 if job.strict and left else 0, said, _row(job.name, sheet), {**data, 'written': written(job.out)})


def _notes(left):
    return '\n' + ''.join('# %s\n' % line for line in left + [findings.NOT_JUDGED, findings.UPWARDS])


def _both(job, order):
    """Both placers' plans of one order, side by side."""
    plans = {engine: planned(order, engine, job.consider)[1] for engine in ENGINES}
    rows = ['%s: %s' % (job.name, engine) + _row('', sheet) for engine, sheet in plans.items()]
    data = {'plans': [_values(order, job, engine, sheet) for engine, sheet in plans.items()]} if job.figures else {}
    left = any(left_out.totals(sheet)[1] for sheet in plans.values())
    return Answer(1 if job.strict and left else 0, left_out.side_by_side(plans), '\n'.join(rows), data)


def written(out):
    """The file that was written for -o, in a list of one or none."""
    return [] if out in (None, '-') else [out]


# ---- check, fill

def check(job):
    sheet = Source(job.name)
    exact, result = checked(sheet.data)
    status = 1 if result.refused or result.findings else 0
    if result.refused:
        why = sheet.refusal_in_words(result.refused)
        said, row = '%s\n    # %s\n' % (exact.strip(), why), '%s: %s: %s' % (job.name, exact.strip(), why[len(job.name) + 2:])
    else:
        said = command.with_sentences(result, sheet.places and sheet.places.lines, findings.parts(load_file.read(sheet.data)), sheet.names())
        row = '%s: %s' % (job.name, found_in_words(result, sheet.data))
    data = {'check': output.check(result, sheet), 'refused': result.refused, 'problem': why if result.refused else None}
    return Answer(status, exact if job.exact else said, row, data)


def found_in_words(result, data):
    """How many findings there are, and where there are none, on what."""
    found = result.needed if result.refused else len(result.findings)
    return '%d finding%s' % (found, '' if found == 1 else 's') if found else 'no findings on ' + findings.parts(load_file.read(data))


def fill(job):
    sheet = Source(job.name)
    exact, number, meaning = filled(sheet)
    row = '%s: %s: %s' % (job.name, exact, meaning[len(job.name) + 2:] if number else meaning)
    data = {'fill': output.fill(exact, number, sheet.data), 'refused': number, 'problem': meaning if number else None}
    return Answer(1 if number else 0, exact + '\n' if job.exact else '%s\n    # %s\n' % (exact, meaning), row, data)


def filled(sheet):
    """What the fill program prints, the number of its refusal or 0, and what it means."""
    wrote, said, status = run(FILL, sheet.data)
    exact = wrote.decode('utf-8', 'replace').strip()
    words, number = exact.split(), number_of(exact.split())
    if len(words) == 2 and words[0] == 'fill' and words[1].isdigit():
        return exact, 0, '%d.%d percent of the case' % divmod(int(words[1]), 10)
    if not number:
        raise strange(FILL, status, exact or said)
    meaning = sheet.refusal_in_words(number, FILL)
    return exact, number, meaning + ('; by the volumes, not proved: %s percent' % percent(sheet.data) if number == 8 else '')


def percent(data):
    """The part of the case that the lines of known kinds take, in exact numbers, to a tenth of a percent rounded down as the fill is."""
    sheet = load_file.read(data)
    return '%d.%d' % divmod(int(output.share_of(sheet) * 1000), 10)


# ---- show, file, draw, all

def show(job):
    sheet, _ = source.read_sheet(job.name)
    said = command.put(job.out, command.as_text(sheet, job.name), [job.name])
    if written(job.out):
        said = '%s: written\n' % job.out
    row = '%s: %s' % (job.name, findings.parts(sheet))
    return Answer(0, said, row, {'sheet': output.sheet(sheet), 'written': written(job.out)})


def file(job):
    """A text as a load file."""
    sheet, _ = source.read_text(job.name, command.read_bytes(job.name))
    said = command.put(job.out, load_file.write(sheet), [job.name])
    row = '%s: %s' % (job.name, findings.parts(sheet))
    return Answer(0, '%s: written\n' % job.out if written(job.out) else said, row, {'sheet': output.sheet(sheet), 'written': written(job.out)})


def draw(job):
    sheet = Source(job.name)
    _, result = checked(sheet.data)
    if result.refused not in (0, 6):
        raise sheet.refusal(result.refused, 'there is nothing to draw')
    said, row = _drawn(job.name, sheet.named(command.sheet_of(sheet.data, job.name)), job.out, result)
    return Answer(1 if result.refused or result.findings else 0, said, row, {'check': output.check(result, sheet), 'refused': result.refused,
                                                                             'written': written(job.out)})


def _drawn(name, sheet, out, result, engine=None):
    """Draws a checked sheet. What is printed for it alone, and in a row."""
    said = command.put(out, command.draw(sheet, result, name, engine), [name])
    row = '%s: drawn, %s' % (out, found_in_words(result, load_file.write(sheet)))
    return row + '\n' if written(out) else said, row


def all_(job):
    order = Source(job.name)
    prepare(RUNS['all'])
    wrote, sheet = planned(order, job.engine, job.consider)
    made = Source(job.out + '.sheet', wrote)
    command.put(made.name, wrote, [job.name])
    _, result = checked(wrote)
    exact, number, meaning = filled(made)
    if number == 8:
        share = findings.float_of(figures(order, job.engine, job.consider)[1])
        meaning = '%s: %s; by the placer: %.1f percent' % (made.name, findings.refusal_in_words(number), 100 * share)
    drawn, _ = _drawn(made.name, sheet, job.out + '.svg', result, job.engine)
    left = left_out.in_words(sheet)
    said = '# %s, by %s: %s\n' % (made.name, job.engine, summary(sheet)) + ''.join('# %s\n' % line for line in left)
    said += '\n%s\n%s%s\n    # %s\n%s' % (command.as_text(sheet, job.name), command.with_sentences(result, None, findings.parts(sheet), order.names()), exact, meaning, drawn)
    row = '%s; %s; %s' % (_row(job.name, sheet), found_in_words(result, wrote), exact)
    data = {'check': output.check(result, made), 'fill': output.fill(exact, number, wrote), 'written': [job.out + '.sheet', job.out + '.svg']}
    if job.figures:
        data['plans'] = [_values(order, job, job.engine, sheet)]
    return Answer(1 if result.refused or result.findings or (job.strict and left) else 0, said, row, data)


# What each command is, and the programs that it runs.
COMMANDS = {'plan': plan, 'check': check, 'fill': fill, 'show': show, 'file': file, 'draw': draw, 'all': all_}
RUNS = {'plan': [PLAN], 'check': [CHECK], 'fill': [FILL], 'show': [], 'file': [], 'draw': [CHECK], 'all': [PLAN, CHECK, FILL]}
