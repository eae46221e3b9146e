"""From the words of a command line to jobs, and from their answers to standard output: in words, rows, JSON or CSV."""
import re

from . import command, jobs, many, output, programs, streams, text
from .command import Problem


# ---- words

def take_engine(name, words, listed, usage):
    """The placer and the number to consider, as they are typed, and the rest of the words. listed: files are named elsewhere."""
    engines = jobs.ENGINES + (('both',) if name == 'plan' else ())
    if not words:
        raise Problem(usage)
    if words[0] not in engines:
        raise Problem("'%s' is not a placer: write %s or %s%s; %s"
                      % (words[0], ', '.join(engines[:-1]), engines[-1], text.near(words[0], engines), usage))
    engine, rest = words[0], words[1:]
    # a file may be called consider too, and comes first
    first = 0 if listed else 1
    if 'consider' not in rest[first:]:
        return engine, None, rest
    at = rest.index('consider', first)
    number = rest[at + 1:at + 2]
    if not number or not (number[0].isascii() and number[0].isdigit()):
        raise Problem("consider needs a whole number after it%s" % (", and not '%s'" % number[0] if number else ''))
    return engine, number[0], rest[:at] + rest[at + 2:]


def take_last(words, last):
    """Whether a word ends the words, and those before it."""
    return (True, words[:-1]) if len(words) > 1 and words[-1] == last else (False, words)


def take_form(name, engine, options):
    """What is printed: None for words, 'json', or the name of a table."""
    tables = output.OF[name]
    if 'csv' not in options:
        return 'json' if 'json' in options else None
    if 'json' in options:
        raise Problem('give --json or --csv, and not both')
    table = options['csv'] or ('kinds' if engine == 'both' else tables[0])
    if table not in tables:
        raise Problem("--csv=%s is not there: %s has %s" % (table, name, ', '.join(tables)))
    return table


def read_words(name, words, usage):
    """The jobs that the words ask for, whether they are many, and what is printed."""
    words, out = command.take_output(words)
    if out and name not in jobs.ENDINGS:
        raise Problem('-o: %s writes no file; %s' % (name, usage))
    words, options = command.take_options(words, ('json', 'csv', 'names') + (('strict',) if name in ('plan', 'all') else ()))
    engine, consider, words = take_engine(name, words, 'names' in options, usage) if name in ('plan', 'all') else (None, None, words)
    exact, words = take_last(words, 'list' if name == 'plan' else 'exact') if name in ('plan', 'check', 'fill') else (False, words)
    names, form = words, take_form(name, engine, options)
    if 'names' in options:
        if words:
            raise Problem("'%s' is not understood here: with --names the names come on standard input" % words[0])
        names = many.names_on_input()
    several = len(names) > 1 or 'names' in options
    if not names or (name == 'all' and not out):
        raise Problem(usage)
    refuse(name, names, engine, exact, out, form, several)
    outs = many.targets(names, out, name) if several else [re.sub(r'\.(sheet|svg)$', '', out) if name == 'all' else out]
    todo = [jobs.Job(name, one, to, engine, consider, exact, form is not None, 'strict' in options) for one, to in zip(names, outs)]
    return many.without_clashes(todo) if several else todo, several, form


def refuse(name, names, engine, exact, out, form, several):
    """What cannot be asked together."""
    if several and '-' in names:
        raise Problem("'-' is standard input, and goes with no other file")
    if several and name == 'draw' and not out:
        raise Problem('-o FOLDER is needed to draw many files')
    if exact and (several or form):
        raise Problem("'%s' is for one file, and goes neither with --json nor with --csv" % ('list' if name == 'plan' else 'exact'))
    if engine == 'both' and (out or exact):
        raise Problem('both shows what each placer leaves out, and writes nothing: for a plan, write points or layers')
    if out == '-' and (form or several):
        raise Problem('-o - is standard output, where the rest is printed already: give -o a name')


# ---- a command

def command_of(name, usage):
    """The command of a name in sheet_lib/jobs.py, as a function of its words. usage: how it is written."""
    def run(words):
        todo, several, form = read_words(name, words, 'usage: ' + usage)
        if several:
            programs.prepare(jobs.RUNS[name])
        return told(todo, several, form)
    return run


def told(todo, several, form):
    """Prints the answers to jobs. The worst status. Where the output is lost, files that -o names are made all the same."""
    worst, counts, lost = 0, [0, 0, 0], None
    files = any(isinstance(job, jobs.Job) and job.out for job in todo)
    if form and form != 'json':
        streams.say(output.as_csv(form, None))
    for answer in many.answers(todo):
        worst = max(worst, answer.status)
        counts[answer.status] += 1
        try:
            if not lost:
                tell(answer, several, form)
        except streams.Lost as error:
            lost = error
            if not files:
                break
    if lost:
        raise lost
    if several:
        streams.tell('%d files: %d with status 0, %d with 1, %d with 2' % (len(todo), *counts))
    return worst


def tell(answer, several, form):
    if form == 'json':
        streams.say(output.as_json(answer.data))
    elif form:
        streams.say(output.as_csv(form, answer.data))
    elif several:
        streams.say(answer.row + '\n')
    elif answer.said is None:
        raise Problem(answer.data['problem'], answer.status)
    else:
        streams.say(answer.said)
