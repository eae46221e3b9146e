"""Many files: their names, where what is made of each goes, and their jobs on all processors at once, answered in the order of the names."""
import os
import re
import signal
import sys

from . import jobs
from .command import Problem


def names_on_input():
    """The names on standard input, one to a line, or with a zero byte after each as 'find -print0' writes them."""
    try:
        data = sys.stdin.buffer.read()
    except OSError as error:
        raise Problem('the names on standard input cannot be read: %s' % error.strerror) from None
    found = [os.fsdecode(name.rstrip(b'\r')) for name in data.split(b'\0' if b'\0' in data else b'\n') if name.strip()]
    if not found:
        raise Problem('there are no names on standard input')
    return found


def targets(names, folder, command):
    """What is made of each file: a file in the folder with its name and another ending. None for each where there is no folder."""
    if folder is None:
        return [None] * len(names)
    if not os.path.isdir(folder):
        raise Problem('-o %s: for many files it names a folder that is there' % folder)
    # all takes a name without its ending
    ending = '' if command == 'all' else jobs.ENDINGS[command][0]
    return [os.path.join(folder, re.sub(r'\.(txt|sheet)$', '', os.path.basename(name), flags=re.I) + ending) for name in names]


def without_clashes(todo):
    """The jobs, and for one whose result would replace an earlier one's, or a file that is read, the answer that says so."""
    read, first = {os.path.realpath(job.name) for job in todo}, {}
    return [_clash(job, read, first) for job in todo]


def _clash(job, read, first):
    for out in made_of(job):
        earlier = first.setdefault(os.path.realpath(out), job.name)
        if os.path.realpath(out) in read:
            return jobs.ended(job, Problem('%s: %s is one of the files that are read: give -o another folder' % (job.name, out)))
        if earlier != job.name:
            return jobs.ended(job, Problem('%s: %s is written for %s already' % (job.name, out, earlier)))
    return job


def made_of(job):
    """The files that a job writes."""
    return [job.out + ending for ending in jobs.ENDINGS['all']] if job.out and job.command == 'all' else jobs.written(job.out)


def answers(todo):
    """The answers, as they come, in the order of the jobs."""
    if len(todo) == 1:
        yield _answer(todo[0])
        return
    workers = min(len(todo), len(os.sched_getaffinity(0)) if hasattr(os, 'sched_getaffinity') else os.cpu_count() or 1)
    # loaded here, as it takes a while that one file alone need not wait
    from concurrent import futures
    with _pool(workers) as pool:
        try:
            yield from pool.map(_answer, todo)
        except futures.BrokenExecutor:
            raise Problem('a process that worked on some of the files was ended from outside') from None


def _pool(workers):
    """Workers. A forked one has the programs' places already, and makes pictures beside the others; where the machine has no locks
    for processes to share, they are threads, which keep the programs busy as well."""
    import multiprocessing
    from concurrent import futures
    try:
        return futures.ProcessPoolExecutor(workers, multiprocessing.get_context('fork'), _begin)
    except (ImportError, OSError):
        return futures.ThreadPoolExecutor(workers)


def _answer(job):
    return jobs.answer(job) if isinstance(job, jobs.Job) else job


def _begin():
    """A worker leaves Ctrl-C to the command, which ends it."""
    signal.signal(signal.SIGINT, signal.SIG_IGN)
    signal.signal(signal.SIGTERM, signal.SIG_DFL)
