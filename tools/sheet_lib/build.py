"""Building the proved programs with 'rt run': how far it is, one build at a time, and whether a program is older than its sources."""
import contextlib
import fcntl
import os
import re
import shutil
import signal
import subprocess
import time

from . import streams
from .command import Problem

ROOT = os.path.dirname(os.path.dirname(os.path.dirname(os.path.realpath(__file__))))
# What of a crate rt builds from, and what a program's own sample is made of.
_PARTS = ('src', 'specs', 'proofs', 'stdin', 'stdout', 'args', 'data')
# What rt says as it begins with a crate, and once that is proved or not; a library that is built is passed over in silence.
_BEGUN = re.compile(r'rt: chose --jobs \d+ for (\w+)$')
_ENDED = re.compile(r'logic=(proved|not-proved)\b')
# Of what rt says, the lines that tell what was loaded, which say nothing of a fault.
_LOADED = re.compile(r'(statements |logic /|crate |library |axioms |only=|rt: chose |fn \S+: proved$)')
# The most seconds that proving takes on two cores with nothing else to do: so many for each crate, and so many for each thousand lines
# (the toolchain's guide says one to three minutes for a thousand).
_EACH, _LINES = 30, 180


def path_of(name):
    """Where a program stands that was proved and did well on its own sample."""
    return os.path.join(ROOT, 'target', 'bin', name)


def _made(name):
    """Where rt leaves a program once it is proved, 'rt run' and 'rt ci' alike."""
    return os.path.join(ROOT, 'crates', name, 'out', name)


def is_ready(name):
    """Whether a program is built, and from the sources as they are now."""
    return _is_fresh(name, path_of(name))


def _is_fresh(name, path):
    return os.path.isfile(path) and newer(name, path) is None


def newer(name, path=None):
    """A source of a program, or of what it rests on, that was changed after it was built, or None."""
    built = os.stat(path or path_of(name)).st_mtime
    found = [source for source, changed in _sources([name]) if changed > built]
    # a folder changes as files come and go: a file says more
    found = [source for source in found if not os.path.isdir(source)] or found
    return os.path.relpath(found[0], ROOT) if found else None


def _sources(names):
    """What some programs are built from, files and folders, and when each was changed."""
    paths = [os.path.join(ROOT, 'crates.txt')]
    for top in (os.path.join(ROOT, 'crates', crate, part) for crate in reached(names) for part in _PARTS):
        paths += [top] + [os.path.join(folder, one) for folder, folders, files in os.walk(top) for one in folders + files]
    return [(path, os.stat(path).st_mtime) for path in paths if os.path.exists(path)]


def reached(names):
    """The crates of this repository that some crates rest on, themselves too."""
    needs = {}
    if os.path.isfile(os.path.join(ROOT, 'crates.txt')):
        with open(os.path.join(ROOT, 'crates.txt'), encoding='utf-8') as source:
            for line in source:
                crate, colon, rest = line.split('#')[0].partition(':')
                if colon:
                    needs[crate.split()[0]] = rest.split()
    found, todo = [], list(names)
    while todo:
        crate = todo.pop()
        if crate in needs and crate not in found:
            found.append(crate)
            todo += needs[crate]
    return found


# ---- a build

def build(names):
    """Builds programs, or waits until another command has built them."""
    os.makedirs(os.path.join(ROOT, 'target', 'bin'), exist_ok=True)
    with open(os.path.join(ROOT, 'target', 'waikurpeho.lock'), 'w') as lock:
        try:
            fcntl.flock(lock, fcntl.LOCK_EX | fcntl.LOCK_NB)
        except BlockingIOError:
            streams.tell('another command is building the programs: this one waits for it')
            fcntl.flock(lock, fcntl.LOCK_EX)
        names = [name for name in names if not is_ready(name)]
        if names:
            _build(names)


def _build(names):
    # what rt built of these sources is taken as it is
    missing = [name for name in names if not _is_fresh(name, _made(name))]
    if missing:
        _prove(missing)
    for name in names:
        _take(name)


def _prove(names):
    said = ' '.join(names)
    # a source may have a time that is yet to come, from another machine
    began = max([time.time()] + [changed for _, changed in _sources(names)])
    for name in names:
        if os.path.isfile(path_of(name)):
            streams.tell('%s was built before %s was changed, and is built anew' % (name, newer(name)))
    if not shutil.which('rt'):
        raise Problem('%s must be built first, and rt is not on the PATH: install the Rattle toolchain, or add the folder of rt to PATH' % said)
    crates = reached(names)
    streams.tell('building %s into target/: %d crates are proved first, which takes %s on two cores with nothing else to do'
                 % (said, len(crates), _at_most(crates)))
    done = set()
    for name in names:
        status = _watched(name, crates, done)
        if status or not os.path.isfile(_made(name)):
            raise Problem("'rt run' in crates/%s failed with status %d, so nothing can be run" % (name, status))
        # as old as the sources that it was surely built from; rt leaves a program that it need not build as it is
        os.utime(_made(name), (began, began))


def _at_most(crates):
    """The most time that some crates take, in words."""
    seconds = _EACH * len(crates) + _LINES * sum(map(_lines, crates)) / 1000
    minutes = int(-(-seconds // 60))
    return 'at most %d minute%s' % (minutes, '' if minutes == 1 else 's')


def _lines(crate):
    """How many lines rt reads of a crate."""
    count = 0
    for part in ('src', 'specs', 'proofs'):
        for folder, _, files in os.walk(os.path.join(ROOT, 'crates', crate, part)):
            for name in files:
                with open(os.path.join(folder, name), 'rb') as source:
                    count += source.read().count(b'\n')
    return count


def _sample(name):
    """The words and the bytes that a program is tried on, and what it must write: files beside its src."""
    def read(part):
        path = os.path.join(ROOT, 'crates', name, part)
        if not os.path.isfile(path):
            return b''
        with open(path, 'rb') as source:
            return source.read()
    return read('args').decode('utf-8').splitlines(), read('stdin'), read('stdout')


def _take(name):
    """Tries a program that rt built on its own sample, and puts it where programs are run from."""
    from . import programs
    words, given, wanted = _sample(name)
    try:
        done = subprocess.run(programs.runner() + [_made(name)] + words, input=given, stdout=subprocess.PIPE, stderr=subprocess.PIPE)
    except OSError as error:
        raise Problem('%s cannot be started: %s' % (name, error.strerror)) from None
    if done.returncode or done.stdout != wanted:
        raise Problem('%s is proved, and on crates/%s/stdin it does not write what crates/%s/stdout has, so it is not run' % (name, name, name))
    part = path_of(name) + '.part'
    shutil.copy2(_made(name), part)
    os.replace(part, path_of(name))


def _watched(name, crates, done):
    """Runs rt on a program's sample and tells how far it is. Its status. It has a group of its own, so that a stop ends the provers with it."""
    words, given, _ = _sample(name)
    running = subprocess.Popen(['rt', 'run'] + (['--'] + words if words else []), cwd=os.path.join(ROOT, 'crates', name), start_new_session=True,
                               stdin=subprocess.PIPE, stdout=subprocess.DEVNULL, stderr=subprocess.PIPE)
    try:
        with contextlib.suppress(BrokenPipeError):
            running.stdin.write(given)
            running.stdin.close()
        told = _follow(running.stderr, crates, done)
        status = running.wait()
        streams.pass_on(told if status else '')
        return status
    except BaseException:
        # it may have ended by itself just now
        with contextlib.suppress(ProcessLookupError):
            os.killpg(running.pid, signal.SIGTERM)
        running.wait()
        streams.tell('stopped, and the provers too; what is proved stays, and the next start goes on from there')
        raise
    finally:
        running.stderr.close()


def _follow(lines, crates, done):
    """Tells each crate that is done. Gives what rt says behind the last of them, but for what it loads."""
    at, kept = None, []
    for line in lines:
        line = line.decode('utf-8', 'replace')
        begun, ended = _BEGUN.match(line), _ENDED.match(line)
        if begun:
            at = begun.group(1)
            # a crate's libraries were there before it
            done.update(set(reached([at])) - {at})
        if ended and ended.group(1) == 'proved' and at in crates:
            done.add(at)
            left = [crate for crate in crates if crate not in done]
            streams.tell('%d of %d crates: %s proved%s' % (len(done), len(crates), at, ', %s more' % _at_most(left) if left else ''))
            kept = []
        elif not _LOADED.match(line):
            kept.append(line)
    return ''.join(kept)
