"""The proved programs: where they are, and how they are run. What is missing, or older than its sources, is built.

They are for x86-64; on another processor they run in an emulator, where there is one.
"""
import functools
import os
import platform
import shutil
import subprocess

from . import build, findings, streams
from .command import Problem

# The crates, by what they do.
PLAN, CHECK, FILL = 'plan', 'check_sheet', 'sheet_fill'
# How a program's line on the error stream begins where its input could not be read or its output not be written.
FAILED = 'failed: '


@functools.lru_cache(maxsize=None)
def program(name):
    """The words that start a proved program; it is built if it is missing or older than its sources."""
    folder = os.environ.get('WAIKURPEHO_PROGRAMS')
    if folder:
        # programs from elsewhere, run as they are
        path = os.path.join(folder, name)
        if not os.access(path, os.X_OK):
            raise Problem('WAIKURPEHO_PROGRAMS is %s, and there is no program %s in it' % (folder, name))
        streams.tell('%s is taken from %s and is not the proved one of this repository' % (name, folder))
        return [path]
    if not build.is_ready(name):
        build.build([name])
    return runner() + [build.path_of(name)]


def prepare(names):
    """Makes programs ready to run. What is missing of them is built in one go, which is quicker than one by one."""
    missing = [] if os.environ.get('WAIKURPEHO_PROGRAMS') else [name for name in names if not build.is_ready(name)]
    if missing:
        build.build(missing)
    for name in names:
        program(name)


@functools.lru_cache(maxsize=None)
def runner():
    """What a program is started through: nothing on x86-64, elsewhere an emulator with the toolchain's loader and C library."""
    machine = platform.machine()
    if machine in ('x86_64', 'AMD64'):
        return []
    emulator, home = shutil.which('qemu-x86_64'), toolchain()
    library = os.path.join(home or '', 'toolchain', 'lib')
    loader = os.path.join(library, 'ld-linux-x86-64.so.2')
    if emulator and home and os.path.isfile(loader):
        return [emulator, loader, '--library-path', library]
    raise Problem('the programs are for x86-64, this machine is %s, and %s' % (
        machine, 'rt is not on the PATH: its toolchain has the C library that they need' if not home else
        'the toolchain at %s has no C library for them' % home if emulator else 'there is no emulator qemu-x86_64 on the PATH'))


def toolchain():
    """The toolchain's folder, which rt knows: its first page stands there. None without rt."""
    if not shutil.which('rt'):
        return None
    said = subprocess.run(['rt', 'doc'], stdin=subprocess.DEVNULL, stdout=subprocess.PIPE, stderr=subprocess.DEVNULL)
    page = said.stdout.decode('utf-8', 'replace').strip()
    return os.path.dirname(page) if page else None


def run(name, data, words=()):
    """Gives a program bytes on standard input. What it wrote on standard output, and what on standard error."""
    # an emulator takes variables of its own
    around = {key: value for key, value in os.environ.items() if not key.startswith('QEMU_')}
    try:
        done = subprocess.run(program(name) + list(words), input=data, env=around,
                              stdout=subprocess.PIPE, stderr=subprocess.PIPE)
    except OSError as error:
        raise Problem('%s cannot be started: %s' % (name, error.strerror)) from None
    said = done.stderr.decode('utf-8', 'replace').strip()
    # a program has no exit status of its own: this line stands for one
    if said.startswith(FAILED):
        raise Problem('%s: %s' % (name, said[len(FAILED):]))
    return done.stdout, said, done.returncode


def strange(name, status, said):
    """A program said something that it does not say."""
    return Problem('%s ended with status %d and wrote nothing that is known here%s' % (name, status, ': ' + said[:300] if said else ''))


def checked(data):
    """What the check program prints, and its meaning."""
    wrote, said, status = run(CHECK, data)
    exact = wrote.decode('utf-8', 'replace')
    try:
        return exact, findings.read(exact)
    except findings.FindingsError:
        raise strange(CHECK, status, exact.strip() or said) from None
