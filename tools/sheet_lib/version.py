"""The version of these tools, which the file VERSION says, and the identity of the toolchain that proves."""
import functools
import os
import shutil
import subprocess

ROOT = os.path.dirname(os.path.dirname(os.path.dirname(os.path.realpath(__file__))))


@functools.lru_cache(maxsize=None)
def number():
    with open(os.path.join(ROOT, 'VERSION'), encoding='utf-8') as source:
        return source.read().strip()


def told(program):
    """What --version prints: the version, and what 'rt version' prints where there is rt."""
    kit = None
    if shutil.which('rt'):
        done = subprocess.run(['rt', 'version'], stdin=subprocess.DEVNULL, stdout=subprocess.PIPE, stderr=subprocess.DEVNULL)
        kit = done.stdout.decode('utf-8', 'replace').strip()
    return '%s %s\ntoolchain: %s\n' % (program, number(), kit or 'rt is not on the PATH')
