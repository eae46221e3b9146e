"""The crates of this repository as its scripts see them: crates.txt and the sources, read and never changed."""
import os
import re

ROOT = os.path.dirname(os.path.dirname(os.path.realpath(__file__)))
CRATES = os.path.join(ROOT, 'crates')
# Libraries of the toolchain, which crates.txt may name too.
KIT = {'io', 'libc', 'os', 'std', 'check', 'bytes'}


class Crate:
    """A crate by its name, with what crates.txt says of it: what it is for, what it may use, and whether it is a static library."""

    def __init__(self, name, purpose, deps, is_static=False):
        self.name, self.purpose, self.deps, self.is_static = name, purpose, deps, is_static

    def files(self, folder, ending):
        """The files below a folder of the crate that end so, in a fixed order."""
        found = []
        for place, folders, names in os.walk(os.path.join(CRATES, self.name, folder)):
            folders.sort()
            found += [os.path.join(place, name) for name in sorted(names) if name.endswith(ending)]
        return found

    def lemmas(self):
        """The files of lemmas and theorems in proofs/ itself: not the answers of one function, which stand in a folder of it."""
        return [path for path in self.files('proofs', '.antt') if os.path.dirname(path) == os.path.join(CRATES, self.name, 'proofs')]

    def is_program(self):
        return os.path.isfile(os.path.join(CRATES, self.name, 'src', 'main.rt'))

    def code(self):
        """All its Rattle, without comments."""
        return '\n'.join(bare(read(path)) for path in self.files('src', '.rt'))


def read(path):
    with open(path, encoding='utf-8') as source:
        return source.read()


def bare(code):
    """Rattle without its comments and the contents of its byte strings."""
    code = re.sub(r'b?"(?:[^"\\]|\\.)*"', '""', code)
    return re.sub(r'//[^\n]*', '', code)


def crates():
    """The crates in the order of crates.txt. The comment above a line says what the crate is for."""
    found, said = [], ''
    for line in read(os.path.join(ROOT, 'crates.txt')).split('\n'):
        if line.startswith('#'):
            said = line[1:].strip()
        elif ':' in line:
            name, deps = line.split(':', 1)
            words = name.split()
            found.append(Crate(words[0], said, deps.split(), 'staticlib' in words[1:]))
            said = ''
        elif not line.strip():
            said = ''
    return found
