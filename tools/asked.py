"""For tests: runs ./waikurpeho over the built programs in a folder of its own."""
import os
import subprocess
import sys
import tempfile
import unittest

ROOT = os.path.dirname(os.path.dirname(os.path.realpath(__file__)))
TOOL = [sys.executable, os.path.join(ROOT, 'waikurpeho')]
EXAMPLES = os.path.join(ROOT, 'examples')
ORDER = 'container 10 10 10\nspacing 1\nkind 7 quantity 2 size 4 4 4 rule fixed\n'
CLEAN = ORDER + 'line 7 instance 0 at 0 0 0\nline 7 instance 1 at 5 0 0\n'
CLOSE = ORDER + 'line 7 instance 0 at 0 0 0\nline 7 instance 1 at 4.5 0 0\n'
REFUSED = ORDER.replace('4 4 4', '4 0 4')
TYPO = ORDER.replace('fixed', 'fixd')
TOO_MANY = ORDER.replace('quantity 2', 'quantity 12')
SHOULD_BE_METRES = 'container 1.2 0.8 1\nkind 1 quantity 3 size 100 100 100 rule any\n'


class Room(unittest.TestCase):
    """A test with a folder of its own."""

    def setUp(self):
        room = tempfile.TemporaryDirectory()
        self.addCleanup(room.cleanup)
        self.room = room.name

    def path(self, name):
        return os.path.join(self.room, name)

    def put(self, name, words):
        with open(self.path(name), 'wb') as target:
            target.write(words if isinstance(words, bytes) else words.encode('utf-8'))
        return name

    def get(self, name):
        with open(self.path(name), 'rb') as source:
            return source.read()

    def ask(self, *words, given=b'', **more):
        """Status, standard output and standard error, without the notes on where programs come from."""
        more = {'stdout': subprocess.PIPE, **more}
        done = subprocess.run(TOOL + list(words), cwd=self.room, input=given, stderr=subprocess.PIPE, **more)
        said = [line for line in done.stderr.decode('utf-8').splitlines(True) if 'is not the proved one' not in line]
        return done.returncode, (done.stdout or b'').decode('utf-8', 'surrogateescape'), ''.join(said)
