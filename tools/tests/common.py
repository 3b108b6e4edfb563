"""What the tests share: where things lie, how a tool or a program is called, and a folder that goes away."""

import os
import shlex
import subprocess
import sys
import tempfile
import unittest

TESTS = os.path.dirname(os.path.abspath(__file__))
TOOLS = os.path.dirname(TESTS)
ROOT = os.path.dirname(TOOLS)
EXAMPLES = os.path.join(ROOT, "examples")
MACHINE = os.path.join(EXAMPLES, "machine.metrics")

GORILLA = os.environ.get("GORILLA", "")
NEEDS_PROGRAM = unittest.skipUnless(GORILLA, "GORILLA gives no command of the program")
FAKE = shlex.join([sys.executable, "-B", "-m", "tests.fake_gorilla"])


def surroundings(**more):
    """The environment of a call, in which the packages of this folder are found from anywhere."""
    return {**os.environ, "PYTHONPATH": TOOLS, "PYTHONDONTWRITEBYTECODE": "1", **more}


def call(command, given="", folder=None, **more):
    """The status, output and errors of a command, a list of words, on a text as its input."""
    done = subprocess.run(command, input=given.encode(), capture_output=True, cwd=folder, env=surroundings(**more), timeout=300, check=False)
    return done.returncode, done.stdout.decode(), done.stderr.decode()


def tool(name, *words, given="", folder=None, **more):
    """The same of one of the tools."""
    return call([os.path.join(TOOLS, name), *words], given, folder, **more)


def program(command, *words, given="", folder=None):
    """The same of a program that stores, by its command."""
    return call([*shlex.split(command), *words], given, folder)


def example(name):
    """The text of a file of the examples."""
    with open(os.path.join(EXAMPLES, name), encoding="utf-8") as file:
        return file.read()


class InFolder(unittest.TestCase):
    """Tests with a folder of their own."""

    def setUp(self):
        self.place = tempfile.TemporaryDirectory()
        self.addCleanup(self.place.cleanup)
        self.folder = self.place.name

    def path(self, name):
        """The path of a file of the folder."""
        return os.path.join(self.folder, name)

    def file(self, name, content):
        """Writes a file, and gives its path."""
        with open(self.path(name), "wb") as file:
            file.write(content if isinstance(content, bytes) else content.encode("utf-8"))
        return self.path(name)

    def text(self, name):
        """What a file holds."""
        with open(self.path(name), encoding="utf-8") as file:
            return file.read()
