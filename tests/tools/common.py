"""What the tests share: places, runs of the wrapper, and folders that go away."""
import os
import shutil
import subprocess
import sys
import tempfile

HERE = os.path.dirname(os.path.abspath(__file__))
TOP = os.path.dirname(os.path.dirname(HERE))
WALLET = os.path.join(HERE, "wallet")
CONVERTER = os.environ.get("JCCONV")


class Run:
    """What a command did: its status, what it printed, and what it said on standard error."""

    def __init__(self, words, folder=HERE, given=""):
        done = subprocess.run(words, cwd=folder, input=given, capture_output=True, text=True, check=False)
        self.status, self.out, self.err = done.returncode, done.stdout, done.stderr


def jcconv(*words, folder=HERE, given=""):
    """Runs what the script jcconv hands words to that need no converter."""
    return Run([sys.executable, "-B", os.path.join(TOP, "tools", "main.py"), *words], folder, given)


def script(*words, folder=HERE, given=""):
    """Runs the script jcconv. None of the tests' words may need the converter, so nothing is built."""
    return Run([os.path.join(TOP, "jcconv"), *words], folder, given)


def folder_of(test, **files):
    """A new folder with these files (`_` for a dot in names), which goes away behind the test."""
    folder = tempfile.mkdtemp()
    test.addCleanup(shutil.rmtree, folder)
    for name, data in files.items():
        write(os.path.join(folder, name.replace("_", ".")), data)
    return folder


def read(*path):
    with open(os.path.join(*path), "rb") as source:
        return source.read()


def write(path, data):
    with open(path, "wb") as out:
        out.write(data if isinstance(data, bytes) else data.encode())
