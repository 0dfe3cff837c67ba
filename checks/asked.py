"""What the words after a check ask for, [--program PATH] [--small], as checks/program takes them."""
import pathlib
import subprocess
import sys

ASKED = pathlib.Path(__file__).resolve().parent / "program"
SMALL = 256 * 1024


def program_of(words):
    """The program that is run. Where there is none, that ends the check."""
    asked = subprocess.run([ASKED, *words], stdout=subprocess.PIPE, text=True)
    if asked.returncode:
        sys.exit(asked.returncode)
    return asked.stdout.rstrip("\n")


def is_run(words, size):
    """Whether an input of so many bytes is run."""
    return size <= SMALL or "--small" not in words
