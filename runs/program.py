"""The program that the tests run: the one that CAMXPT names, as `runs/test` does, or else the one that is proved here."""
import os
import subprocess

top = os.path.dirname(os.path.dirname(os.path.abspath(__file__)))
given = os.environ.get("CAMXPT")
if given and os.path.basename(given) != "camxpt":
    raise SystemExit("CAMXPT has to name a program that is called camxpt, as shells find it by this name")
# The script at the top runs this one too, and looks each time whether it is built: `build` does so once.
program = os.path.abspath(given) if given else os.path.join(top, "crates", "camxpt", "out", "camxpt")


def build(*others):
    """Proves and builds the program and these others, if they are missing or older than a source. A given program is taken as it
    is, and nothing is built beside it."""
    if not given:
        subprocess.run([os.path.join(top, "runs", "build"), "camxpt", *others], check=True)


def needs_more(command, others):
    """Whether a command of a shell runs one of the other programs, or a script that proves something, while a program is given."""
    return bool(given) and any(it in command for it in (*others, "runs/build", "--try"))


def path(others=()):
    """The folders in which a shell finds the program as `camxpt`, and the others."""
    folders = [os.path.dirname(program) if given else top, *(os.path.join(top, "crates", it, "out") for it in others)]
    return os.pathsep.join([*folders, os.environ["PATH"]])
