"""Two programs of the script language, played on the same scripts."""

import subprocess
from typing import NamedTuple, Optional

from random_scripts import without_refused


class Difference(NamedTuple):
    """A script on which two programs differ, and what each came to: its status, what it prints, and what it says on standard error."""

    script: bytes
    ours: tuple
    plain: tuple


class Compared(NamedTuple):
    """How many scripts were played, in how many forms, how many of these were refused at a line, and the first difference, if any."""

    scripts: int
    forms: int
    refused: int
    difference: Optional[Difference]


def run(command, text):
    done = subprocess.run(command, input=text, stdout=subprocess.PIPE, stderr=subprocess.PIPE)
    return done.returncode, done.stdout, done.stderr


def compare(scripts, ours, plain):
    """Plays scripts by two commands, up to the first on which they differ. A refused line is taken out and the script played again."""
    played = forms = refused = 0
    for text in scripts:
        played += 1
        while text is not None:
            a, b = run(ours, text), run(plain, text)
            if a != b:
                return Compared(played, forms, refused, Difference(text, a, b))
            forms += 1
            refused += a[0] != 0
            text = without_refused(text, a[2])
    return Compared(played, forms, refused, None)
