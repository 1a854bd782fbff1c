"""The loads of real size: what each is given, and how much mail that is.

The programs of C, Rust and Python are given a file of unique names, a line each, and the others a script. Names are those of real
deliverers, `SEC.MmicroPpidQcount.mx.example.org` of 44 to 47 bytes, in no order. All comes from a fixed seed.
"""

import random
from typing import Callable, NamedTuple

from workloads import Texts

FIRST_SECOND = 1_700_000_000
FOLDERS = 64
MIB = 1 << 20
BODY_BYTES = 300
# What a job takes of a script at most, with its steps.
MOST_OF_A_JOB = 256
# How many directory calls the jobs of a script make: a delivery, a flag change, a seen-move, and a move of a message in cur.
STEPS = (4, 2, 2, 3)


class Given(NamedTuple):
    """What a load holds at most, how many messages of how many bytes in all, and how many answers it prints."""

    messages: int
    mail: int
    answers: int = 0


class Load(NamedTuple):
    """A load by one of the programs: its name in the table, the word that asks for it, its three sizes, in messages or bytes, and what
    writes its input of a size."""

    who: str
    what: str
    word: str
    sizes: tuple
    write: Callable

    def body(self, size):
        """The bytes of a message."""
        return size if self.word == "bodies" else BODY_BYTES


# ---- names ----

def unique_names(rng):
    number = 100_000
    while True:
        words = (FIRST_SECOND + rng.randrange(10_000_000), rng.randrange(10_000, 1_000_000), rng.randrange(1_000, 32_768), number)
        yield "%d.M%dP%dQ%d.mx.example.org" % words
        number += 1


def names(rng, out, count):
    fresh = unique_names(rng)
    out.writelines(next(fresh) + "\n" for _ in range(count))


def of_messages(rng, out, messages):
    names(rng, out, messages)
    return Given(messages, messages * BODY_BYTES)


def of_bodies(rng, out, size):
    names(rng, out, 16)
    return Given(16, 16 * size)


# ---- scripts ----

class Script:
    """The lines of a script: files, by two in its folders in turn, one in new and one in cur; and jobs on them."""

    def __init__(self, rng, out, folders):
        self.rng, self.out = rng, out
        self.fresh = unique_names(rng)
        self.texts = Texts(rng)
        self.folders = ["f%d" % (10 + number) for number in range(folders)]
        self.files = []
        self.bytes = 0
        for folder in self.folders:
            self.line("folder " + folder)

    def line(self, text):
        self.out.write(text + "\n")
        self.bytes += len(text) + 1

    def file(self, body):
        number = len(self.files)
        folder, unique = self.folders[number // 2 % len(self.folders)], next(self.fresh)
        self.files.append((folder, unique))
        self.line("file %s %s 0%s" % (folder, "cur %s:2,S" % unique if number % 2 else "new %s" % unique, body))

    def job(self, kind, file):
        folder, unique = file
        other = self.folders[self.folders.index(folder) - 1]
        self.line("job " + (
            "deliver %s %s 4096 %s" % (folder, next(self.fresh), self.texts.body(BODY_BYTES)),
            "flag %s %s F - 3" % (folder, unique),
            "seen %s %s S 3" % (folder, unique),
            "move %s %s %s 3" % (folder, unique, other),
        )[kind])

    def jobs(self, count):
        """So many jobs of the four kinds in turn, on files in no order: a seen-move is of a file in new, the others are of one in cur."""
        for number, pair in enumerate(self.rng.sample(range(len(self.files) // 2), count)):
            kind = number % len(STEPS)
            self.job(kind, self.files[2 * pair + (kind != 2)])

    def steps(self, count):
        """The steps of so many jobs in turns."""
        for turn in range(max(STEPS)):
            for number in range(count):
                if turn < STEPS[number % len(STEPS)]:
                    self.line("step %d %d" % (number + 1, FIRST_SECOND + turn))

    def given(self, jobs, bytes_of_a_file):
        deliveries = (jobs + len(STEPS) - 1) // len(STEPS)
        return Given(len(self.files) + deliveries, len(self.files) * bytes_of_a_file + deliveries * BODY_BYTES, jobs)


def of_files_and_steps(rng, out, size):
    """A script of so many bytes: messages of 300 bytes in two folders, and jobs whose steps come in turns, 10,000 of them in 64 MiB."""
    script, jobs = Script(rng, out, 2), 10_000 * size // (64 * MIB)
    while script.bytes < size - (jobs + 2) * MOST_OF_A_JOB:
        script.file(" " + script.texts.body(BODY_BYTES))
    script.jobs(jobs)
    script.steps(jobs)
    return script.given(jobs, BODY_BYTES)


def of_bodies_in_a_script(rng, out, size):
    """Three deliveries of so many bytes."""
    fresh = unique_names(rng)
    out.write("folder inbox\n")
    for job in range(1, 4):
        out.write("job deliver inbox %s 65536 " % next(fresh))
        out.write("x" * size)
        out.write("\nfinish %d %d\n" % (job, FIRST_SECOND))
    return Given(3, 3 * size, 3)


def of_files_and_calls(rng, out, files):
    """So many empty messages in 64 folders, and a call for a hundred of them."""
    script, jobs = Script(rng, out, FOLDERS), files // 100
    for _ in range(files):
        script.file("")
    script.jobs(jobs)
    return script.given(jobs, 0)


# ---- all ----

LANGUAGES = ("C", "Rust", "Python")
THREADS = 4
MILLION = (62_500, 250_000, 1_000_000)
BODIES = (MIB, 4 * MIB, 16 * MIB)

LOADS = [
    *(Load(who, "deliveries to 64 folders", "deliveries", MILLION, of_messages) for who in LANGUAGES),
    *(Load(who, "one folder", "folder", (12_500, 50_000, 200_000), of_messages) for who in LANGUAGES),
    *(Load(who, "16 bodies", "bodies", BODIES, of_bodies) for who in LANGUAGES),
    Load("play", "a script", "play", (4 * MIB, 16 * MIB, 64 * MIB), of_files_and_steps),
    Load("play", "3 bodies", "play", BODIES, of_bodies_in_a_script),
    Load("threads", "a store", "threads", MILLION, of_files_and_calls),
]


def write(load, size, path):
    """Writes a load's input of a size, and says what it holds."""
    with open(path, "w", encoding="ascii") as out:
        return load.write(random.Random("%s %d" % (load.what, size)), out, size)
