"""The programs that are measured and compared, what is built beside them, and the scripts of crates/examples. It needs rt, rustc and cargo."""

import glob
import os
import shlex
import subprocess

HERE = os.path.dirname(os.path.realpath(__file__))
TOP = os.path.dirname(os.path.dirname(HERE))
EXAMPLES = os.path.join(TOP, 'crates', 'examples', 'data')


def ours():
    """The proved program, which is proved and built first where it is older than what it is made of."""
    subprocess.run([os.path.join(TOP, 'deolmutt'), 'build'], check=True, stdout=subprocess.DEVNULL)
    return os.path.join(TOP, 'crates', 'maildir_cli', 'out', 'maildir_cli')


def plain(work):
    """The plain Rust program, built in the folder `work`."""
    manifest = os.path.join(TOP, 'plain', 'Cargo.toml')
    build = ['cargo', 'build', '--quiet', '--release', '--offline', '--locked', '--manifest-path', manifest, '--target-dir', work]
    subprocess.run(build, check=True)
    return os.path.join(work, 'release', 'plain')


def commands(of_ours, of_plain, work):
    """The words by which both programs play a script: those of their commands, or of what is built where there is none."""
    ours_words = shlex.split(of_ours) if of_ours else [ours(), 'play']
    return ours_words, shlex.split(of_plain) if of_plain else [plain(work), 'play']


def rust(work, name, source, *flags):
    """A Rust file of this folder, built in the folder `work`."""
    built = os.path.join(work, name)
    subprocess.run(['rustc', '--edition', '2024', '-O', *flags, '-o', built, os.path.join(HERE, source)], check=True)
    return built


def examples():
    """The scripts of crates/examples, and those of its rows, each of which a line `>` parts from what it prints."""
    for path in sorted(glob.glob(os.path.join(EXAMPLES, '*.script'))):
        with open(path, 'rb') as text:
            yield text.read()
    for path in sorted(glob.glob(os.path.join(EXAMPLES, '*.rows'))):
        with open(path, 'rb') as rows:
            yield from (row.split(b'\n>')[0] + b'\n' for row in rows.read().split(b'\n%\n'))
