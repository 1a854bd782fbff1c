"""The words of the command line, and what `--help` says of them."""

from __future__ import annotations

import argparse
from typing import Any, Optional, Sequence

_ABOUT = """\
Turns a real maildir tree into scripts of folder and file lines, which
maildir_cli plays and indexes, and such scripts into a tree. Names, bytes and
times in whole seconds come back as they were. docs/DISK.md says more.
"""

_STATUSES = """\
status:
  0    all was taken over
  1    it is done, but some of it was left out or changed: each on a line of
       standard error with its reason, and counted
  2    refused: wrong words, a tree or a script that can't be read, no place to
       write; nothing was written
  130  interrupted by Ctrl-C, or 143 and 129 by a signal to end: an import has
       written nothing, and an export no file that isn't whole
"""

_ABOUT_IMPORT = """\
Reads the maildirs of TREE and writes lines `folder NAME` and
`file FOLDER PLACE NAME STAMP BODY`.

TREE itself is the folder INBOX, a Maildir++ folder .A.B is A.B, and a maildir
in any other directory a/b is :a:b. Bytes that such a name can't hold are
written as % and two hexadecimal digits. STAMP is the time of the file's last
change, its parts of a second cut off; a time before 1970 is given as 0 and
reported. BODY has every byte of the file.

What a script can't say is left out and reported: names with a space, LF or
CR; names of over 255 bytes, and unique names of over 200; symbolic links,
directories and whatever else is no file; what can't be read. Files beside
tmp, new and cur, such as the lists and indexes of a server, are no mail: they
are passed over and counted by name.

A script has at most 67,108,864 bytes and 64 folders, and in all new and cur
of its folders no unique name twice. A tree that is more than that makes
several scripts, which --into numbers 001.script, 002.script and so on. They
appear together, once all are written; the first line of each says which it is.
"""

_EXAMPLES_OF_IMPORT = """\
examples:
  tools/maildir import ~/Maildir -o mail.script
  tools/maildir import --headers ~/Maildir | maildir_cli index 4
  tools/maildir import --dry-run --into scripts ~/Maildir
"""

_ABOUT_EXPORT = """\
Reads scripts of `folder` and `file` lines, empty lines and comments, and
writes the maildirs that they say into TREE, which is made where it isn't
there. Any other command, and any line that docs/SCRIPT.md would refuse, is
refused by its number before anything is written. So is a folder's name that
import would not write, and a file named . or .., so that nothing is written
outside TREE.

Each file is written to tmp under a fresh name, flushed to the disk and linked
to its place. What is there already is reported and left as it is, so a second
export changes nothing. The time of each file is its STAMP.
"""

_EXAMPLES_OF_EXPORT = """\
examples:
  tools/maildir export mail.script ~/copy
  tools/maildir export --dry-run scripts/*.script ~/copy
"""


# What all parsers have in common.
_HOW: dict[str, Any] = {"formatter_class": argparse.RawDescriptionHelpFormatter, "allow_abbrev": False}


def read_words(words: Optional[Sequence[str]]) -> argparse.Namespace:
    """The command and its options. Wrong words end the program with status 2, and --help with 0."""
    parser = argparse.ArgumentParser(prog="maildir", description=_ABOUT, epilog=_STATUSES, **_HOW)
    commands = parser.add_subparsers(dest="command", required=True, metavar="COMMAND")
    _add_import(commands)
    _add_export(commands)
    return parser.parse_args(words)


def _add_import(commands: argparse._SubParsersAction[argparse.ArgumentParser]) -> None:
    epilog = f"{_EXAMPLES_OF_IMPORT}\n{_STATUSES}"
    parser = commands.add_parser("import", help="a tree as scripts", description=_ABOUT_IMPORT, epilog=epilog, **_HOW)
    output = parser.add_mutually_exclusive_group()
    replaced = "write one script to FILE, and replace it only when all is written"
    output.add_argument("-o", dest="file", metavar="FILE", help=replaced)
    output.add_argument("--into", metavar="DIR", help="write as many scripts as it takes into DIR")
    header = "write of each body only what comes up to its first empty line, and that line"
    parser.add_argument("--headers", action="store_true", help=header)
    _add_dry_run(parser)
    parser.add_argument("tree", metavar="TREE", help="the tree; without -o and --into the script goes to standard output")


def _add_export(commands: argparse._SubParsersAction[argparse.ArgumentParser]) -> None:
    epilog = f"{_EXAMPLES_OF_EXPORT}\n{_STATUSES}"
    parser = commands.add_parser("export", help="scripts as a tree", description=_ABOUT_EXPORT, epilog=epilog, **_HOW)
    _add_dry_run(parser)
    parser.add_argument("scripts", metavar="SCRIPT", nargs="+", help="a script, or - for standard input")
    parser.add_argument("tree", metavar="TREE", help="the tree")


def _add_dry_run(parser: argparse.ArgumentParser) -> None:
    told = "say on standard output what would be written, and write nothing"
    parser.add_argument("--dry-run", action="store_true", help=told)
