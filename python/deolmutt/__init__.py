"""A Maildir store in memory that is proved to lose no mail to a race, for Python.

`Maildir` is a mailbox with the methods of `mailbox.Maildir`, and `DiskMaildir` one on a disk; `patched` puts them in the place of
`mailbox.Maildir` itself. `World` is the store itself: its jobs deliver, flag, move, copy and expunge messages by the directory calls of
maildir(5), which a program may let run step by step. `judge` says which calls of a log break the rules of maildirs.
"""

from . import calls, driven, errors, headers, judging, lines, names, scripts
from ._disk import LeftOut
from ._names import fresh_unique
from ._patching import patched
from .disk_maildir import DiskMaildir
from .errors import BadLog, DeolmuttError, Failed, Refused, WrongThread
from .headers import Summary, summary
from .judging import Finding, judge
from .maildir import Maildir
from .names import split_name, unique_name
from .scripts import index_lines, transcript
from .world import World

__version__ = "0.1.0"

__all__ = [
    "BadLog",
    "DeolmuttError",
    "DiskMaildir",
    "Failed",
    "Finding",
    "LeftOut",
    "Maildir",
    "Refused",
    "Summary",
    "World",
    "WrongThread",
    "calls",
    "driven",
    "errors",
    "fresh_unique",
    "headers",
    "index_lines",
    "judge",
    "judging",
    "lines",
    "names",
    "patched",
    "scripts",
    "split_name",
    "summary",
    "transcript",
    "unique_name",
]
