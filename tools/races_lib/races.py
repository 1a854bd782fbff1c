"""The races of docs/races.html: what each is, the scene that is kept of a released program, and the script by which Deolmutt plays it."""

from __future__ import annotations

from pathlib import Path
from typing import NamedTuple

from .losses import Names

TOP = Path(__file__).resolve().parents[2]
EXAMPLES = TOP / "crates/examples/data"
OWN = TOP / "tools/races.d"


class Race(NamedTuple):
    """A race. `letters` are those of the script's jobs and listings; `kept` is a scene of tools/scenes.d."""

    name: str
    title: str
    about: str
    script: Path
    letters: str = "ABC"
    kept: str = ""
    names: Names = Names(())
    allowed: tuple[str, ...] = ()


FLAGS = "A maildir keeps the flags of a message in the name of its file, so each has to rename it."
LISTING = "While a program lists the folder, another one moves the message from new to cur."

RACES = (
    Race(
        "two-flaggers", "Two programs flag one message", f"A sets the flag F, and B the flag R. {FLAGS}",
        EXAMPLES / "two-flaggers.script", kept="mflag-twice", names=Names(("mflag", "mflag"), late="by a name that is old"),
    ),
    Race(
        "tag-beside-rename", "A tag beside a rename", f"A sets the flag F, while B renames the file to set R. {FLAGS}",
        EXAMPLES / "two-flaggers.script", kept="notmuch-tag-beside-mv", names=Names(("notmuch", "mv")),
    ),
    Race(
        "listing-beside-move", "A listing beside a move", LISTING,
        OWN / "listing-beside-move.script", "BA", kept="mlist-beside-mv", names=Names(("mlist", "mv")),
    ),
    Race(
        "keys-beside-move", "keys() beside a move", LISTING,
        OWN / "listing-beside-move.script", "BA", kept="python-keys-beside-mv", names=Names(("Python's mailbox", "mv")),
    ),
    Race(
        "reader-beside-delivery", "A clean of tmp beside a delivery",
        "B delivers a message. A opens the maildir meanwhile, and looks at what is in tmp.",
        OWN / "clean-beside-delivery.script", "BA", kept="mailutils-beside-mdeliver", names=Names(("mail", "mdeliver"), {"A": "status 1"}),
        allowed=("Gone",),
    ),
    Race(
        "expunge-beside-untrash", "An expunge beside an untrash",
        "The message has the flag T. A expunges messages with T, while B takes the flag away.",
        EXAMPLES / "expunge-and-untrash.script", kept="dovecot-expunge-beside-untrash", names=Names(("Dovecot", "mv")),
    ),
    Race(
        "last-unlink-fails", "The last unlink fails",
        "The message is in new, and the delivery's last call, which takes its name in tmp away, fails.",
        EXAMPLES / "cleaner-and-deliverer.script", kept="python-add-unlink-fails", names=Names(("Python's mailbox",)),
    ),
    Race(
        "two-deliveries", "Two deliveries", "Each message is there from its own link on, and never before it is whole.",
        EXAMPLES / "two-deliverers.script",
    ),
    Race(
        "copy-beside-flag", "A copy beside a flag",
        "The copy has one try. Where its message's name is gone by then, the copy says so, and no message is lost.",
        EXAMPLES / "copy-while-flagged.script",
    ),
)
