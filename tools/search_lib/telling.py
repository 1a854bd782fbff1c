"""A story as a log for `deolmutt judge`, with what our jobs answer, and what is wrong, as comments."""

from __future__ import annotations

from collections.abc import Iterable
from typing import Optional

from judge_lib.names import escaped
from law_lib.histories import At, Between, List
from law_lib.histories import Call as Asked

from .calls import Answer, Call, letters
from .promises import Story
from .stories import Deed, Rules, Taken, take
from .worlds import FOLDERS


def log_of(story: Story, deeds: Iterable[Deed], rules: Rules) -> bytes:
    """The log of the deeds from the beginning of a story on."""
    lines = [b"maildir_log 1", b"allow NotFlushed", *(b"folder " + folder for folder in FOLDERS)]
    for path, n in sorted(story.world.state.names.items(), key=lambda each: each[1]):
        lines.append(b"file %s %d" % (path.word(), story.world.state.files[n] or 0))
    for deed in deeds:
        taken = take(story, deed, rules)
        assert taken is not None
        story = taken.story
        lines += _lines(story.world.now, taken, taken.call) if taken.call else []
    return b"\n".join(lines) + b"\n"


def _lines(now: int, taken: Taken, call: Asked) -> list[bytes]:
    lines = [_line(now, taken.actor, call)]
    if taken.job is not None and taken.answer is not None:
        lines.append(b"# %s, a %s, answers %s" % (taken.actor, taken.job.kind.encode(), str(taken.answer).encode()))
        lines += [b"%d %s answer %s" % (now, taken.actor, said) for said in [_said(taken.job, taken.answer)] if said]
    return lines + [b"# %s: %s" % (taken.actor, wrong.encode()) for wrong in taken.wrong]


def _line(now: int, actor: bytes, call: Asked) -> bytes:
    if isinstance(call, At):
        words = [call.deed.encode(), call.path.word(), call.reply.encode()]
    elif isinstance(call, Between):
        words = [call.naming.encode(), call.old.word(), call.new.word(), call.reply.encode()]
    else:
        assert isinstance(call, List)
        words = [b"list", escaped(call.folder), call.place.encode(), call.reply.encode(), *map(escaped, call.shown)]
    return b" ".join([b"%d" % now, actor, *words])


def _said(call: Call, answer: Answer) -> Optional[bytes]:
    """What a log has of an answer; nothing of a clean's."""
    if call.kind == "clean":
        return None
    where = [call.folder, call.unique]
    words = {
        "Delivered": [b"delivered", *where], "Copied": [b"delivered", call.to, call.fresh], "Moved": [b"moved", call.to, *where],
        "Expunged": [b"expunged", *where], "Flags": [b"flags", letters(answer.flags or frozenset()).encode() or b"-", *where],
    }  # fmt: skip
    nowhere = answer.word == "NotThere" and call.looks_in_both()
    return b" ".join(words.get(answer.word, [b"notthere" if nowhere else b"failed", *where]))
