"""The machines of jobs: md_jobs' Deliver, Errand, Purposes and Clean. Each turn asks for one directory call, and goes on by its reply."""

from __future__ import annotations

from typing import NamedTuple, Optional

from judge_lib.names import Path, flags_of, unique_of
from law_lib.histories import At, Between, List
from law_lib.histories import Call as Asked
from law_lib.monitor import is_message

from .calls import Answer, Call, flagged, places, wanted

DAY, OLD = 86400, 129600


class Row(NamedTuple):
    """A name of a directory that was listed, and the stamp of its file."""

    name: bytes
    stamp: int


class Stage(NamedTuple):
    """How far a job is: start, writing, linked or undo; look or act; list or remove."""

    at: str
    start: int = 0
    written: int = 0
    refusal: str = ""
    place: str = ""
    name: bytes = b""
    tries: int = 0
    names: tuple[bytes, ...] = ()
    files: int = 0


class After(NamedTuple):
    """How far a job is after a reply: its stage, its answer where it has one now, and the answer of its effect where this step is one."""

    stage: Stage
    answer: Optional[Answer] = None
    effect: Optional[Answer] = None


def ends(stage: Stage, word: str) -> After:
    return After(stage, Answer(word))


class Machines:
    """The machines as they are. A test may change one."""

    def first(self, call: Call) -> Stage:
        if call.kind in ("deliver", "clean"):
            return Stage("start" if call.kind == "deliver" else "list")
        return Stage("look", place=places(call)[0], tries=call.tries)

    def asks(self, call: Call, stage: Stage, own: int) -> tuple[Asked, bytes]:
        """The next directory call, without a reply, and the bytes that it writes."""
        if call.kind == "deliver":
            return self.delivery_asks(call, stage, own)
        if stage.at == "list":
            return List(call.folder, "tmp", "", ()), b""
        if stage.at == "remove":
            return At("unlink", Path(call.folder, "tmp", stage.names[0]), ""), b""
        if stage.at == "look":
            return List(call.folder, stage.place, "", ()), b""
        return self.deed(call, Path(call.folder, stage.place, stage.name)), b""

    def delivery_asks(self, call: Call, stage: Stage, own: int) -> tuple[Asked, bytes]:
        tmp = Path(call.folder, "tmp", call.unique)
        if stage.at == "start":
            return At("create", tmp, ""), b""
        if stage.at != "writing" or own - stage.start >= DAY:
            return At("unlink", tmp, ""), b""
        piece = call.body[stage.written : stage.written + call.chunk]
        if piece:
            return At("write", tmp, ""), piece
        return Between("link", tmp, tmp._replace(place="new"), ""), b""

    def deed(self, call: Call, old: Path) -> Asked:
        had = flags_of(old.name) or frozenset()
        if call.kind == "expunge":
            return At("unlink", old, "")
        if call.kind == "move":
            return Between("rename", old, old._replace(folder=call.to), "")
        if call.kind == "copy":
            return Between("link", old, Path(call.to, old.place, flagged(call.fresh, had) if b":" in old.name else call.fresh), "")
        return Between("rename", old, Path(call.folder, "cur", flagged(call.unique, wanted(call, had))), "")

    def follows(self, call: Call, stage: Stage, own: int, asked: Asked, reply: str, rows: list[Row]) -> After:
        """How far the job is after the reply to what it asked."""
        if call.kind == "deliver":
            return self.delivery_follows(call, stage, own, asked, reply)
        if stage.at == "list":
            old = tuple(row.name for row in rows if own - row.stamp >= OLD)
            return self.after_next(old, len(old)) if reply == "ok" else ends(stage, "Fault")
        if stage.at == "remove":
            files = stage.files - (reply == "notfound")
            return self.after_next(stage.names[1:], files) if reply in ("ok", "notfound") else ends(stage, "Fault")
        return self.after_look(call, stage, reply, rows) if stage.at == "look" else self.after_act(call, stage, reply)

    def delivery_follows(self, call: Call, stage: Stage, own: int, asked: Asked, reply: str) -> After:
        if stage.at == "start":
            if reply == "ok":
                return After(Stage("writing", start=own))
            return ends(stage, "NameTaken" if reply == "exists" else "Fault")
        if stage.at == "linked":
            return ends(stage, "Delivered")
        if stage.at == "undo" or isinstance(asked, At) and asked.deed == "unlink":
            return ends(stage, stage.refusal or "TimedOut")
        if reply == "notfound":
            return ends(stage, "TmpGone")
        if reply == "exists":
            return After(Stage("undo", refusal="NameTaken"))
        if reply == "fault":
            return After(Stage("undo", refusal="Fault"))
        if isinstance(asked, Between):
            return After(Stage("linked"), None, Answer("Delivered"))
        return After(stage._replace(written=stage.written + call.chunk))

    def after_next(self, names: tuple[bytes, ...], files: int) -> After:
        stage = Stage("remove", names=names, files=files)
        return After(stage) if names else After(stage, Answer("Cleaned", files=files))

    def after_look(self, call: Call, stage: Stage, reply: str, rows: list[Row]) -> After:
        if reply != "ok":
            return ends(stage, "Fault")
        found = [row.name for row in rows if unique_of(row.name) == call.unique and is_message(Path(call.folder, stage.place, row.name))]
        if found:
            return self.decide(call, stage, found[0])
        later = places(call)[places(call).index(stage.place) + 1 :]
        return After(stage._replace(place=later[0])) if later else ends(stage, "NotThere")

    def decide(self, call: Call, stage: Stage, name: bytes) -> After:
        had = flags_of(name)
        if call.kind == "expunge" and (had is None or "T" not in had):
            return ends(stage, "NotTrashed")
        if call.kind != "move" and had is None:
            return ends(stage, "OtherInfo")
        if call.kind == "flag" and had is not None and wanted(call, had) == had:
            return After(stage, Answer("Flags", had), Answer("Flags", had))
        return After(Stage("act", place=stage.place, name=name, tries=stage.tries))

    def after_act(self, call: Call, stage: Stage, reply: str) -> After:
        if reply == "ok":
            had = flags_of(stage.name) or frozenset()
            done = {"move": Answer("Moved"), "copy": Answer("Copied"), "expunge": Answer("Expunged")}
            answer = done.get(call.kind) or Answer("Flags", wanted(call, had))
            return After(stage, answer, answer)
        if reply == "notfound":
            return self.lost_or_again(call, stage)
        return ends(stage, "NameTaken" if reply == "exists" and call.kind == "copy" else "Fault")

    def lost_or_again(self, call: Call, stage: Stage) -> After:
        if stage.tries <= 1:
            return ends(stage, "Lost")
        return After(Stage("look", place=places(call)[0], tries=stage.tries - 1))
