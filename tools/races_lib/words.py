"""What a step does, in words. A text comes in parts, of which each second one is a name."""

from __future__ import annotations

from dataclasses import dataclass, field

Parts = list[str]

DONE = {"create": "created", "link": "linked", "rename": "renamed", "unlink": "unlinked"}


@dataclass(frozen=True)
class Act:
    """One call: who makes it, by a letter, its words, its reply, and the names that a reading shows."""

    who: str
    words: tuple[str, ...]
    reply: str
    names: tuple[str, ...] = ()


@dataclass
class Directories:
    """What is in the directories, as the calls tell it: the paths, who took away those that are gone, and which readings go on."""

    folders: list[str]
    paths: dict[str, None] = field(default_factory=dict)
    gone: dict[str, tuple[str, str]] = field(default_factory=dict)
    reading: set[tuple[str, ...]] = field(default_factory=set)

    def take(self, act: Act) -> None:
        """Takes a call's effect."""
        verb, *rest = act.words
        if verb == "list":
            (self.reading.add if act.reply == "more" else self.reading.discard)((act.who, *rest))
        elif act.reply == "ok" and verb in DONE:
            if verb in ("rename", "unlink"):
                self.paths.pop(rest[0], None)
                self.gone[rest[0]] = (act.who, DONE[verb])
            if verb != "unlink":
                self.paths[rest[-1]] = None

    def short(self, path: str) -> str:
        """A path, without its folder where there is one alone."""
        return path.partition("/")[2] if len(self.folders) == 1 else path

    def pair(self, old: str, new: str) -> Parts:
        """Two paths; the second without its directory where that is the one of the first."""
        is_same = old.rpartition("/")[0] == new.rpartition("/")[0]
        return [self.short(old), " to ", new.rpartition("/")[2] if is_same else self.short(new)]


def sentence(act: Act, before: Directories) -> Parts:
    """What a call does. Who makes it is said before it."""
    verb, *paths = act.words
    if verb == "list":
        return reading(act, before)
    if verb == "look":
        return looking(paths[0], act.reply, before)
    if act.reply != "ok":
        return [f"tries to {verb} ", before.short(paths[0]), *refusal(act.reply, paths, before)]
    if verb == "write":
        return ["writes to ", before.short(paths[0])]
    if verb == "flush":
        return ["flushes ", before.short(paths[0]), " to the disk"]
    return [f"{verb}s ", *(before.pair(*paths) if len(paths) == 2 else [before.short(paths[0])])]


def reading(act: Act, before: Directories) -> Parts:
    """A part of a reading of a directory."""
    place = before.short("/".join(act.words[1:])) + "/"
    if act.names:
        return ["reads ", place, ": ", ", ".join(act.names)]
    if act.reply == "fault":
        return ["reads no more of ", place]
    return ["reads ", place, " to its end" if (act.who, *act.words[1:]) in before.reading else ": it is empty"]


def looking(path: str, reply: str, before: Directories) -> Parts:
    """A look at one name."""
    if reply == "notfound":
        return ["looks for ", before.short(path), *refusal(reply, [path], before)]
    return ["looks at ", before.short(path)]


def refusal(reply: str, paths: list[str], before: Directories) -> Parts:
    """Why a call was refused."""
    if reply == "notfound" and paths[0] in before.gone:
        who, did = before.gone[paths[0]]
        return [f", but {who} has {did} it: ENOENT"]
    if reply == "notfound":
        return [", which is not there: ENOENT"]
    if reply == "exists":
        return [", but ", before.short(paths[-1]), " is there: EEXIST"]
    return [": the system answers an error"]
