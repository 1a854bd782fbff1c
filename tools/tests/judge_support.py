"""What the tests of `tools/trace`, `tools/check-run`, `tools/explore` and `tools/scenes` share: recorded traces, and logs of them."""

from __future__ import annotations

import json
import os
from typing import Any, Dict, Iterable, List, Optional, Tuple

from shared import TOOLS

from judge_lib.claims import Claim, read_claims
from judge_lib.folders import File, Folder, Folders
from judge_lib.making import Beginning, Log, Making
from judge_lib.names import Path
from judge_lib.processes import Actors, Processes

RECORDED = TOOLS / "tests/strace"
BOX = Folder(b"box", b"/srv/mail/box")


def recorded(name: str) -> List[str]:
    """The lines of a recorded trace."""
    with open(RECORDED / f"{name}.strace", encoding="latin1", newline="\n") as lines:
        return list(lines)


def beginning(files: Iterable[Tuple[str, bytes]]) -> Beginning:
    """The folder box with these files, all of the stamp 1000."""
    return Beginning(Folders([BOX], os.path.normpath), [File((Path(b"box", place, name),), 1000) for place, name in files])


def log_of(lines: Iterable[str], files: Iterable[Tuple[str, bytes]] = (), claims: Iterable[str] = (), actors: Actors = Actors("one", "a"),
           start: Optional[Beginning] = None) -> Log:
    """The log of a trace, whose first process is the actor `a`."""
    said: Dict[Optional[str], List[Claim]] = read_claims(list(claims))
    making = Making(start or beginning(files), Processes(actors, b"/srv/mail"), said, [])
    for _ in making.feed(lines):
        pass
    return making.log()


def steps_of(log: Log) -> List[str]:
    """A log's lines after its beginning, without moments."""
    lines = [line.encoded().decode("latin1") for line in log.lines]
    return [line if line.startswith("#") else line.partition(" ")[2] for line in lines]


def quoted(text: str) -> str:
    """A string as strace -xx prints it."""
    return '"' + "".join(f"\\x{byte:02x}" for byte in text.encode()) + '"'


def opened(number: int, path: str) -> str:
    """An open file as strace -y -xx prints it."""
    return f"{number}<" + quoted(path)[1:-1] + ">"


def trace(*calls: str) -> List[str]:
    """A trace of lines `PID TEXT`, a second apart."""
    return [f"{call.partition(' ')[0]} {1000 + number}.000000 {call.partition(' ')[2]}\n" for number, call in enumerate(calls)]


_TYPES = {"object": dict, "array": list, "string": str, "integer": int, "boolean": bool, "null": type(None)}


def check_schema(value: Any, name: str) -> None:
    """Raises where a value is not as a schema of tools/schemas says. It knows the words that our schemas have."""
    schema = json.loads((TOOLS / f"schemas/{name}.json").read_text(encoding="utf-8"))
    _check(value, schema, name)


def _check(value: Any, schema: Dict[str, Any], at: str) -> None:
    assert set(schema) <= {"$schema", "title", "description", "type", "enum", "properties", "required", "additionalProperties", "items"}, at
    kinds = schema.get("type", list(_TYPES))
    assert any(type(value) is _TYPES[kind] for kind in ([kinds] if isinstance(kinds, str) else kinds)), f"{at}: {value!r}"
    assert value in schema.get("enum", [value]), f"{at}: {value!r}"
    if isinstance(value, dict):
        own, rest = schema.get("properties", {}), schema.get("additionalProperties", False)
        assert set(schema.get("required", [])) <= set(value), f"{at} lacks a key"
        for key, each in value.items():
            assert key in own or rest, f"{at}: {key}"
            _check(each, own.get(key, rest), f"{at}.{key}")
    for each in value if isinstance(value, list) else []:
        _check(each, schema["items"], f"{at}[]")
