"""What scenes have shown, kept in a folder, so that a run can go on where it stopped."""

from __future__ import annotations

import json
import os
from typing import List, Optional

from .scene import Scene, version_of
from .staging import Found, Outcome


class Results:
    """The folder: `NAME.json` has what a scene showed, and `NAME.log` the log."""

    def __init__(self, folder: Optional[str]) -> None:
        self._folder = folder

    def keep(self, outcome: Outcome) -> None:
        """Keeps what a scene showed."""
        if self._folder is None:
            return
        os.makedirs(self._folder, exist_ok=True)
        said = {"scene": repr(outcome.scene), "versions": _versions(outcome.scene), "version": outcome.version, "runs": outcome.runs,
                "is_whole": outcome.is_whole, "words": Found._fields, "found": outcome.found}
        with open(self._path(outcome.scene, "log"), "wb") as file:
            file.write(outcome.log)
        # What is whole gets its name, so that a run that is ended leaves no half of it.
        with open(self._path(outcome.scene, "new"), "w", encoding="utf-8") as file:
            json.dump(said, file)
        os.replace(self._path(outcome.scene, "new"), self._path(outcome.scene, "json"))

    def former(self, scene: Scene) -> Optional[Outcome]:
        """What the scene showed with the same words and packages. Packages that exclude one another are installed one after the other, so
        what one showed stays while it is not installed."""
        if self._folder is None:
            return None
        try:
            with open(self._path(scene, "json"), encoding="utf-8") as file:
                said = json.load(file)
            with open(self._path(scene, "log"), "rb") as file:
                log = file.read()
        except FileNotFoundError:
            return None
        versions = _versions(scene)
        is_as_now = said["scene"] == repr(scene) and said.get("words") == list(Found._fields)
        if not is_as_now or said["versions"] != versions and None not in versions:
            return None
        return Outcome(scene, said["version"], said["runs"], said["is_whole"], [Found(*each) for each in said["found"]], log)

    def _path(self, scene: Scene, ending: str) -> str:
        return os.path.join(self._folder or "", f"{scene.name}.{ending}")


def _versions(scene: Scene) -> List[Optional[str]]:
    return [version_of(package) for package in scene.packages()]
