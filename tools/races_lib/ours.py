"""What Deolmutt does in a race, of what its programs printed for a script."""

from __future__ import annotations

from collections.abc import Sequence

from .marks import marks_of
from .play import Played, Step
from .scene import Scene, shown
from .side import GOOD, SAID, Order, Shown, Side
from .words import Act, Directories, sentence

# What a job is asked for, with the words of its line.
ASKED = {
    "first": "lists the folder: new, and then cur",
    "deliver": "delivers {1}",
    "seen": "marks {1} as seen, which moves it from new to cur",
    "move": "moves {1} to {2}",
    "copy": "copies {1} to {2}",
    "expunge": "expunges {1}, if it has the flag T",
    "clean": "takes away files of tmp that are 36 hours old",
}
ANSWERS = {
    "delivered": "the message is delivered",
    "moved": "the message is moved",
    "copied": "the message is copied",
    "expunged": "the message is expunged",
    "notthere": "there is no such message",
    "nottrashed": "the message has no flag T any more, so it stays",
    "otherinfo": "the name shows no flags",
    "lost": "not done: the name was gone at each try",
    "timedout": "not delivered: its 24 hours are over",
    "tmpgone": "not delivered: its file was gone from tmp",
}
UNDONE = ("lost", "timedout", "tmpgone")
# The clauses of the theorem in plain words.
CLAUSES = {
    "acts": "a job that succeeds takes effect at exactly one step of its own",
    "says": "a job without an effect says truly why",
    "quiet": "only a step that takes effect changes a message",
    "in_tmp": "only a clean that saw the file to be old takes it away from tmp",
    "the listing law": "new is read before cur, so a message that is there at both readings is listed",
}


def side_of(scene: Scene, interleavings: list[Played], own: Played, there_are: str, letters: str, repeat: list[str]) -> Side:
    """The side of a page that shows a script in many orders; `letters` are those of its jobs and listings."""
    side = Side(
        who="Deolmutt",
        tag="proved for every order",
        about="Played by deolmutt and maildir_cli; what you see is what they printed.",
        actors=sorted([letter, asked(shown(actor.call))] for letter, actor in zip(letters, scene.actors)),
        folders=[shown(folder) for folder in scene.folders()],
        head=["maildir_log 1", "allow NotFlushed", *(logged(shown(line)) for line in scene.head)],
        repeat=repeat,
    )
    for played in interleavings:
        side.orders.append(order_of(scene, played, letters))
    turns = "".join(letters[step.actor] for step in own.steps)
    side.own = next((at for at, order in enumerate(side.orders) if order.turns.startswith(turns)), 0)
    side.count = side.counted("")
    side.headline = GOOD, "Deolmutt loses nothing"
    if there_are != f"{len(interleavings):,}":
        side.count = f"{side.count[:-1]} that were tried; there are {there_are}."
    return side


def asked(call: str) -> str:
    """What a job or a listing is asked for."""
    verb, *words = call.split(" ")
    if verb != "flag":
        return ASKED[verb].format(*words)
    return flag_words(*words[1:4])


def flag_words(unique: str, added: str, removed: str) -> str:
    """What a change of flags is."""
    parts = [f"adds {added} to the flags of {unique}"] * (added != "-") + [f"takes {removed} from the flags of {unique}"] * (removed != "-")
    return " and ".join(parts) or f"changes no flag of {unique}"


def logged(line: str) -> str:
    """A line of a script as the log has it."""
    words = line.split(" ")
    return f"file {'/'.join(words[1:4])} {words[4]}" if words[0] == "file" else line


def order_of(scene: Scene, played: Played, letters: str) -> Order:
    """One order, with all its steps."""
    beginning = paths_of(played.beginning)
    directories = Directories([shown(folder) for folder in scene.folders()], dict.fromkeys(beginning))
    steps, answers = [], []
    for step, mark in zip(played.steps, marks_of(scene, played)):
        who = letters[step.actor]
        act = act_of(who, step)
        notes = [[mark.kind, mark.words, CLAUSES[mark.clause]]]
        if step.answer:
            answers.append((who, step.answer))
            notes.append(["", "answers", answered(step.answer)])
        steps.append(Shown(who, sentence(act, directories), mark.kind, notes, paths_of(step.rows), lines_of(who, step)))
        directories.take(act)
    return Order("".join(letters[step.actor] for step in played.steps), beginning, steps, *outcome_of(answers))


def paths_of(rows: Sequence[Sequence[bytes]]) -> list[str]:
    """The paths of all rows, in their order."""
    return [shown(b"/".join(row[:3])) for row in rows]


def act_of(who: str, step: Step) -> Act:
    """A step as a call."""
    reply, _, names = step.reply.partition(": ")
    return Act(who, tuple(step.call.split(" ")), reply, tuple(names.split(" ")) if names and names != "nothing" else ())


def lines_of(who: str, step: Step) -> list[str]:
    """The lines of a step in the log. The log of jobs has no line of a listing."""
    line = f"{who} {step.call} {step.reply.replace(': nothing', '').replace(':', '', 1) if step.reply.startswith('ok:') else step.reply}"
    answer = [f"# {who}: {step.answer}"] if step.answer else []
    return [f"{step.moment} {line}" if step.moment else f"1 {line}", *answer]


def answered(answer: str) -> str:
    """An answer in words."""
    word, _, rest = answer.partition(" ")
    if word == "flags":
        return f"the flags are {rest}"
    if word == "cleaned":
        return f"{rest} file{'' if rest == '1' else 's'} taken away"
    if word == "lists":
        return f"the listing has {', '.join(row.split(' ')[1] for row in rest.split(', ')) if rest != 'nothing' else 'no message'}"
    return ANSWERS[word]


def outcome_of(answers: list[tuple[str, str]]) -> tuple[str, str]:
    """What came of an order, and how a reader is told of it."""
    told = " ".join(f"{who}: {answered(answer)}." for who, answer in sorted(answers))
    if any(answer.split(" ")[0] in UNDONE for _, answer in answers):
        return SAID, f"Not done, and said. {told}"
    return GOOD, f"Nothing is lost. {told}"
