"""A row for each sentence of CPython's documentation of `mailbox.Mailbox` and `mailbox.Maildir` that says
what a program can see. Each is a function of an empty mailbox, and what it answers for every kind."""

from __future__ import annotations

import email
import email.message
import io
import mailbox
import warnings
from functools import partial
from typing import Any, Callable, NamedTuple

from support import MESSAGE, maildir_message, outcome

OTHER = b"Subject: two\n\nBye.\n"
EIGHT_BIT = b"Content-Type: text/plain; charset=utf-8\nContent-Transfer-Encoding: 8bit\n\n\xc3\xa4\n"
MARK = object()


class Row(NamedTuple):
    """What the documentation says, a try of it, and what every kind of mailbox has to answer."""

    sentence: str
    expected: Any
    tried: Callable[[Any], Any]
    # Whether it is of methods that `mailbox.Maildir` has since Python 3.13.
    is_of_flags: bool


ROWS: list[Row] = []


def is_so(sentence: str, expected: Any, tried: Callable[[Any], Any], is_of_flags: bool = False) -> None:
    """Adds a row."""
    ROWS.append(Row(sentence, expected, tried, is_of_flags))


# The same for a row of flags and info by key.
is_so_of_flags = partial(is_so, is_of_flags=True)


def row(sentence: str, expected: Any, is_of_flags: bool = False) -> Callable[[Callable[[Any], Any]], Any]:
    """Makes a function a row."""
    return lambda tried: is_so(sentence, expected, tried, is_of_flags)


flags_row = partial(row, is_of_flags=True)


def filled(box: Any, *messages: Any) -> Any:
    """A mailbox to which messages are added."""
    for message in messages:
        box.add(message)
    return box


def shown(message: Any) -> tuple[str, str, str, float]:
    """What a maildir says of a message."""
    return (message.get_payload(), message.get_subdir(), message.get_flags(), message.get_date())


# The interface: class Mailbox.

is_so("It is a Mailbox", True, lambda box: isinstance(box, mailbox.Mailbox))


@row("A key identifies a message also after another was put in its place", (True, OTHER, 1))
def _(box: Any) -> Any:
    key = box.add(MESSAGE)
    box[key] = OTHER
    return key in box, box.get_bytes(key), len(box)


@row("Keys are small, and each is another one", (True, 3))
def _(box: Any) -> Any:
    keys = [box.add(MESSAGE) for _ in range(3)]
    return all(isinstance(key, str) and len(key) < 200 for key in keys), len(set(keys))


@row("Each time a message is asked for, a new representation is made", (False, "Hello.\n"))
def _(box: Any) -> Any:
    key = box.add(MESSAGE)
    first = box[key]
    first.set_payload("changed")
    return first is box[key], box[key].get_payload()


@row("The contents of an added message are copied", "Hello.\n")
def _(box: Any) -> Any:
    message = email.message_from_bytes(MESSAGE)
    key = box.add(message)
    message.set_payload("changed")
    return box[key].get_payload()


is_so("The iterator goes over messages, not keys", ["MaildirMessage", "MaildirMessage"],
      lambda box: [type(message).__name__ for message in filled(box, MESSAGE, OTHER)])


@row("An iterator does not see messages that are added after its first", 2)
def _(box: Any) -> Any:
    seen = 0
    for _ in filled(box, MESSAGE, OTHER).iterkeys():
        box.add(MESSAGE)
        seen += 1
    return seen


@row("An iterator passes over messages that are removed before it yields them", 1)
def _(box: Any) -> Any:
    keys = [box.add(MESSAGE) for _ in range(3)]
    seen = 0
    for key in box.iterkeys():
        for other in keys:
            if other != key:
                box.discard(other)
        seen += 1
    return seen


@row("A key of an iterator may raise KeyError once its message is removed", KeyError)
def _(box: Any) -> Any:
    key = next(filled(box, MESSAGE).iterkeys())
    box.remove(key)
    return outcome(box.__getitem__, key)


# add.


def added(box: Any, message: Any) -> Any:
    """The bytes of a message that is added."""
    return box.get_bytes(box.add(message))


is_so("add takes a string", MESSAGE, lambda box: added(box, MESSAGE.decode("ascii")))
is_so("add takes a byte string", MESSAGE, lambda box: added(box, MESSAGE))
is_so("add takes a file that is open for reading bytes", MESSAGE, lambda box: added(box, io.BytesIO(MESSAGE)))
is_so("The lines of a file end as on this system", b"a\nb\nc", lambda box: added(box, io.BytesIO(b"a\r\nb\nc")))
is_so("The line ends of a byte string stay", b"a\r\nb\nc\rd", lambda box: added(box, b"a\r\nb\nc\rd"))
is_so("add takes an email.message.Message", MESSAGE, lambda box: added(box, email.message_from_bytes(MESSAGE)))
is_so("add takes a mailbox.Message", MESSAGE, lambda box: added(box, mailbox.Message(MESSAGE)))


@row("add takes a text file, with a warning", (MESSAGE, DeprecationWarning))
def _(box: Any) -> Any:
    with warnings.catch_warnings(record=True) as met:
        warnings.simplefilter("always")
        key = box.add(io.StringIO(MESSAGE.decode("ascii")))
    return box.get_bytes(key), met[0].category


is_so("add refuses a string that is not ASCII", (ValueError, 0),
      lambda box: (outcome(box.add, "Subject: \u00e4\n\n"), len(box)))
is_so("add refuses what is no message", ([TypeError] * 3, 0),
      lambda box: ([outcome(box.add, wrong) for wrong in (None, 1, ["a"])], len(box)))
is_so("The information of a MaildirMessage is used", ("Hello.\n", "cur", "FRS", 1e9),
      lambda box: shown(box[box.add(maildir_message("SFR", "cur"))]))
is_so("The date of a MaildirMessage in new is used", ("Hello.\n", "new", "", 1e9),
      lambda box: shown(box[box.add(maildir_message())]))


@row("The information of an mboxMessage is used by way of a MaildirMessage", ("cur", "FS"))
def _(box: Any) -> Any:
    message = mailbox.mboxMessage(MESSAGE)
    message.set_flags("ROF")
    found = box[box.add(mailbox.MaildirMessage(message))]
    return found.get_subdir(), found.get_flags()


@row("Other messages get defaults: new, and no flags", ("new", "", ""))
def _(box: Any) -> Any:
    found = box[box.add(mailbox.mboxMessage(MESSAGE))]
    return found.get_subdir(), found.get_flags(), found.get_info()


# remove, del, discard.


@row("remove deletes a message", (0, False))
def _(box: Any) -> Any:
    key = box.add(MESSAGE)
    box.remove(key)
    return len(box), key in box


@row("del deletes a message", 1)
def _(box: Any) -> Any:
    key = box.add(MESSAGE)
    box.add(OTHER)
    del box[key]
    return len(box)


is_so("discard deletes a message", (None, 0), lambda box: (box.discard(box.add(MESSAGE)), len(box)))
is_so("remove and del raise KeyError where there is no such message, and discard nothing", (KeyError, KeyError, None),
      lambda box: (outcome(box.remove, "a"), outcome(box.__delitem__, "a"), outcome(box.discard, "a")))
is_so("A message of cur with flags is deleted as well", (None, 0),
      lambda box: (box.remove(box.add(maildir_message("FT", "cur"))), len(box)))


# Assignment.

is_so("An assignment raises KeyError where there is no such message, and adds none", (KeyError, 0),
      lambda box: (outcome(box.__setitem__, "a", MESSAGE), len(box)))


@row("An assignment takes all that add takes", [OTHER] * 5)
def _(box: Any) -> Any:
    key = box.add(MESSAGE)
    found = []
    kinds = (OTHER, OTHER.decode("ascii"), io.BytesIO(OTHER), email.message_from_bytes(OTHER))
    for message in (*kinds, mailbox.Message(OTHER)):
        box[key] = message
        found.append(box.get_bytes(key))
    return found


@row("An assigned MaildirMessage brings its own information", ("Bye.\n", "cur", "T", 2e9))
def _(box: Any) -> Any:
    key = box.add(maildir_message("FS", "cur"))
    box[key] = maildir_message("T", "cur", 2e9, OTHER)
    return shown(box[key])


@row("An assigned MaildirMessage of new takes the message back there", ("new", ""))
def _(box: Any) -> Any:
    key = box.add(maildir_message("FS", "cur"))
    box[key] = maildir_message("", "new")
    return box[key].get_subdir(), box[key].get_flags()


@row("Any other assigned message leaves the information as it was", [("cur", "FS"), ("new", "")])
def _(box: Any) -> Any:
    keys = box.add(maildir_message("FS", "cur")), box.add(MESSAGE)
    for key in keys:
        box[key] = OTHER
    return [(box[key].get_subdir(), box[key].get_flags()) for key in keys]


@row("An assignment of what is no message raises TypeError, and changes nothing", (TypeError, [MESSAGE]))
def _(box: Any) -> Any:
    key = box.add(MESSAGE)
    raised = outcome(box.__setitem__, key, None)
    # `mailbox.Maildir` has that name alone as well.
    return raised, [box.get_bytes(each) for each in box.keys()]


@row("A message may be put in place of another again and again", (b"9", 1, "FS"))
def _(box: Any) -> Any:
    key = box.add(maildir_message("FS", "cur"))
    for number in range(10):
        box[key] = str(number).encode()
    return box.get_bytes(key), len(box), box[key].get_flags()


# Keys, values, items.


@row("iterkeys is an iterator over all keys, and keys a list of them", (True, True, list))
def _(box: Any) -> Any:
    keys = {box.add(MESSAGE) for _ in range(3)}
    iterator = box.iterkeys()
    return iter(iterator) is iterator, set(iterator) == keys == set(box.keys()), type(box.keys())


@row("itervalues is an iterator over messages, and values a list of them", (True, ["Bye.\n", "Hello.\n"], list))
def _(box: Any) -> Any:
    iterator = filled(box, MESSAGE, OTHER).itervalues()
    payloads = sorted(message.get_payload() for message in iterator)
    return iter(iterator) is iterator, payloads, type(box.values())


@row("iteritems is an iterator over keys and messages, and items a list of them", (True, True, list))
def _(box: Any) -> Any:
    bodies = {box.add(MESSAGE): "Hello.\n", box.add(OTHER): "Bye.\n"}
    iterator = box.iteritems()
    found = {key: message.get_payload() for key, message in iterator}
    return iter(iterator) is iterator, found == bodies, type(box.items())


is_so("An empty mailbox has none of them", ([], [], [], 0, []),
      lambda box: (box.keys(), box.values(), box.items(), len(box), list(box)))
is_so("in says whether a key is of a message", (True, False), lambda box: (box.add(MESSAGE) in box, "a" in box))


@row("len counts the messages", [0, 1, 2])
def _(box: Any) -> Any:
    counts = [len(box)]
    for message in (MESSAGE, maildir_message("S", "cur")):
        box.add(message)
        counts.append(len(box))
    return counts


# get and its forms.


@row("A message is a MaildirMessage", (mailbox.MaildirMessage, mailbox.MaildirMessage))
def _(box: Any) -> Any:
    key = box.add(MESSAGE)
    return type(box[key]), type(box.get(key))


is_so("get answers its default where there is no message, and [] raises KeyError", (None, True, KeyError),
      lambda box: (box.get("a"), box.get("a", MARK) is MARK, outcome(box.__getitem__, "a")))
is_so("get_message, get_bytes, get_string and get_file raise KeyError where there is none", [KeyError] * 4,
      lambda box: [outcome(form, "a") for form in (box.get_message, box.get_bytes, box.get_string, box.get_file)])
is_so("get_message answers a MaildirMessage", ("Hello.\n", "cur", "RS", 1e9),
      lambda box: shown(box.get_message(box.add(maildir_message("SR", "cur")))))


@row("get_bytes answers bytes", (bytes, MESSAGE))
def _(box: Any) -> Any:
    found = box.get_bytes(box.add(MESSAGE))
    return type(found), found


is_so("get_string answers a string", MESSAGE.decode("ascii"), lambda box: box.get_string(box.add(MESSAGE)))
is_so("get_string is 7bit clean", True, lambda box: box.get_string(box.add(EIGHT_BIT)).isascii())


@row("get_file answers a file of bytes", (MESSAGE, b"Subject: one\n", 4, [b"Hello.\n"]))
def _(box: Any) -> Any:
    with box.get_file(box.add(MESSAGE)) as file:
        whole = file.read()
        file.seek(0)
        line = file.readline()
        return whole, line, len([line, *file]), [whole.splitlines(True)[-1]]


@row("get_file answers a context, which closes the file", ValueError)
def _(box: Any) -> Any:
    with box.get_file(box.add(MESSAGE)) as file:
        pass
    # `mailbox.Maildir` lets its file go, and then knows none.
    try:
        file.read()
    except (ValueError, AttributeError):
        return ValueError


# clear, pop, popitem, update.

is_so("clear deletes all messages", (None, 0),
      lambda box: (filled(box, MESSAGE, OTHER, maildir_message("S", "cur")).clear(), len(box)))
is_so("pop answers a message and deletes it", ("Hello.\n", 0),
      lambda box: (box.pop(box.add(MESSAGE)).get_payload(), len(box)))
is_so("pop answers its default where there is none", (None, True),
      lambda box: (box.pop("a"), box.pop("a", MARK) is MARK))


@row("popitem answers a key with its message, and deletes it", (True, "Hello.\n", 0))
def _(box: Any) -> Any:
    added = box.add(MESSAGE)
    key, message = box.popitem()
    return key == added, message.get_payload(), len(box)


is_so("popitem raises KeyError where the mailbox is empty", KeyError, lambda box: outcome(box.popitem))


@row("update takes a mapping of keys to messages", [OTHER, b"x"])
def _(box: Any) -> Any:
    first, second = box.add(MESSAGE), box.add(MESSAGE)
    box.update({first: OTHER, second: b"x"})
    return [box.get_bytes(key) for key in (first, second)]


@row("update takes pairs of keys and messages", OTHER)
def _(box: Any) -> Any:
    key = box.add(MESSAGE)
    box.update([(key, OTHER)])
    return box.get_bytes(key)


@row("update raises KeyError for a key that is none, and sets the others", (KeyError, OTHER, 1))
def _(box: Any) -> Any:
    key = box.add(MESSAGE)
    return outcome(box.update, [("a", OTHER), (key, OTHER)]), box.get_bytes(key), len(box)


is_so("update takes no keywords", TypeError, lambda box: outcome(lambda: box.update(a=MESSAGE)))


# flush, lock, unlock, close.

is_so("Changes are there at once, and flush does nothing", (None, 1),
      lambda box: (filled(box, MESSAGE).flush(), len(box)))
is_so("lock and unlock do nothing, however often", [None] * 4,
      lambda box: [box.lock(), box.lock(), box.unlock(), box.unlock()])
is_so("close answers nothing", None, lambda box: box.close())


# class Maildir: folders.

is_so("A new mailbox has no folders", [], lambda box: box.list_folders())


@row("list_folders answers the names of all folders, without their dots", ["Sent", "a.b"])
def _(box: Any) -> Any:
    box.add_folder("Sent")
    box.add_folder("a.b")
    return sorted(box.list_folders())


@row("add_folder answers the folder, a mailbox of the same class", (True, 0, True))
def _(box: Any) -> Any:
    folder = box.add_folder("Sent")
    return type(folder) is type(box), len(folder), isinstance(folder, mailbox.Mailbox)


@row("add_folder of a folder that is there answers it", (1, ["Sent"]))
def _(box: Any) -> Any:
    box.add_folder("Sent").add(MESSAGE)
    return len(box.add_folder("Sent")), box.list_folders()


@row("get_folder answers a folder", (MESSAGE, 0))
def _(box: Any) -> Any:
    key = box.add_folder("Sent").add(MESSAGE)
    return box.get_folder("Sent").get_bytes(key), len(box)


is_so("get_folder raises NoSuchMailboxError where there is none", mailbox.NoSuchMailboxError,
      lambda box: outcome(box.get_folder, "Sent"))


@row("A folder may hold folders", (["in"], [], ["out"]))
def _(box: Any) -> Any:
    inner = box.add_folder("out").add_folder("in")
    return box.get_folder("out").list_folders(), inner.list_folders(), box.list_folders()


@row("remove_folder deletes a folder", ([], mailbox.NoSuchMailboxError))
def _(box: Any) -> Any:
    box.add_folder("Sent")
    box.remove_folder("Sent")
    return box.list_folders(), outcome(box.get_folder, "Sent")


@row("remove_folder raises NotEmptyError where there are messages, and deletes nothing",
     (mailbox.NotEmptyError, 1))
def _(box: Any) -> Any:
    box.add_folder("Sent").add(MESSAGE)
    return outcome(box.remove_folder, "Sent"), len(box.get_folder("Sent"))


@row("remove_folder raises NotEmptyError where there are folders", mailbox.NotEmptyError)
def _(box: Any) -> Any:
    box.add_folder("out").add_folder("in")
    return outcome(box.remove_folder, "out")


is_so("remove_folder of none raises what a missing directory does", FileNotFoundError,
      lambda box: outcome(box.remove_folder, "Sent"))


@row("A folder that was emptied and removed may be made again, empty", 0)
def _(box: Any) -> Any:
    box.add_folder("Sent").add(MESSAGE)
    box.get_folder("Sent").clear()
    box.remove_folder("Sent")
    return len(box.add_folder("Sent"))


is_so("clean leaves messages where they are", (None, 1), lambda box: (filled(box, MESSAGE).clean(), len(box)))
is_so("colon is what stands before info", ":", lambda box: box.colon)


# Flags and info by key: since Python 3.13.

is_so_of_flags("get_flags answers the flags of a message", ("FS", ""),
               lambda box: [box.get_flags(box.add(message)) for message in (maildir_message("SF", "cur"), MESSAGE)])


@flags_row("get_flags does not see what is changed in a message", "S")
def _(box: Any) -> Any:
    key = box.add(maildir_message("S", "cur"))
    box[key].add_flag("F")
    return box.get_flags(key)


def changed(box: Any, change: Callable[[str, str], None], before: str, *given: str) -> list[str]:
    """The flags of a message after each change of them."""
    key = box.add(maildir_message(before, "cur"))
    found = []
    for flags in given:
        change(key, flags)
        found.append(box.get_flags(key))
    return found


is_so_of_flags("set_flags sets flags and unsets all others", ["RT", "", "P"],
               lambda box: changed(box, box.set_flags, "FS", "TR", "", "PP"))
is_so_of_flags("add_flag adds a flag, or some, and leaves the others", ["FS", "FPRS", "FPRS"],
               lambda box: changed(box, box.add_flag, "S", "F", "RP", ""))
is_so_of_flags("remove_flag takes a flag, or some, away, and leaves the others", ["PRS", "S", "S"],
               lambda box: changed(box, box.remove_flag, "FPRS", "F", "RP", "T"))


@flags_row("set_flags is as an assignment of the message with these flags", True)
def _(box: Any) -> Any:
    first, second = (box.add(maildir_message("FS", "cur")) for _ in range(2))
    box.set_flags(first, "TR")
    message = box.get_message(second)
    message.set_flags("TR")
    box[second] = message
    return shown(box[first]) == shown(box[second])


@flags_row("get_info and set_info are of what stands after the colon", ["2,FS", "2,T", "2,"])
def _(box: Any) -> Any:
    key = box.add(maildir_message("FS", "cur"))
    found = [box.get_info(key)]
    for info in ("2,T", "2,"):
        box.set_info(key, info)
        found.append(box.get_info(key))
    return found


is_so_of_flags("A message that was just added has no info", "", lambda box: box.get_info(box.add(MESSAGE)))


@flags_row("Flags and info by key raise KeyError where there is no such message", [KeyError] * 6)
def _(box: Any) -> Any:
    read = [outcome(box.get_flags, "a"), outcome(box.get_info, "a")]
    changes = (box.set_flags, "S"), (box.set_info, "2,S"), (box.add_flag, "S"), (box.remove_flag, "S")
    return read + [outcome(change, "a", word) for change, word in changes]


@flags_row("Flags and info by key are strings, else TypeError", [TypeError] * 4)
def _(box: Any) -> Any:
    key = box.add(maildir_message("S", "cur"))
    return [outcome(change, key, 1) for change in (box.set_flags, box.set_info, box.add_flag, box.remove_flag)]
