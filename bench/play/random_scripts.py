"""Random scripts of the language: those of a few names that race, with refused lines among them, and those of hundreds of messages."""

import random
from datetime import datetime

from workloads import shuffled, unique_names

FOLDERS = [b'a', b'b', b'c']
NAMES = [b'u', b'v', b'u!', b'ua', b'w', b'1700000007.M5P7Q1.mail.example.org', b'1700000007.M5P7Q12.mail.example.org']
LETTERS = b'FRSTa'


def flags(rng):
    picked = bytes(rng.choice(LETTERS) for _ in range(rng.randrange(4)))
    return picked or b'-'


def name(rng):
    kind = rng.random()
    unique = rng.choice(NAMES)
    if kind < 0.35:
        return unique
    if kind < 0.8:
        return unique + b':2,' + flags(rng).replace(b'-', b'')
    return rng.choice([unique + b':1,x', unique + b':', b'.h', b':2,S', b'.' + unique + b':2,S', unique + b':2,S!', unique + b':2,S:2,'])


def body(rng):
    return rng.choice([b'', b' ', b' x', b' hello', b' two words ', b' a\\nb\\\\c\\r', b' ' + b'y' * rng.randrange(40)])


def moment(rng):
    return rng.choice([1, 2, 1000, 86_400, 86_401, 87_399, 87_400, 129_600, 130_599, 130_600, 200_000])


def own(rng):
    """A moment of a job's own host, which mostly is left out."""
    return b' %d' % moment(rng) if rng.random() < 0.3 else b''


def tries(rng):
    return rng.choice([1, 1, 1, 2, 3, 16])


def look_up(rng, folder, unique, fresh=None):
    """A job that looks for a message and acts on it. A copy's own name has the number `fresh`, or one of a few."""
    kind = rng.randrange(6)
    if kind == 0:
        return b'job seen %s %s %s %d' % (folder, unique, flags(rng), tries(rng))
    if kind in (1, 2):
        return b'job flag %s %s %s %s %d' % (folder, unique, flags(rng), flags(rng), tries(rng))
    if kind == 3:
        return b'job move %s %s %s %d' % (folder, unique, rng.choice([f for f in FOLDERS if f != folder]), tries(rng))
    if kind == 4:
        fresh = rng.randrange(8) if fresh is None else fresh
        return b'job copy %s %s %s c%d %d' % (folder, unique, rng.choice(FOLDERS), fresh, tries(rng))
    return b'job expunge %s %s %d' % (folder, unique, tries(rng))


def job(rng):
    folder = rng.choice(FOLDERS)
    kind = rng.randrange(8)
    if kind == 0:
        return b'job deliver %s %s %d%s' % (folder, rng.choice(NAMES), rng.choice([1, 2, 4, 100]), body(rng))
    if kind == 1:
        return b'job clean %s' % folder
    return look_up(rng, folder, rng.choice(NAMES))


def race(rng, jobs):
    """Two jobs that look for one message before either of them acts on it."""
    folder, unique = rng.choice(FOLDERS), rng.choice(NAMES)
    steps = [b'step %d 1000' % (jobs + rng.choice([1, 2])) for _ in range(rng.randrange(2, 6))]
    return [look_up(rng, folder, unique), look_up(rng, folder, unique), *steps]


def slow_delivery(rng, jobs):
    """A delivery whose file a clean takes between two of its steps. By its own clock its day is over or isn't."""
    folder = rng.choice(FOLDERS)
    steps = [b'step %d 1000 1000' % (jobs + 1)] * rng.randrange(1, 5)
    clean = [b'job clean %s' % folder, b'finish %d 130600 200000' % (jobs + 2)]
    later = b'step %d 130600 %d' % (jobs + 1, rng.choice([1_000, 87_399, 87_400]))
    return [b'job deliver %s s%d 1 xyz' % (folder, jobs), *steps, *clean, later]


def refused_lines(rng):
    """Lines of which each has one of the faults that a line can be refused for; those of names come at the line that opens the store."""
    folder, unique = rng.choice(FOLDERS), rng.choice(NAMES)
    tries_wrong = rng.choice([b'0', b'17', b'18446744073709551615'])
    return [
        b'folder ' + rng.choice([b'.d', b'x/y', b'x\0', b'a', b'z' * 101]),
        b'folder d e',
        b'file %s %s f 0' % (folder, rng.choice([b'old', b'Cur', b'tmpx'])),
        b'file %s cur %s 0' % (folder, rng.choice([b'x/y', b'x\0y', b'x\r', b'z' * 256])),
        b'file %s new %s:2,S 0' % (folder, b'z' * 201),
        b'job deliver %s %s 1 x' % (folder, rng.choice([b'.u', b'u:', b'u/', b'z' * 201])),
        b'job deliver %s n%d 0 x' % (folder, rng.randrange(9)),
        b'job deliver %s n 1 \\q' % folder,
        b'job copy %s %s %s %s 1' % (folder, unique, folder, rng.choice([b'.v', b'v:2,', unique])),
        b'job move %s %s %s 1' % (folder, unique, folder),
        b'job seen %s %s %s 1' % (folder, unique, rng.choice([b'S1', b'-S', b'S,', b'\xff'])),
        b'job seen %s %s S %s' % (folder, unique, tries_wrong),
        b'job flag %s %s S S-' % (folder, unique),
        b'job flag %s %s S - %s' % (folder, unique, tries_wrong),
        b'job expunge %s %s %s' % (folder, unique, tries_wrong),
        b'job clean q',
        b'step %s 1' % rng.choice([b'0', b'10001', b'18446744073709551615', b'18446744073709551616', b'+1', b'']),
        b'finish 1 %s' % rng.choice([b'x', b'-1', b'000000000000000000001', b'1 2 3']),
        b'second ' + folder,
        b'unique 1000 %d 7 1 host' % rng.choice([1_000_000, 18446744073709551615]),
        b'unique 1000 5 7 1 %s' % rng.choice([b'h' * 101, b'/' * 26, b'a\0b', b'a\rb']),
        b'summary Subject: a' + rng.choice([b'\\', b'\\t', b'\\N']),
        b'read ' + rng.choice([b'', b'u v', b' u']),
        rng.choice([b' list a', b'list  a', b'List a', b'\r', b'jobs', b'job', b'job delive a u 1', b' #']),
    ]


def escaped(text):
    """The bytes of a body, as a script writes them."""
    return text.replace(b'\\', b'\\\\').replace(b'\n', b'\\n').replace(b'\r', b'\\r')


def mostly(rng, right, *others):
    return right if rng.random() < 0.8 else rng.choice(others)


def date(rng):
    """A date of RFC 2822: mostly a right one, with something obsolete or wrong in some of its parts."""
    year, month, day = rng.choice([1, 1900, 1949, 1970, 1999, 2000, 2024, 2038, 9999]), rng.randrange(1, 13), rng.randrange(1, 29)
    at = datetime(year, month, day, rng.randrange(24), rng.randrange(60), rng.randrange(60))
    weekday, name = at.strftime('%a').encode(), at.strftime('%b').encode()
    parts = [
        mostly(rng, weekday + b',', weekday.lower() + b' ,', weekday, b'Fri,', b'Fry,', b''),
        mostly(rng, b'%02d' % day, b'%d' % day, b'0%02d' % day, b'29', b'31', b'00'),
        mostly(rng, name, name.upper(), b'Feb', b'Abc'),
        mostly(rng, b'%04d' % year, b'%02d' % (year % 100), b'%03d' % (year % 1_000), b'1%04d' % year, b''),
        mostly(rng, *(at.strftime(form).encode() for form in ['%H:%M:%S', '%H:%M', '%H : %M :%S', '%H:%M:60', '%H:%M:61', '24:%M:%S', '%H%M'])),
        mostly(rng, b'+0000', b'-0600', b'+0230', b'-2559', b'+2600', b'+0060', b'-000', b'+00000', b'GMT', b'ut', b'EDT', b'est', b'Mst', b'PST',
               b'Z', b'j', b'A', b'XY', b'XYZ', b'ABCDE', b'ABCDEF', b'P5T', b''),
        mostly(rng, b'', b'(x)', b'(a (b) \\) c) ', b'(a', b'(a)b', b'()()', b'(' * 255 + b')' * 255, b'(' * 256 + b')' * 256, b'(\xff)', b'(\xc3\xa9)'),
    ]
    return mostly(rng, b' ', b'  ', b'\t', b' \r ', b'\x0c', b'\x0b', b'').join(part for part in parts if part)


def header(rng):
    """Lines that are fields and lines that are none, some of them folded or ended in another way."""
    value = rng.choice([b'x', b' one', b' two  words \t', b'', b' \\back', b'a: b', b'\xe9', b'\r'])
    field = rng.choice([b'Subject', b'subject', b'FROM', b'From', b'Message-ID', b'message-id', b'X-Other', b'Subjects', b'', b'Sub ject', b'Sub\xffject'])
    lines = [field + b':' + value, field + b' \t:' + value, b' ' + value, b'\t' + value, b'no field', b'', b'Date:' + date(rng), b'date: ' + date(rng)]
    end = mostly(rng, b'\n', b'\r\n', b'\r\r\n', b'\r', b'')
    return rng.choice(lines) + end + (header(rng) if rng.random() < 0.8 else b'')


def spoiled(rng, line):
    """A line with a word changed, left out or added."""
    words = line.split(b' ')
    at = rng.randrange(len(words))
    kind = rng.randrange(4)
    if kind == 0:
        del words[at]
    elif kind == 1:
        words.insert(at, b'')
    elif kind == 2:
        words.append(b'more')
    else:
        words[at] = rng.choice([b'', b'-', b'0', b'17', b'x/y', b'.d', b'18446744073709551616', b'z' * 201, b'\\q', b'new', b'a:b', b'\r'])
    return b' '.join(words)


def script(rng):
    lines = [b'folder ' + folder for folder in FOLDERS]
    taken = set()
    for _ in range(rng.randrange(7)):
        path = (rng.choice(FOLDERS), rng.choice([b'tmp', b'new', b'cur']), name(rng))
        unique = path[2].split(b':')[0]
        if rng.random() < 0.97 and (unique in taken or path in taken):
            continue
        taken |= {unique, path}
        lines.append(b'file %s %s %s %d%s' % (*path, rng.choice([0, 0, 1000, 5]), body(rng)))
    jobs = 0
    for _ in range(rng.randrange(1, 40)):
        kind = rng.random()
        if kind < 0.28:
            lines.append(job(rng))
            jobs += 1
        elif kind < 0.33:
            lines += rng.choice([race, slow_delivery])(rng, jobs)
            jobs += 2
        elif kind < 0.75 and jobs:
            lines.append(b'step %d %d%s' % (rng.randrange(1, jobs + 1), moment(rng), own(rng)))
        elif kind < 0.8 and jobs:
            lines.append(b'finish %d %d%s' % (rng.randrange(1, jobs + 1), moment(rng), own(rng)))
        elif kind < 0.86:
            lines.append(b'list ' + rng.choice(FOLDERS))
        elif kind < 0.9:
            lines.append(b'first ' + rng.choice(FOLDERS))
        elif kind < 0.93:
            lines.append(b'second ' + rng.choice(FOLDERS))
        elif kind < 0.95:
            lines.append(b'read ' + rng.choice(NAMES + [b'u:2,S', b'.h', b'c1']))
        elif kind < 0.96:
            lines.append(b'unique 1000 %d 7 1 %s' % (rng.choice([5, 999_999]), rng.choice([b'a/b:c', b'host', b'h' * 100])))
        elif kind < 0.98:
            lines.append(b'summary ' + escaped(header(rng)))
        else:
            lines.append(rng.choice([b'', b'# a comment', b'folder d', b'file a new q 0', b'nothing']))
    if rng.random() < 0.3:
        at = rng.randrange(len(lines))
        lines[at] = spoiled(rng, lines[at])
    for _ in range(rng.choice([0, 0, 1, 2])):
        lines.insert(rng.randrange(len(lines) + 1), rng.choice(refused_lines(rng)))
    end = rng.choice([b'\n', b'\n', b'\n', b'\r\n'])
    text = end.join(lines)
    return text + (b'' if rng.random() < 0.1 else end)


def crowded_script(rng):
    """Hundreds of messages in no order: whole jobs of all kinds, and listings between them, some in two halves."""
    names = [name.encode() for name in unique_names(rng, rng.choice([20, 100, 600]))]
    lines = [b'folder ' + folder for folder in FOLDERS]
    for name in shuffled(rng, names)[:rng.randrange(len(names))]:
        lines.append(b'file %s %s %s %d x' % (rng.choice(FOLDERS), rng.choice([b'tmp', b'new', b'cur']), name, rng.choice([0, 1_000])))
    for number in range(1, rng.randrange(len(names)) + 1):
        done = [crowded_job(rng, names, number), b'%s %d %d' % (mostly(rng, b'finish', b'step'), number, moment(rng))]
        folder = rng.choice(FOLDERS)
        lines += mostly(rng, done, [b'list ' + folder, *done], [b'first ' + folder, *done, b'second ' + folder])
    return b'\n'.join([*lines, *(b'list ' + folder for folder in FOLDERS), b''])


def crowded_job(rng, names, number):
    kind = rng.random()
    folder = rng.choice(FOLDERS)
    if kind < 0.3:
        return b'job deliver %s %d.%s 4 x' % (folder, number, rng.choice(names))
    if kind < 0.32:
        return b'job clean ' + folder
    return look_up(rng, folder, rng.choice(names), number)


def random_scripts(count, seed):
    """The scripts of a seed, each of which has a generator of its own."""
    for number in range(count):
        rng = random.Random(seed * 1_000_003 + number)
        yield mostly(rng, script, crowded_script)(rng)


def without_refused(text, said):
    """The script without the line that was refused; none where no line was."""
    if not said.startswith(b'line '):
        return None
    lines = text.split(b'\n')
    del lines[int(said.split(b':')[0].split(b' ')[1]) - 1]
    return b'\n'.join(lines)
