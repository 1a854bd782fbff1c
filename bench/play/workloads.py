"""The workloads that the program is measured on: scripts of what mail servers and readers do, seeded and sized.

Names are those of real deliverers, `SEC.MmicroPpidQcount.mail.example.org`, most of 44 to 47 bytes, alike in the first ones.
Each workload is a function of a random generator and a size, which gives the lines of its script.
"""

import random
from datetime import datetime, timezone
from functools import partial

FIRST_SECOND = 1_700_000_000
HOST = 'mail.example.org'
WORDS = ('the message was sent to each of them by the host that had it last and waits there until somebody reads or moves it '
         'since mail is kept one file a message in folders which many programs share without a lock').split()


# ---- names and texts ----

def unique_name(rng, number):
    """The name of a delivery, some seven seconds after the one before."""
    second = FIRST_SECOND + 7 * number + rng.randrange(7)
    return '%d.M%dP%dQ%d.%s' % (second, rng.randrange(1_000_000), rng.randrange(1_000, 32_768), number, HOST)


def unique_names(rng, count):
    """Names in the order of their deliveries."""
    return [unique_name(rng, number) for number in range(1, count + 1)]


def shuffled(rng, items):
    return rng.sample(items, len(items))


class Texts:
    """Bodies of text in lines of 72, as a script writes them."""

    def __init__(self, rng):
        self.rng = rng
        self.lines = [self.line() for _ in range(500)]

    def line(self):
        return ' '.join(self.rng.choices(WORDS, k=20))[:72]

    def body(self, size):
        whole, rest = divmod(size, 73)
        lines = self.rng.choices(self.lines, k=whole + 1)
        return '\\n'.join(lines[:whole] + [lines[whole][:rest]])


def date(second):
    return datetime.fromtimestamp(second, timezone.utc).strftime('%a, %d %b %Y %H:%M:%S +0000')


def signature(rng):
    """A signed header's lines of letters and digits."""
    return ['\t' + '%068x' % rng.getrandbits(272) for _ in range(rng.randrange(8, 28))]


def trace(rng, second):
    """What the hosts say that a message passed."""
    lines = ['Return-Path: <sender@example.com>', 'Delivered-To: reader@' + HOST]
    for hop in range(rng.randrange(3, 7)):
        lines += ['Received: from mx%d.example.net (mx%d.example.net [192.0.2.%d])' % (hop, hop, rng.randrange(256)),
                  '\tby mx%d.example.org (Postfix) with ESMTPS id %010X' % (hop, rng.getrandbits(40)),
                  '\tfor <reader@%s>; %s' % (HOST, date(second - hop))]
    return lines


def header(rng, number):
    """A header of 2 to 4 KB, its four fields after those of the hosts, as servers write it."""
    second = FIRST_SECOND + 61 * number
    subject = ' '.join(rng.choices(WORDS, k=rng.randrange(3, 10)))
    folded = [' ' + ' '.join(rng.choices(WORDS, k=6))] if rng.random() < 0.5 else []
    return [*trace(rng, second),
            'DKIM-Signature: v=1; a=rsa-sha256; d=example.com; s=mail; h=from:subject:date:message-id; b=', *signature(rng),
            'Subject: ' + subject, *folded,
            'From: "A. N. Author" <author@example.com>', 'To: reader@' + HOST, 'Date: ' + date(second),
            'Message-ID: <%d.%010x@example.com>' % (number, rng.getrandbits(40)),
            'MIME-Version: 1.0', 'Content-Type: text/plain; charset=utf-8']


# ---- lines of scripts ----

class Jobs:
    """The job lines of a script, which number their jobs."""

    def __init__(self):
        self.count = 0

    def job(self, words):
        self.count += 1
        return 'job ' + words

    def finished(self, words):
        """A job that is finished at once, at a moment of its own."""
        return [self.job(words), 'finish %d %d' % (self.count, FIRST_SECOND + self.count)]


def folders(*names):
    return ['folder ' + name for name in names]


def file(folder, place, name, body='x', stamp=FIRST_SECOND):
    return 'file %s %s %s %d %s' % (folder, place, name, stamp, body)


# ---- deliveries ----

def deliver(rng, size):
    """Messages of 2 KB of text, each delivered at once, and one listing."""
    jobs, texts = Jobs(), Texts(rng)
    yield from folders('inbox')
    for name in unique_names(rng, size):
        yield from jobs.finished('deliver inbox %s 4096 %s' % (name, texts.body(2_048)))
    yield 'list inbox'


def tiny(rng, size, is_in_order=True, inboxes=1, lists=0):
    """Messages of a byte, each delivered at once; then listings of each folder."""
    jobs = Jobs()
    names = unique_names(rng, size)
    inboxes = ['inbox%d' % number for number in range(inboxes)]
    yield from folders(*inboxes)
    for number, name in enumerate(names if is_in_order else shuffled(rng, names)):
        yield from jobs.finished('deliver %s %s 4096 x' % (inboxes[number % len(inboxes)], name))
    for _ in range(lists):
        yield from ('list ' + inbox for inbox in inboxes)


def submitted(rng, size):
    """Deliveries that are submitted in no order, and take no step."""
    yield from folders('inbox')
    for name in shuffled(rng, unique_names(rng, size)):
        yield 'job deliver inbox %s 4096 x' % name


def standing(rng, size):
    """Deliveries of which all take their first step in no order, then all their second, and so on: all names are in tmp at once."""
    yield from submitted(rng, size)
    for turn in range(4):
        for job in shuffled(rng, range(1, size + 1)):
            yield 'step %d %d' % (job, FIRST_SECOND + turn)
    yield 'list inbox'


def in_pieces(rng, size):
    """Messages of 2 KB in pieces of 128 bytes, eight deliveries at a time, which take turns."""
    jobs, texts = Jobs(), Texts(rng)
    names = unique_names(rng, size)
    yield from folders('inbox')
    for start in range(0, size, 8):
        batch = []
        for name in names[start:start + 8]:
            yield jobs.job('deliver inbox %s 128 %s' % (name, texts.body(2_048)))
            batch.append(jobs.count)
        for turn in range(17):
            yield from ('step %d %d' % (job, FIRST_SECOND + start + turn) for job in shuffled(rng, batch))
        yield from ('finish %d %d' % (job, FIRST_SECOND + start + 17) for job in batch)
    yield 'list inbox'


def delivered_and_moved(rng, size):
    """Messages of a byte over 64 folders, each delivered and moved on once; then all folders are listed."""
    jobs = Jobs()
    names = ['folder%d' % number for number in range(64)]
    yield from folders(*names)
    for number, unique in enumerate(unique_names(rng, size)):
        here, there = names[number % 64], names[(number + 7) % 64]
        yield from jobs.finished('deliver %s %s 4096 x' % (here, unique))
        yield from jobs.finished('move %s %s %s 3' % (here, unique, there))
    yield from ('list ' + name for name in names)


# ---- readers ----

def mixed(rng, size):
    """Readers who race: files of 400 bytes are seen, flagged twice each, and some moved or expunged, 16 at a time."""
    jobs, texts = Jobs(), Texts(rng)
    names = unique_names(rng, size)
    yield from folders('inbox', 'work')
    yield from (file('inbox', 'new', name, texts.body(400)) for name in names)
    for start in range(0, size, 16):
        batch = list(enumerate(names))[start:start + 16]
        trashed = {name for number, name in batch if number % 20 == 7}
        moved = {name for number, name in batch if number % 10 == 3}
        uniques = [name for _, name in batch]
        marks = ['F'] * len(batch) + ['T' if name in trashed else 'R' for name in uniques]
        flags = ['flag inbox %s %s - 3' % pair for pair in zip(uniques * 2, marks)]
        yield from raced(rng, jobs, ['seen inbox %s S 3' % name for name in uniques])
        yield from raced(rng, jobs, shuffled(rng, flags))
        yield from raced(rng, jobs, ['move inbox %s work 3' % name for name in uniques if name in moved])
        yield from raced(rng, jobs, ['expunge inbox %s 3' % name for name in uniques if name in trashed])
    yield from ['list inbox', 'list work']


def raced(rng, jobs, calls):
    """Jobs that are all submitted, take a step each in no order, and are finished in another."""
    batch = []
    for call in calls:
        yield jobs.job(call)
        batch.append(jobs.count)
    yield from ('step %d %d' % (job, FIRST_SECOND + jobs.count) for job in shuffled(rng, batch))
    yield from ('finish %d %d' % (job, FIRST_SECOND + jobs.count) for job in shuffled(rng, batch))


def flagged(rng, size, listed):
    """Seen files, of which 200 are flagged, with a listing after each of the first of these."""
    jobs = Jobs()
    names = unique_names(rng, size)
    yield from folders('inbox')
    yield from (file('inbox', 'cur', name + ':2,S') for name in shuffled(rng, names))
    for number in range(200):
        yield from jobs.finished('flag inbox %s F - 3' % rng.choice(names))
        if number < listed:
            yield 'list inbox'


def image(rng, size):
    """Files in no order, half of them seen, and one listing."""
    yield from folders('inbox')
    for number, name in shuffled(rng, list(enumerate(unique_names(rng, size)))):
        yield file('inbox', 'cur', name + ':2,RS') if number % 2 else file('inbox', 'new', name)
    yield 'list inbox'


def clean(rng, size):
    """Files that were left in tmp, in no order, and a clean two days later."""
    yield from folders('inbox')
    for name in shuffled(rng, unique_names(rng, size)):
        yield file('inbox', 'tmp', name, stamp=FIRST_SECOND + rng.randrange(1_000))
    yield Jobs().job('clean inbox')
    yield 'finish 1 %d' % (FIRST_SECOND + 200_000)


def marks(rng, size):
    """Files that are all seen, then all flagged, then all moved, each time in another order."""
    jobs = Jobs()
    names = unique_names(rng, size)
    yield from folders('inbox', 'work')
    yield from (file('inbox', 'new', name) for name in shuffled(rng, names))
    for call in ['seen inbox %s S 3', 'flag inbox %s F - 3', 'move inbox %s work 3']:
        for name in shuffled(rng, names):
            yield from jobs.finished(call % name)
    yield 'list work'


def copies(rng, size):
    """Trashed files of 500 bytes that are all copied to another folder, then all expunged."""
    jobs, texts = Jobs(), Texts(rng)
    names = unique_names(rng, size)
    yield from folders('inbox', 'work')
    yield from (file('inbox', 'cur', name + ':2,T', texts.body(500)) for name in shuffled(rng, names))
    for number, name in enumerate(shuffled(rng, names), size + 1):
        yield from jobs.finished('copy inbox %s work %s 3' % (name, unique_name(rng, number)))
    for name in shuffled(rng, names):
        yield from jobs.finished('expunge inbox %s 3' % name)
    yield from ['list inbox', 'list work']


def moves(rng, size):
    """Moves in no order out of a folder of 50,000."""
    jobs = Jobs()
    names = unique_names(rng, 50_000)
    yield from folders('inbox', 'work')
    yield from (file('inbox', 'cur', name + ':2,S') for name in shuffled(rng, names))
    for name in rng.sample(names, size):
        yield from jobs.finished('move inbox %s work 3' % name)
    yield 'read ' + names[0]


def reads(rng, size):
    """Files of 2 KB, each read once, in no order."""
    texts = Texts(rng)
    names = unique_names(rng, size)
    yield from folders('inbox')
    yield from (file('inbox', 'cur', name + ':2,S', texts.body(2_048)) for name in names)
    yield from ('read ' + name for name in shuffled(rng, names))


def thousand(rng):
    """A folder of 1,000 messages, half of them seen."""
    names = unique_names(rng, 1_000)
    lines = folders('inbox')
    lines += [file('inbox', 'cur', name + ':2,S') for name in names[::2]]
    return names, lines + [file('inbox', 'new', name) for name in names[1::2]]


def listings(rng, size):
    """Listings of 1,000 messages."""
    _, lines = thousand(rng)
    yield from lines
    yield from ['list inbox'] * size


def halves(rng, size):
    """Listings of 1,000 messages in two halves, with a flag change between them."""
    jobs = Jobs()
    names, lines = thousand(rng)
    yield from lines
    for _ in range(size):
        yield 'first inbox'
        yield from jobs.finished('flag inbox %s %s - 2' % (rng.choice(names), rng.choice('DFPR')))
        yield 'second inbox'


# ---- text ----

def summaries(rng, size):
    """Summaries of headers of 2 to 4 KB."""
    headers = ['\\n'.join(header(rng, number)) for number in range(500)]
    yield from ('summary %s\\n\\nbody\\n' % rng.choice(headers) for _ in range(size))


def made_names(rng, size):
    for number in range(size):
        parts = (FIRST_SECOND + number, rng.randrange(1_000_000), rng.randrange(100_000), number, number % 50)
        yield 'unique %d %d %d %d host%d.example/x:y' % parts


def comments(rng, size):
    lines = Texts(rng).lines
    yield from ('# ' + rng.choice(lines)[:50] for _ in range(size))


def one_body(_, size, letter='x', piece=4_096):
    """One body of so many KiB of a letter, as a script writes it, in pieces of so many bytes."""
    yield from folders('inbox')
    yield from Jobs().finished('deliver inbox u %d %s' % (piece, letter * size * 1_024))
    yield 'list inbox'


# Each with its three sizes, the last of which is near what a script may hold or what is still measured in seconds.
WORKLOADS = {
    'deliver': (deliver, (1_000, 3_000, 10_000)),
    'tiny': (tiny, (1_000, 3_000, 10_000)),
    'tiny-shuffled': (partial(tiny, is_in_order=False), (1_000, 3_000, 10_000)),
    'tiny-in-folders': (partial(tiny, inboxes=64, lists=1), (1_000, 3_000, 10_000)),
    'tiny-listed': (partial(tiny, lists=1), (1_000, 3_000, 10_000)),
    'submitted': (submitted, (1_000, 3_000, 10_000)),
    'standing': (standing, (1_000, 3_000, 10_000)),
    'in-pieces': (in_pieces, (1_000, 3_000, 10_000)),
    'delivered-and-moved': (delivered_and_moved, (500, 1_500, 5_000)),
    'mixed': (mixed, (300, 1_000, 3_000)),
    'flags-and-lists': (partial(flagged, listed=200), (1_000, 3_000, 10_000)),
    'flags-and-a-list': (partial(flagged, listed=1), (1_000, 10_000, 100_000)),
    'image': (image, (1_000, 10_000, 100_000)),
    'clean': (clean, (1_000, 10_000, 100_000)),
    'marks': (marks, (300, 1_000, 3_000)),
    'copies': (copies, (500, 1_500, 5_000)),
    'moves': (moves, (1_000, 3_000, 10_000)),
    'reads': (reads, (1_000, 3_000, 10_000)),
    'listings': (listings, (100, 300, 1_000)),
    'halves': (halves, (100, 300, 1_000)),
    'summaries': (summaries, (1_000, 3_000, 10_000)),
    'made-names': (made_names, (10_000, 30_000, 100_000)),
    'comments': (comments, (50_000, 150_000, 500_000)),
    'body-in-pages': (one_body, (1_024, 4_096, 16_384)),
    'body-in-pieces': (partial(one_body, piece=64), (1_024, 4_096, 16_384)),
    'body-in-bytes': (partial(one_body, piece=1), (64, 256, 1_024)),
    'body-of-escapes': (partial(one_body, letter='\\n', piece=16_777_216), (1_024, 4_096, 16_384)),
}


def script(workload, size, seed=1):
    """The bytes of a workload's script."""
    function, _ = WORKLOADS[workload]
    rng = random.Random('%s %d %d' % (workload, size, seed))
    return ''.join(line + '\n' for line in function(rng, size)).encode()
