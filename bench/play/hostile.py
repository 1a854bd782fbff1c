"""Hostile scripts: right ones that were spoiled byte by byte, word by word and line by line, and noise."""

from random_scripts import mostly

BYTES = [b'\0', b'\r', b'\n', b' ', b'\\', b':', b'/', b'.', b',', b'-', b'#', b'\t', b'\x7f', b'\x80', b'\xff', b'\xc3\xa9']
NUMBERS = [b'0', b'1', b'16', b'17', b'10000', b'10001', b'18446744073709551615', b'18446744073709551616', b'9' * 40, b'+1', b'-1', b'007', b'1e3', b'0x1']
LENGTHS = [1, 63, 64, 100, 101, 200, 201, 255, 256, 4_096]
WORDS = b'''folder file job step finish list first second read unique summary deliver seen flag move copy expunge clean tmp new cur a b u v c1
- S FST 1 2 1000 130600 u:2,S u:2, .u Subject: \\n \\q'''.split()


def byte_changed(rng, text):
    at = rng.randrange(len(text) + 1)
    return text[:at] + rng.choice(BYTES) + text[at + rng.randrange(2):]


def span_gone(rng, text):
    at = rng.randrange(len(text) + 1)
    return text[:at] + text[at + rng.randrange(1, 30):]


def word_changed(rng, text):
    words = text.split(b' ')
    at = rng.randrange(len(words))
    long = rng.choice([b'z', b'\\', b'S', b'9', b'.']) * rng.choice(LENGTHS)
    words[at] = rng.choice([rng.choice(NUMBERS), rng.choice(WORDS), b'', long])
    return b' '.join(words)


def lines_changed(rng, text):
    """A line taken away, doubled, or put elsewhere."""
    lines = text.split(b'\n')
    at, to = rng.randrange(len(lines)), rng.randrange(len(lines))
    line = lines[at] if rng.random() < 0.3 else lines.pop(at)
    lines.insert(to, line)
    return b'\n'.join(lines)


def joined(rng, text, other):
    """The first lines of one script, and the last ones of another."""
    lines, others = text.split(b'\n'), other.split(b'\n')
    return b'\n'.join(lines[:rng.randrange(len(lines) + 1)] + others[rng.randrange(len(others) + 1):])


def noise(rng):
    """Words of the language in no order, or bytes."""
    if rng.random() < 0.3:
        return rng.randbytes(rng.randrange(200))
    parted = lambda: mostly(rng, b' ', b'\n', b'\r\n', b'  ')
    return b'folder a\n' + b''.join(rng.choice(WORDS) + parted() for _ in range(rng.randrange(60)))


def hostile(rng, scripts):
    """A script of `scripts` with one to five changes, or noise."""
    if rng.random() < 0.05:
        return noise(rng)
    text = rng.choice(scripts)
    for _ in range(rng.choice([1, 1, 2, 3, 5])):
        kind = rng.randrange(6)
        if kind == 5:
            text = joined(rng, text, rng.choice(scripts))
        else:
            text = [byte_changed, word_changed, word_changed, lines_changed, span_gone][kind](rng, text)
    return text
