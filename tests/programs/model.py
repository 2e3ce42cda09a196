"""A model of the program `bloom`, written from its description and the arithmetic alone.

dev/blocked-model and tests/rotating.py use its filter.
"""

WORD = 2**64
MOST_WORDS = 2**20
MOST_HASHES = 2**32 - 1
MULTIPLIER = 0x517CC1B727220A95
# The only argument, if it is one of these, and what is printed somewhere.
OPTIONS = {b'-h': b'Usage: bloom <WORDS> <HASHES>\n', b'-V': b'bloom 0.17.0\n'}
OPTIONS |= {b'--help': OPTIONS[b'-h'], b'--version': OPTIONS[b'-V']}


def number(text):
    """The value of 1 to 20 decimal digits, below 2^64; else none."""
    if not 1 <= len(text) <= 20 or any(not 48 <= byte <= 57 for byte in text):
        return None
    value = 0
    for byte in text:
        value = 10 * value + byte - 48
    return value if value < WORD else None


def shape(arguments):
    """Words and hashes that the arguments ask for; none where they are wrong."""
    if len(arguments) != 2:
        return None
    words, hashes = number(arguments[0]), number(arguments[1])
    if words is None or hashes is None or not 1 <= words <= MOST_WORDS or hashes > MOST_HASHES:
        return None
    return words, max(1, hashes)


class Filter:
    """A set of positions."""

    def __init__(self, words, hashes):
        self.words, self.hashes, self.on = words, hashes, set()

    def positions(self, source):
        link = source
        for _ in range(self.hashes):
            yield link * 64 * self.words // WORD
            turned = (link * 32) % WORD + link // 2**59
            link = (turned + MULTIPLIER * source) % WORD

    def insert(self, source):
        places = set(self.positions(source))
        were_on = places <= self.on
        self.on |= places
        return were_on

    def contains(self, source):
        return all(place in self.on for place in self.positions(source))

    def values(self):
        """The words."""
        values = [0] * self.words
        for place in self.on:
            values[place // 64] += 2 ** (place % 64)
        return values


def answer(filter, line):
    """What a line answers; none where it is bad."""
    if line == b'z':
        filter.on = set()
        return b''
    if line == b'w':
        return b''.join(b'%016x\n' % value for value in filter.values())
    source = number(line[2:])
    if line[:2] not in (b'i ', b'c ') or source is None:
        return None
    found = filter.insert(source) if line[:1] == b'i' else filter.contains(source)
    return b'true\n' if found else b'false\n'


def run(kind, arguments, given):
    """Standard output, standard error and status. Of an option's output it is a piece.

    Of the kinds of sessions, 'input fails' has input that can't be read, and 'output fails' output
    that can't be written.
    """
    full = b'', b'output failed\n', 4
    if len(arguments) == 1 and arguments[0] in OPTIONS:
        return full if kind == 'output fails' else (OPTIONS[arguments[0]], b'', 0)
    form = shape(arguments)
    if form is None:
        return b'', b'usage: bloom WORDS HASHES\n', 2
    if kind == 'input fails':
        return b'', b'input failed\n', 4
    filter, output = Filter(*form), []
    lines = given.split(b'\n')
    if lines[-1] == b'':
        lines.pop()
    for count, line in enumerate(lines, 1):
        reply = answer(filter, line)
        if reply is None:
            return b''.join(output), b'line %d: bad command\n' % count, 2
        output.append(reply)
    output = b''.join(output)
    return full if kind == 'output fails' and output else (output, b'', 0)
