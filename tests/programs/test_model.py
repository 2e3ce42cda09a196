"""Draws sessions of the program `bloom`, odd lines and arguments among them, and compares output,
standard error and status with the model. One that differs is made small, and told with a line that
draws it again.

FASTBLOOM_SESSIONS says how many are drawn, 500 by default, and --hypothesis-seed other ones.
"""

import os

from hypothesis import HealthCheck, given, settings
from hypothesis import strategies as draw

import model
import runs
import transcripts
from model import MOST_HASHES, MOST_WORDS, WORD

# Digits of other scripts, signs, spaces, other notations, and numbers past a limit.
ODD_NUMBERS = rb"""
|+1|-1|-0| 1|1 |\t1|1\r|1.0|1e3|1_000|1,000|0x10|ff|:|/1|1;|\xd9\xa1|\xef\xbc\x91|\xc2\xb2
|\xe0\xa5\xa7|1\xd9\xa0|\xef\xbb\xbf1|\xe2\x88\x921|18446744073709551616|18446744073709551617|1\0
|\x001|\0|36893488147419103232|99999999999999999999|100000000000000000000|000000000000000000000
|000000000000000000001|018446744073709551615|\xff|1\xff|\xb1|\x81"""
ODD_LINES = rb"""
| |i|c|I 1|C 1|Z|W|x|x 1|zz|z | z|z 1|w | w|w 0|ww|i1|i  1| i 1|i 1 |i\t1|i 1 2|i 1c 1|i=1|i\x001
|i\x0b1|i\xa01|i\xc2\xa01|\xef\xbb\xbfi 1|z\r|w\r|\r|\0|\xff|z\0|w\xff|i 1\x0c|i 1\xc2\x85|#|q
|i 1\xe2\x80\xa8c 1|insert 1|i 1\\n|"i 1"|\xd1\x96 1"""
ODD_ARGUMENTS = rb"0|1048577|4294967295|4294967296|-h|--help|-V|--version|--|-v|one"


def read(texts):
    """Draws one of the texts of a table, in which they have escapes."""
    text = texts.replace(b'\n', b'').decode('unicode_escape').encode('latin-1')
    return draw.sampled_from(text.split(b'|'))


def ranges(*ends):
    return draw.one_of(*(draw.integers(*it) for it in ends))


def digits(values):
    """Numbers, one in some with zeros before it."""
    width = draw.sampled_from([0] * 9 + [19, 20])
    return draw.builds(lambda value, width: (b'%d' % value).rjust(width, b'0'), values, width)


WORDS = ranges((1, 4), (1, 40), (41, 5000), (MOST_WORDS - 1, MOST_WORDS))
HASHES = ranges((0, 3), (0, 12), (13, 130), (999, 999), (MOST_HASHES - 1, MOST_HASHES))
LETTERS = draw.sampled_from([b'i ', b'c '])


def sources(words):
    """Hashes: any, small ones, those at an edge, and at the first of a position."""
    places = draw.integers(0, 64 * words - 1).map(lambda it: -(-it * WORD // (64 * words)))
    edges = draw.sampled_from([0, 2**32, 2**63]) | places
    below = draw.builds(lambda it, less: (it - less) % WORD, edges, draw.integers(0, 2))
    return ranges((0, WORD - 1), (0, 19)) | below


def odd_lines(lines):
    """Lines that may be wrong, among them good ones with a byte changed, put in or left out."""
    near = draw.builds(
        lambda it, at, byte, more: it[:at] + byte + it[at + more :],
        lines,
        draw.integers(0, 24),
        draw.binary(max_size=1) | draw.sampled_from([b'0', b'\t', b'\r', b' ', b'+', b'-']),
        draw.integers(0, 1),
    )
    bytes_of_it = draw.sampled_from([b'0', b' ', b'7', b'\xff'])
    many = draw.builds(bytes.__mul__, bytes_of_it, draw.integers(19, 70000))
    pairs = draw.builds(bytes.__add__, LETTERS, read(ODD_NUMBERS) | many)
    return near | pairs | read(ODD_LINES) | draw.binary() | many


@draw.composite
def sessions(pick):
    """A kind, arguments and input."""
    kind = pick(draw.sampled_from(['plain'] * 30 + ['input fails', 'output fails']))
    words, hashes = pick(WORDS), pick(HASHES)
    arguments = [pick(digits(draw.just(it))) for it in (words, hashes)]
    used = pick(draw.lists(sources(words), min_size=1, max_size=9))
    numbers = digits(draw.sampled_from(used) | sources(words))
    line = whole = draw.sampled_from([b'z', b'w'] if words < 5000 else [b'z'])
    if hashes <= 5000:
        pairs = draw.builds(bytes.__add__, LETTERS, numbers)
        line = draw.integers(0, 14).flatmap(lambda it: pairs if it else whole)
    lines = pick(draw.lists(line, max_size=60))
    if hashes <= 12 and pick(draw.integers(0, 40)) == 1:
        lines *= 100
    lines += [b'w'] if words <= 5000 else []
    if lines and kind != 'output fails' and hashes <= 5000 and pick(draw.booleans()):
        for odd in pick(draw.lists(odd_lines(line), min_size=1, max_size=3)):
            lines[pick(draw.integers(0, len(lines) - 1))] = odd
    text = b''.join(line + b'\n' for line in lines)
    if kind != 'output fails' and pick(draw.integers(0, 4)) == 1:
        text = text[: -pick(draw.integers(1, 9))]
    if pick(draw.integers(0, 11)) == 1:
        at, odd = pick(draw.integers(0, 2)), read(ODD_ARGUMENTS) | read(ODD_NUMBERS)
        odd = odd.filter(lambda it: b'\0' not in it)
        arguments[at : at + pick(draw.integers(0, 1))] = pick(draw.lists(odd, max_size=2))
        text = b'z\n' if (model.shape(arguments) or (0, 0))[1] > 5000 else text
    return kind, arguments, text


@settings(
    max_examples=int(os.environ.get('FASTBLOOM_SESSIONS', 500)),
    deadline=None,
    database=None,
    print_blob=True,
    suppress_health_check=list(HealthCheck),
)
@given(sessions())
def test_model(path_of, session):
    kind, arguments, text = session
    run = transcripts.Run(0, arguments)
    run.script = [('<', text)]
    run.streams = {'input fails': {'<': '/'}, 'output fails': {'>': '/dev/full'}}.get(kind, {})
    status, texts, _ = runs.outcome(path_of('bloom'), run, {}, 60)
    wanted = model.run(kind, arguments, text)
    output = texts['>']
    if len(arguments) == 1 and arguments[0] in model.OPTIONS and wanted[0] in output:
        output = wanted[0]
    assert (output, texts['!'], status) == wanted
