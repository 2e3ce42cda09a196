#!/usr/bin/env python3
"""Prints what rotating filters answer, by a model written from their description alone.

usage: tests/rotating.py > tests/rotating.txt

Each of 200 streams draws a number of items, a rate, a key and an alphabet, and then items, each of
which is a letter. A row of the table has the four that the filter is made with, the stream, a plus
for each item that was contained before its insert and a minus for each other one, how many the
newer filter took, and a digest of the words of the older filter and of the newer. The model has
none of the library's code: its filters are those of tests/programs/model.py, and its hash is that
of dev/blocked-model. It stops where an item isn't contained behind which too few came.
"""
import math
import os
import runpy

TOP = os.path.dirname(os.path.dirname(os.path.realpath(__file__)))
SET_OF_POSITIONS = runpy.run_path(f'{TOP}/tests/programs/model.py')['Filter']
SIP, DRAWN = map(runpy.run_path(f'{TOP}/dev/blocked-model').get, ('sip', 'drawn'))
LENGTH = 64
LETTERS = 'abcdefghijklmnopqrstuvwxyzABCDEFGHIJKLMNOPQRSTUVWXYZ0123456789'
RATES = [(1, 2), (2, 3), (9, 10), (1, 10), (3, 100), (1, 1000), (1, 10**6), (5, 2**63 - 1)]
LN_TWO = 6243314768165359  # 2^53 times the natural logarithm of 2, as the nearest double has it


def shape(items, num, den):
    """Words and hashes for this many items at the rate num / den, by the rules of sizes."""
    parts = 0  # the least number of sixty-fourth parts of a halving that reach the rate
    while True:
        root = 2 ** (2048 + parts % 64)
        for _ in range(6):
            root = math.isqrt(root)
        if den * 2**32 <= num * 2 ** (parts // 64) * root:
            break
        parts += 1
    size = max(64, 8 * -(-items * parts * 2**44 // LN_TWO))
    words = -(-size // 64)
    return words, max(1, (2 * 64 * words * LN_TWO + items * 2**53) // (items * 2**54))


def digest(filters):
    fold = 1469598103934665603
    for filter in filters:
        for word in filter.values():
            fold = (fold ^ word) * 1099511628211 % 2**64
    return fold


def check_promise(stream, at, items):
    """Wants at least so many different items since this one came last, which isn't contained."""
    last = stream.rfind(stream[at], 0, at)
    assert last < 0 or len(set(stream[last + 1 : at])) >= items, (stream, at, items)


def row(number):
    items = DRAWN(number, 0) % 25
    num, den = RATES[DRAWN(number, 1) % len(RATES)]
    key = DRAWN(number, 2) % 256 * (number % 4 > 0)
    room = max(1, items)
    letters = 2 + DRAWN(number, 3) % (2 * room + 6)
    stream = ''.join(LETTERS[DRAWN(number, 4 + at) % letters] for at in range(LENGTH))
    form = shape(room, num, 2 * den)
    older, newer, taken, replies = SET_OF_POSITIONS(*form), SET_OF_POSITIONS(*form), 0, ''
    for at, letter in enumerate(stream):
        source = SIP(2 * [key * (2**64 // 255)], letter.encode())
        seen = newer.contains(source) or older.contains(source)
        if not seen:
            check_promise(stream, at, room)
        replies += '+' if seen else '-'
        taken += not newer.insert(source)
        if taken == room:
            older, newer, taken = newer, SET_OF_POSITIONS(*form), 0
    made = f'{items} {num}/{den} {key}'
    return f'{made} {stream} {replies} {taken} {digest([older, newer]):016x}\n'


if __name__ == '__main__':
    print(''.join(map(row, range(200))), end='')
