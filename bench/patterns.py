#!/usr/bin/env python3
"""Writes the decks of all patterns for a style, by the rules of docs/FORMATS.md, as a table.

Called with the rules and the contests, as `patterns.py 1 1 1 1:2 1:2` for least 1, blank 1, over 1 and
two contests of one vote and two targets each. A line has the number of ballots k, from 0 to 40, and a
word for each of the 32 patterns: `-` where it doesn't fit, `.` for the deck of no ballot, and else a
hexadecimal digit for each ballot, in which the mark at target t has the worth 2^t. So a style may have
at most four targets.
"""
import sys


def counts(mode, least, earlier, first, limit, targets, working):
    """How often each target of a contest is marked, or None where the pattern doesn't fit."""
    base = least + (first if mode == 3 else earlier)
    marks = [base + i for i in range(targets)]
    if marks[-1] > working or sum(marks) > limit * working:
        return None
    spare = limit * working - sum(marks)
    for i in range(targets - 1, -1, -1):
        if mode == 0 or (mode == 2 and i == targets - 1):
            more = min(spare, working - (targets - 1 - i) - marks[i])
            marks[i] += more
            spare -= more
    return marks


def pattern(least, blank, over, contests, k, turn):
    """The deck of a pattern as a list of sets of targets, or None where it doesn't fit."""
    mode, step = turn // 8, turn % 8
    working = k - over - blank
    if working < 0:
        return None
    first, ballots = 0, [set() for _ in range(working)]
    for c, (limit, targets) in enumerate(contests):
        earlier = contests[:c].count((limit, targets))
        marks = counts(mode, least, earlier, first, limit, targets, working)
        if marks is None:
            return None
        place = (step + 1) * c
        for i, n in enumerate(marks):
            for q in range(place, place + n):
                ballots[q % working].add(first + i)
            place += n
        first += targets
    whole = set(range(first))
    return [whole] * over + ballots + [set()] * blank


def word(deck):
    if deck is None:
        return "-"
    return "".join("%x" % sum(1 << t for t in ballot) for ballot in deck) or "."


def main():
    least, blank, over = map(int, sys.argv[1:4])
    contests = [tuple(map(int, c.split(":"))) for c in sys.argv[4:]]
    for k in range(41):
        decks = (pattern(least, blank, over, contests, k, turn) for turn in range(32))
        print(k, *(word(deck) for deck in decks))


main()
