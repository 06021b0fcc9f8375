#!/usr/bin/env python3
"""Makes a table of a hundred small styles, and the least number of ballots of each by trying everything.

Writes crates/small_plans/stdin, a style a line, and crates/small_plans/stdout, what the program of that
crate must print: the line, and twice the least number of ballots, or `none`. A style has at most four
targets, and at most sixteen marks at its greatest number of ballots. Decks are tried as sets of ballots with
repeats, each under all permutations of the targets, straight from the definitions in docs/DEFINITIONS.md.
"""
import itertools
import pathlib
import random

SHAPES = [
    [(1, 1)], [(1, 2)], [(2, 2)], [(1, 3)], [(2, 3)], [(3, 3)], [(1, 4)], [(2, 4)], [(3, 4)],
    [(1, 1), (1, 1)], [(1, 1), (2, 1)], [(1, 1), (1, 2)], [(1, 2), (1, 1)], [(2, 2), (1, 1)],
    [(1, 2), (1, 2)], [(1, 2), (2, 2)], [(1, 1), (1, 3)], [(2, 3), (1, 1)],
    [(1, 1), (1, 1), (1, 1)], [(1, 1), (2, 1), (3, 1)], [(1, 1), (1, 1), (1, 2)], [(1, 1), (1, 2), (2, 1)],
    [(1, 1), (1, 1), (1, 1), (1, 1)], [(1, 1), (2, 1), (3, 1), (4, 1)],
]


def totals(contests, deck, sources):
    """The votes for each target, the marks being read from the sources."""
    votes = []
    for limit, targets in contests:
        read = [[ballot[sources[t]] for t in targets] for ballot in deck]
        kept = [marks for marks in read if sum(marks) <= limit]
        votes += [sum(marks[i] for marks in kept) for i in range(len(targets))]
    return votes


def is_good(contests, rules, deck, misassignments):
    distinct, least, blank, over = rules
    own = totals(contests, deck, misassignments[0])
    if sum(not any(ballot) for ballot in deck) < blank or any(votes < least for votes in own):
        return False
    for limit, targets in contests:
        if len(targets) > limit and sum(sum(b[t] for t in targets) > limit for b in deck) < over:
            return False
        if distinct and len({own[t] for t in targets}) < len(targets):
            return False
    return all(totals(contests, deck, s) != own for s in misassignments[1:])


def least_size(shape, rules, most):
    """The least number of ballots of a good deck, or None where there is none of at most so many."""
    contests, first = [], 0
    for limit, count in shape:
        contests.append((limit, list(range(first, first + count))))
        first += count
    misassignments = list(itertools.permutations(range(first)))
    ballots = list(itertools.product((0, 1), repeat=first))
    for k in range(most + 1):
        for deck in itertools.combinations_with_replacement(ballots, k):
            if is_good(contests, rules, deck, misassignments):
                return k
    return None


def main():
    draw = random.Random(1)
    here = pathlib.Path(__file__).resolve().parent.parent / "crates" / "small_plans"
    lines, answers = [], []
    while len(lines) < 100:
        shape = draw.choice(SHAPES)
        targets = sum(count for _, count in shape)
        rules = (draw.random() < 0.5, draw.choice((0, 0, 1, 2)), draw.choice((0, 0, 1)), draw.choice((0, 0, 1)))
        most = draw.randint(1, 16 // targets)
        line = " ".join([str(rules[0]).lower(), *map(str, rules[1:]), str(most)] + [f"{l}:{n}" for l, n in shape])
        if line in lines:
            continue
        k = least_size(shape, rules, most)
        answer = "none" if k is None else f"least {k}"
        lines.append(line)
        answers.append(f"{line}: {answer}, tried {answer}")
    (here / "stdin").write_text("\n".join(lines) + "\n")
    (here / "stdout").write_text("\n".join(answers) + "\n")


if __name__ == "__main__":
    main()
