"""Cuts a style and its deck down: cut.py DEF STYLE DECK TARGETS BALLOTS NAME writes NAME.json and
NAME.deck.csv, with the first contests of the style that have so many targets in all, their marks, and blank
ballots behind them until there are so many. A robust deck stays robust."""
import csv
import json
import sys

definition, style, deck, targets, ballots, name = sys.argv[1:7]
found = json.load(open(definition))
by_id = {contest["id"]: contest for contest in found["contests"]}
chosen = next(one for one in found["styles"] if one["id"] == style)["contests"]
kept = []
while sum(len(by_id[contest]["targets"]) for contest in kept) < int(targets):
    kept.append(chosen[len(kept)])
assert sum(len(by_id[contest]["targets"]) for contest in kept) == int(targets)
found["styles"] = [{"id": style, "contests": kept}]
found["contests"] = [by_id[contest] for contest in kept]
json.dump(found, open(name + ".json", "w"))

rows = list(csv.reader(open(deck)))[1:]
marks = [[] for _ in range(int(rows[-1][0]))]
for ballot, contest, target in rows:
    if contest in kept:
        marks[int(ballot) - 1].append((contest, target))
with open(name + ".deck.csv", "w") as out:
    out.write("ballot,contest,target\n")
    for j in range(int(ballots)):
        for contest, target in (marks[j] if j < len(marks) else []) or [("", "")]:
            out.write(f"{j + 1},{contest},{target}\n")
