"""Writes a style and a deck as numbers, as plain-attack reads them: numbers.py DEF STYLE DECK."""
import csv
import json
import sys

definition, style, deck = sys.argv[1:4]
found = json.load(open(definition))
by_id = {contest["id"]: contest for contest in found["contests"]}
styles = {one["id"]: one for one in found["styles"]}
contests = [by_id[name] for name in styles[style]["contests"]]
index = {}
for contest in contests:
    for target in contest["targets"]:
        index[contest["id"], target] = len(index)
rows = list(csv.reader(open(deck)))[1:]
ballots = [[0] * len(index) for _ in range(int(rows[-1][0]) if rows else 0)]
for ballot, contest, target in rows:
    if contest:
        ballots[int(ballot) - 1][index[contest, target]] = 1
print(len(contests))
for contest in contests:
    print(contest["limit"], len(contest["targets"]))
print(len(ballots))
for ballot in ballots:
    print("".join(str(mark) for mark in ballot))
