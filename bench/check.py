#!/usr/bin/env python3
"""A second checker of certificates, written from docs/FORMATS.md and docs/CHECKER.md alone.

Called with a file that holds a certificate or an open file. It prints `holds`, the first fault as its part
and number, or `no certificate`. It counts everything anew at each node, so it is for small trees.
"""
import sys
from itertools import combinations, islice


class Refused(Exception):
    """The bytes aren't a certificate nor an open file."""


class Reader:
    def __init__(self, data):
        self.data, self.at = data, 0

    def take(self, count):
        if self.at + count > len(self.data):
            raise Refused
        self.at += count
        return self.data[self.at - count:self.at]

    def u8(self):
        return self.take(1)[0]

    def u16(self, low=0, high=65535):
        value = int.from_bytes(self.take(2), "big")
        need(low <= value <= high)
        return value

    def text(self):
        length = self.u8()
        need(1 <= length <= 64)
        text = self.take(length)
        letters = b"abcdefghijklmnopqrstuvwxyzABCDEFGHIJKLMNOPQRSTUVWXYZ0123456789._-"
        need(all(byte in letters for byte in text))
        return text

    def texts(self, count):
        texts = [self.text() for _ in range(count)]
        need(len(set(texts)) == count)
        return texts


def need(holds):
    if not holds:
        raise Refused


class Style:
    """Contests as pairs of a limit and a number of targets; for each target its contest."""

    def __init__(self, contests, rules):
        self.contests, self.rules = contests, rules
        self.contest_of = [c for c, (_, n) in enumerate(contests) for _ in range(n)]
        self.targets = len(self.contest_of)

    def targets_of(self, c):
        return [t for t in range(self.targets) if self.contest_of[t] == c]

    def limit(self, c):
        return self.contests[c][0]

    def can_overvote(self, c):
        return self.contests[c][0] < self.contests[c][1]

    def report(self, deck, sources=None):
        totals = [0] * self.targets
        sources = sources or range(self.targets)
        for ballot in deck:
            read = [sources[u] in ballot for u in range(self.targets)]
            for c, (limit, _) in enumerate(self.contests):
                marked = [u for u in self.targets_of(c) if read[u]]
                if len(marked) <= limit:
                    for u in marked:
                        totals[u] += 1
        return totals

    def obeys(self, deck):
        distinct, least, blank, over = self.rules
        totals = self.report(deck)
        if sum(not ballot for ballot in deck) < blank or any(v < least for v in totals):
            return False
        for c in range(len(self.contests)):
            own = self.targets_of(c)
            overvoted = sum(len(ballot & set(own)) > self.limit(c) for ballot in deck)
            if self.can_overvote(c) and overvoted < over:
                return False
            if distinct and len({totals[t] for t in own}) < len(own):
                return False
        return True

    def is_canonical(self, deck):
        rows = [[t in ballot for t in range(self.targets)] for ballot in deck]
        totals = self.report(deck)
        lists = [[totals[t] for t in self.targets_of(c)] for c in range(len(self.contests))]
        return (
            all(rows[j] >= rows[j + 1] for j in range(len(rows) - 1))
            and all(a <= b for own in lists for a, b in zip(own, own[1:]))
            and all(lists[c] <= lists[d] for c, d in combinations(range(len(lists)), 2)
                    if self.contests[c] == self.contests[d])
        )


class Evade:
    """The states of an evade tree: a source or None for each image."""

    def __init__(self, style, deck):
        self.style, self.deck, self.wanted = style, deck, style.report(deck)
        self.sources, self.way = [None] * style.targets, []

    def is_dead(self):
        style, sources = self.style, self.sources
        unused = set(range(style.targets)) - set(sources)
        lost = sum(self.wanted)
        may, must = [0] * style.targets, [0] * style.targets
        for ballot in self.deck:
            free = len(ballot & unused)
            for c in range(len(style.contests)):
                own = style.targets_of(c)
                taken = [u for u in own if sources[u] is not None and sources[u] in ballot]
                room = sum(sources[u] is None for u in own)
                if len(taken) > style.limit(c):
                    lost += len(taken)
                for u in taken:
                    may[u] += len(taken) <= style.limit(c)
                    must[u] += len(taken) + min(room, free) <= style.limit(c)
        given = [u for u in range(style.targets) if sources[u] is not None]
        return lost > sum(map(len, self.deck)) or any(
            may[u] < self.wanted[u] or must[u] > self.wanted[u] for u in given)

    def kids(self, image):
        if image >= self.style.targets or self.sources[image] is not None:
            return None
        kids = []
        for t in range(self.style.targets):
            if t not in self.sources:
                self.sources[image] = t
                if not self.is_dead():
                    kids.append(t)
                self.sources[image] = None
        return kids

    def arity(self, image):
        kids = self.kids(image)
        return None if kids is None else len(kids)

    def enter(self, image, kid):
        self.sources[image] = self.kids(image)[kid]
        self.way.append(image)

    def leave(self):
        self.sources[self.way.pop()] = None

    def closes(self, _reason):
        return self.sources == list(range(self.style.targets))


class Decks:
    """The states of a deck tree: marks are True, False or None where undecided."""

    def __init__(self, style, k):
        self.style, self.k = style, k
        self.marks = [[None] * style.targets for _ in range(k)]
        self.low, self.high, self.way = [0] * style.targets, [k] * style.targets, []

    def count(self, j, c, *marks):
        return sum(self.marks[j][t] in marks for t in self.style.targets_of(c))

    def lo(self, t):
        c = self.style.contest_of[t]
        return max(self.low[t], sum(
            self.marks[j][t] is True and self.count(j, c, True, None) <= self.style.limit(c)
            for j in range(self.k)))

    def hi(self, t):
        c = self.style.contest_of[t]
        return min(self.high[t], sum(
            self.marks[j][t] is not False
            and self.count(j, c, True) - (self.marks[j][t] is True) < self.style.limit(c)
            for j in range(self.k)))

    def arity(self, label):
        kind, a, b = label
        if kind == "mark":
            allowed = a < self.k and b < self.style.targets and self.marks[a][b] is None
        else:
            allowed = a < self.style.targets and self.lo(a) < b <= self.hi(a)
        return 2 if allowed else None

    def enter(self, label, kid):
        kind, a, b = label
        if kind == "mark":
            self.way.append((a, b))
            self.marks[a][b] = kid == 0
        else:
            self.way.append((a, self.low[a], self.high[a]))
            lo, hi = self.lo(a), self.hi(a)
            self.low[a], self.high[a] = (lo, b - 1) if kid == 0 else (b, hi)

    def leave(self):
        step = self.way.pop()
        if len(step) == 2:
            self.marks[step[0]][step[1]] = None
        else:
            self.low[step[0]], self.high[step[0]] = step[1:]

    def voting(self, c):
        _, _, blank, over = self.style.rules
        return max(0, self.k - blank - (over if self.style.can_overvote(c) else 0))

    def least_list(self, c):
        entries, least = [], self.style.rules[1]
        for t in self.style.targets_of(c):
            entries.append(max(least, self.lo(t)))
            least = entries[-1] + 1
        return entries

    def known(self, c):
        pairs = [(self.lo(t), self.hi(t)) for t in self.style.targets_of(c)]
        return [lo for lo, _ in pairs] if all(lo == hi for lo, hi in pairs) else None

    def comparable(self, c, d):
        contests = self.style.contests
        return (c < d < len(contests) and contests[c] == contests[d]
                and self.known(c) is not None and self.known(d) is not None)

    def votes(self, j, c):
        if self.count(j, c, True) > self.style.limit(c):
            return 0
        return min(self.style.limit(c), self.count(j, c, True, None))

    def is_smaller(self, j):
        for mark, other in zip(self.marks[j], self.marks[j + 1]):
            if mark is None or other is None or mark > other:
                return False
            if mark < other:
                return True
        return False

    def pigeon(self, c):
        _, least, _, _ = self.style.rules
        limit, n = self.style.contests[c]
        most = self.voting(c)
        alike = self.style.contests.count((limit, n))
        found = (1 for chosen in combinations(range(least, most + 1), n)
                 if sum(chosen) <= limit * most)
        # No more than that many are counted: there can be far more lists than can be listed.
        return alike > sum(islice(found, alike))

    def evades(self, s):
        style = self.style
        if len(s) != style.targets or s == list(range(style.targets)):
            return False
        deck = [{t for t in range(style.targets) if row[t]} for row in self.marks]
        own, under = style.report(deck), style.report(deck, s)
        for c in range(len(style.contests)):
            targets = style.targets_of(c)
            if any(s[u] != u for u in targets) and (
                    any(row[t] is None for row in self.marks for t in targets)
                    or any(own[u] != under[u] for u in targets)):
                return False
        return True

    def closes(self, reason):
        tag, numbers = reason
        style, k = self.style, self.k
        distinct, least, blank, over = style.rules
        contest = numbers and numbers[0] < len(style.contests)
        c = numbers[0] if numbers else None
        if tag == 1:
            return c + 1 < k and self.is_smaller(c)
        if tag == 2:
            return bool(contest) and any(
                entry > self.hi(t) or entry > self.voting(c)
                for entry, t in zip(self.least_list(c), style.targets_of(c)))
        if tag == 3:
            votes = sorted((self.votes(j, c) for j in range(k)), reverse=True) if contest else []
            return bool(contest) and sum(self.least_list(c)) > sum(votes[:self.voting(c)])
        if tag == 4:
            return sum(True not in row for row in self.marks) < blank
        if tag == 5:
            return bool(contest) and style.can_overvote(c) and sum(
                self.count(j, c, True, None) > style.limit(c) for j in range(k)) < over
        if tag == 6:
            return self.comparable(*numbers) and self.known(c) == self.known(numbers[1])
        if tag == 7:
            return self.comparable(*numbers) and self.known(c) > self.known(numbers[1])
        if tag == 8:
            return bool(contest) and self.pigeon(c)
        if tag == 9:
            return 2 ** k < style.targets
        if tag == 10:
            t, u = numbers
            return t != u and max(t, u) < style.targets and all(
                row[t] is not None and row[t] == row[u] for row in self.marks)
        return self.evades(numbers)


def walk(space, nodes, open_holds):
    """The number of the first node that doesn't hold, or None."""
    stack = []
    for i, (kind, *rest) in enumerate(nodes):
        if kind == "open":
            holds = open_holds
        elif kind == "close":
            holds = space.closes(rest[0])
        else:
            holds = space.arity(rest[0]) == rest[1]
        if not holds:
            return i
        if kind == "fork" and rest[1] > 0:
            stack.append([rest[0], 0, rest[1]])
            space.enter(rest[0], 0)
            continue
        while stack:
            space.leave()
            stack[-1][1] += 1
            if stack[-1][1] < stack[-1][2]:
                space.enter(stack[-1][0], stack[-1][1])
                break
            stack.pop()
    return None


def read_tree(reader, read_label, read_reason):
    nodes, wanted = [], 1
    while wanted:
        tag = reader.u8()
        wanted -= 1
        if tag == 0:
            nodes.append(("open",))
        elif tag == 1:
            nodes.append(("close", read_reason(reader)))
        else:
            need(tag == 2)
            label, kids = read_label(reader), reader.u16()
            nodes.append(("fork", label, kids))
            wanted += kids
    return nodes


def read_label(reader):
    tag = reader.u8()
    need(tag in (1, 2))
    return ("mark" if tag == 1 else "split", reader.u16(), reader.u16())


def read_reason(reader):
    tag = reader.u8()
    need(1 <= tag <= 11)
    if tag == 11:
        sources = [reader.u16() for _ in range(reader.u16(1, 256))]
        need(sorted(sources) == list(range(len(sources))))
        return tag, sources
    counts = {4: 0, 9: 0, 6: 2, 7: 2, 10: 2}
    return tag, [reader.u16() for _ in range(counts.get(tag, 1))]


def read_evade_tree(reader):
    return read_tree(reader, Reader.u16, lambda _: None)


def read_deck_tree(reader):
    return read_tree(reader, read_label, read_reason)


def read_head(reader):
    reader.text()
    contests, names = [], []
    for _ in range(reader.u16(1, 128)):
        names.append(reader.text())
        limit, targets = reader.u16(1, 64), reader.u16(1, 64)
        reader.texts(targets)
        contests.append((limit, targets))
    need(len(set(names)) == len(names) and sum(n for _, n in contests) <= 256)
    distinct = reader.u8()
    need(distinct in (0, 1))
    return Style(contests, (distinct, reader.u16(0, 64), reader.u16(0, 16), reader.u16(0, 16)))


def read_rows(reader, style, k):
    width, deck = (style.targets + 7) // 8, []
    for _ in range(k):
        row = reader.take(width)
        marks = {t for t in range(8 * width) if row[t // 8] >> (7 - t % 8) & 1}
        need(all(t < style.targets for t in marks))
        deck.append(marks)
    return deck


def read_proved(reader, style, k):
    return read_rows(reader, style, k), read_evade_tree(reader)


def read_best(reader, style):
    tag = reader.u8()
    need(tag in (0, 1))
    return read_proved(reader, style, reader.u16(0, 1024)) if tag else None


def read_lower(reader, style, k):
    count = reader.u16()
    chosen = [reader.u16(0, len(style.contests) - 1) for _ in range(count)]
    need(count >= 1 and all(a < b for a, b in zip(chosen, chosen[1:])))
    part = Style([style.contests[c] for c in chosen], style.rules)
    return part, k, read_deck_tree(reader)


def parts_fault(style, proved, lower):
    if proved:
        deck, tree = proved
        if not style.obeys(deck):
            return "rules", 0
        node = walk(Evade(style, deck), tree, False)
        if node is not None:
            return "robust", node
    if lower:
        part, k, tree = lower
        node = walk(Decks(part, k), tree, False)
        if node is not None:
            return "lower", node
    return None


def certificate_fault(reader):
    style, tag = read_head(reader), reader.u8()
    need(1 <= tag <= 3)
    number = reader.u16(1 if tag == 2 else 0, 1024)
    proved = None
    if tag == 1:
        proved = read_proved(reader, style, number)
    elif tag == 3:
        proved = read_best(reader, style)
    size = number if tag == 2 else number - 1
    lower = read_lower(reader, style, size) if size >= 0 else None
    need(reader.at == len(reader.data))
    return parts_fault(style, proved, lower)


def open_fault(reader):
    style = read_head(reader)
    most = reader.u16(1, 1024)
    start = reader.u16(0, most)
    best = read_best(reader, style)
    lower = read_lower(reader, style, start - 1) if start > 0 else None
    tag = reader.u8()
    need(tag in (1, 2))
    if tag == 1:
        deck, tree = None, read_deck_tree(reader)
    else:
        deck, tree = read_proved(reader, style, start)
    need(reader.at == len(reader.data))
    fault = parts_fault(style, best, lower)
    if fault:
        return fault
    if deck is None:
        node = walk(Decks(style, start), tree, True)
    elif not style.is_canonical(deck) or not style.obeys(deck):
        node = 0
    else:
        node = walk(Evade(style, deck), tree, True)
    return None if node is None else ("license", node)


def answer(data):
    try:
        reader = Reader(data)
        magic = reader.take(8)
        need(magic in (b"LATCERT1", b"LATOPEN1"))
        fault = certificate_fault(reader) if magic == b"LATCERT1" else open_fault(reader)
    except Refused:
        return "no certificate"
    return "%s %d" % fault if fault else "holds"


if __name__ == "__main__":
    with open(sys.argv[1], "rb") as file:
        print(answer(file.read()))
