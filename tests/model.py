#!/usr/bin/env python3
"""Document 01, with requests A1 and A2, as a plain program, written from the papers alone: it gives the expected output of crates/cases.

    tests/model.py < crates/cases/stdin      prints what crates/cases/stdout holds

A line of input is one of
    # text                       printed as it is
    h n=4 m=3 l=4 cap=3 free=0 zct=0 mrt=0
                                 the head; a number not given is 0
    r kinds=8 values=8 variables=3 zct=4 mrt=4 counts=4 log=8 work=4
                                 the rows by their lengths, 0 where none is given; all elements 0
    s ROW PLACE VALUE            one element of a row, by the row's name
    c WORDS..                    the calls row; a line 'c' alone empties it, 'c+' adds to it
    a LENGTH                     an answers row of that length, every word -7
    F  A  B                      fresh (from the head's sizes), audit, batch
A line that names what is not there, or a place past its row's end, is printed after '? ' and does nothing.
"""
import sys

SIZES = ["n", "m", "l", "cap"]
HEAD = SIZES + ["free", "zct", "mrt"]
ROWS = ["kinds", "values", "variables", "zct", "mrt", "counts", "log", "work"]
N, M, L, CAP, FREE, ZCT, MRT = range(7)


def limits(h):
    n, m, l, cap, free, zct, mrt = h
    return (1 <= n <= 1024 and 1 <= m <= 64 and 2 <= l <= 1024 and 3 <= cap <= 255
            and free <= n and zct <= n and mrt <= n)


def sized(h, rows):
    n, m, l = h[N], h[M], h[L]
    return limits(h) and [len(r) for r in rows] == [2 * n, 2 * n, m, n, n, n, 2 * l, n]


def sound(h, rows):
    n, m, l, cap, free, nz, nm = h
    kinds, values, variables, zct, mrt, counts, log, _ = rows
    is_free = lambda a: kinds[2 * a] == 3
    used = lambda a: 0 <= a < n and not is_free(a)
    for a in range(n):
        for f in (0, 1):
            k, v = kinds[2 * a + f], values[2 * a + f]
            if k == 0 and v != 0 or k > 3 or k == 2 and not used(v):
                return False
            if k == 3 and (f == 1 or not 0 <= v <= n or kinds[2 * a + 1] != 0):
                return False
    if any(v != -1 and not used(v) for v in variables):
        return False
    for row, end in ((zct, nz), (mrt, nm)):
        part = row[:end]
        if any(x >= y for x, y in zip(part, part[1:])) or any(not used(a) for a in part) or any(row[end:]):
            return False
    if any(counts[nm:]) or any(log):
        return False
    met, a = [], free
    while a != n:
        if not 0 <= a < n or not is_free(a) or a in met:
            return False
        met.append(a)
        a = values[2 * a]
    if sorted(met) != [a for a in range(n) if is_free(a)]:
        return False
    pointers = [sum(1 for i in range(2 * n) if kinds[i] == 2 and values[i] == a) for a in range(n)]
    zs, ms = zct[:nz], mrt[:nm]
    if set(zs) & set(ms):
        return False
    for a in range(n):
        if used(a) and a not in zs and a not in ms and pointers[a] != 1:
            return False
    if any(pointers[a] != 0 or a not in variables for a in zs):
        return False
    return all(2 <= c <= cap and (c == cap or c == pointers[a]) for a, c in zip(ms, counts))


# operation: how its words are used, by letters v variable, f field, x figure
SHAPES = {1: "v", 2: "vv", 3: "v", 4: "vfv", 5: "vfx", 6: "vf", 7: "vfv", 8: "vf", 9: "vv", 10: ""}


def calls_right(words, m):
    if len(words) % 4 or len(words) > 1024:
        return False
    for i in range(0, len(words), 4):
        op, args = words[i], words[i + 1:i + 4]
        if op not in SHAPES:
            return False
        for kind, w in zip(SHAPES[op].ljust(3, "0"), args):
            if kind == "v" and not 0 <= w < m or kind == "f" and w not in (0, 1) or kind == "0" and w != 0:
                return False
    return True


class Heap:
    def __init__(self, h, rows):
        self.n, self.m, self.l, self.cap, self.free = h[N], h[M], h[L], h[CAP], h[FREE]
        self.kinds, self.values, self.variables = list(rows[0]), list(rows[1]), list(rows[2])
        self.zct = set(rows[3][:h[ZCT]])
        self.mrt = dict(zip(rows[4][:h[MRT]], rows[5][:h[MRT]]))
        self.log, self.freed = [], 0

    def apply(self, kind, a):
        if kind == 1:
            self.zct.add(a)
        elif kind == 2:
            if a in self.zct:
                self.zct.remove(a)
            elif a in self.mrt:
                self.mrt[a] += self.mrt[a] != self.cap
            else:
                self.mrt[a] = 2
        elif a in self.mrt:
            if self.mrt[a] == 2:
                del self.mrt[a]
            elif self.mrt[a] != self.cap:
                self.mrt[a] -= 1
        else:
            self.zct.add(a)

    def settle(self, let_go=None):
        """A settle; the hold of the variable let_go is not counted."""
        before, held = self.freed, [a for v, a in enumerate(self.variables) if v != let_go]
        for kind, a in self.log:
            self.apply(kind, a)
        self.log = []
        while True:
            loose = [a for a in self.zct if a not in held]
            if not loose:
                return self.freed - before
            a = min(loose)
            self.zct.remove(a)
            for i in (2 * a, 2 * a + 1):
                if self.kinds[i] == 2:
                    self.apply(3, self.values[i])
            self.kinds[2 * a], self.values[2 * a] = 3, self.free
            self.kinds[2 * a + 1], self.values[2 * a + 1] = 0, 0
            self.free = a
            self.freed += 1

    def call(self, op, a, b, c):
        var = self.variables
        if op in (4, 5, 6, 7, 8) and var[a] == -1 or op == 4 and var[c] == -1 or op == 9 and -1 in (var[a], var[b]):
            return 11, 0
        i = 2 * var[a] + b if op in (4, 5, 6, 7, 8) else 0
        if op == 7 and self.kinds[i] != 2:
            return 12, 0
        if op == 8 and self.kinds[i] != 1:
            return 15 if self.kinds[i] == 0 else 13, 0
        need = 1 if op == 1 else (op == 4) + (op in (4, 5, 6) and self.kinds[i] == 2)
        if len(self.log) + need > self.l or op == 1 and self.free == self.n:
            self.settle(a if op == 1 else None)
        if op == 1:
            if self.free == self.n:
                return 14, 0
            cell = self.free
            self.free = self.values[2 * cell]
            self.kinds[2 * cell], self.values[2 * cell] = 0, 0
            var[a] = cell
            self.log.append((1, cell))
        elif op == 2:
            var[a] = var[b]
        elif op == 3:
            var[a] = -1
        elif op in (4, 5, 6):
            if self.kinds[i] == 2:
                self.log.append((3, self.values[i]))
            if op == 4:
                self.log.append((2, var[c]))
            self.kinds[i], self.values[i] = (2, var[c]) if op == 4 else (1, c) if op == 5 else (0, 0)
        elif op == 7:
            var[c] = self.values[i]
        elif op == 8:
            return 0, self.values[i]
        elif op == 9:
            return 0, int(var[a] == var[b])
        elif op == 10:
            return 0, self.settle()
        return 0, 0

    def written(self):
        pad = lambda z: z + [0] * (self.n - len(z))
        ms = sorted(self.mrt)
        rows = [self.kinds, self.values, self.variables, pad(sorted(self.zct)), pad(ms), pad([self.mrt[a] for a in ms]),
                [0] * (2 * self.l), [0] * self.n]
        return [self.n, self.m, self.l, self.cap, self.free, len(self.zct), len(self.mrt)], rows


def fresh(h, rows):
    head = h[:4] + [0, 0, 0]
    if not sized(head, rows):
        return 1, [0] * 7, 0, rows
    n, m, l = head[:3]
    values = [a // 2 + 1 if a % 2 == 0 else 0 for a in range(2 * n)]
    return 0, head, 0, [[3, 0] * n, values, [-1] * m, [0] * n, [0] * n, [0] * n, [0] * (2 * l), [0] * n]


def audit(h, rows):
    if not sized(h, rows):
        return 1, h, 0, rows
    return 0 if sound(h, rows) else 4, h, 0, rows[:7] + [[0] * h[N]]


def batch(h, rows, words, answers):
    if not sized(h, rows):
        return 1, h, 0, rows, answers
    if not calls_right(words, h[M]):
        return 2, h, 0, rows, answers
    if len(answers) < len(words) // 2:
        return 3, h, 0, rows, answers
    if not sound(h, rows):
        return 4, h, 0, rows[:7] + [[0] * h[N]], answers
    heap, said = Heap(h, rows), []
    for i in range(0, len(words), 4):
        said += heap.call(*words[i:i + 4])
    heap.settle()
    head, rows = heap.written()
    return 0, head, heap.freed, rows, said + answers[len(said):]


def show(status, head, count, rows, answers=None):
    print("status", status, "count", count, "head", *[f"{name}={number}" for name, number in zip(HEAD, head)])
    for name, row in zip(ROWS, rows):
        print(name, *row)
    if answers is not None:
        print("answers", *answers)


class Unknown(Exception):
    """A line names what is not there."""


def given(names, pairs):
    """The numbers of `name=number` in the order of the names, 0 for one not given."""
    numbers = dict.fromkeys(names, 0)
    for pair in pairs:
        name, equals, number = pair.partition("=")
        if name not in numbers or not equals:
            raise Unknown
        numbers[name] = int(number)
    return list(numbers.values())


class Cases:
    def __init__(self):
        self.head, self.rows, self.calls, self.answers = given(HEAD, []), [[] for _ in ROWS], [], []

    def line(self, what, *rest):
        if what == "h":
            self.head = given(HEAD, rest)
        elif what == "r":
            self.rows = [[0] * length for length in given(ROWS, rest)]
        elif what == "s":
            self.set(*rest)
        elif what == "c":
            self.calls = [int(word) for word in rest]
        elif what == "c+":
            self.calls = self.calls + [int(word) for word in rest]
        elif what == "a":
            self.answers = [-7] * int(rest[0])
        elif what == "F":
            status, self.head, count, self.rows = fresh(self.head, self.rows)
            show(status, self.head, count, self.rows)
        elif what == "A":
            status, self.head, count, self.rows = audit(self.head, self.rows)
            show(status, self.head, count, self.rows)
        elif what == "B":
            status, self.head, count, self.rows, self.answers = batch(self.head, self.rows, self.calls, self.answers)
            show(status, self.head, count, self.rows, self.answers)
        else:
            raise Unknown

    def set(self, name, place, value):
        if name not in ROWS or int(place) >= len(self.rows[ROWS.index(name)]):
            raise Unknown
        self.rows[ROWS.index(name)][int(place)] = int(value)


def main():
    cases = Cases()
    for line in sys.stdin.read().split("\n"):
        if line.startswith("#"):
            print(line)
        elif line:
            try:
                cases.line(*line.split(" "))
            except Unknown:
                print("?", line)


main()
