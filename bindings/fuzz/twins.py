"""Random calls of the module pam, each also done to a SortedDict, a list or a set, and compared: twins.py SEED SECONDS"""
import copy
import pathlib
import pickle
import random
import sys
import time
from array import array

sys.path.insert(0, str(pathlib.Path(__file__).resolve().parents[1] / "python"))

from sortedcontainers import SortedDict  # noqa: E402

import pam  # noqa: E402

TOP = 2**64 - 1
HOW = {"first": lambda a, b: a, "second": lambda a, b: b, "sum": lambda a, b: min(a + b, TOP), "max": max}


def key(r):
    return r.choice([r.randrange(300), r.randrange(300), r.randrange(300) << 40, 0, TOP, TOP - r.randrange(3), r.getrandbits(64)])


def answer(call):
    """What a call answers, or the kind of what it raises."""
    try:
        return call()
    except (KeyError, IndexError, ValueError, OverflowError, TypeError) as fault:
        return type(fault)


class Maps:
    """Maps of a kind, whose keys begin at a number: those of a Map less 2**63 in a SignedMap."""

    def __init__(self, r, kind=pam.Map, code="Q", first=0):
        self.r, self.kind, self.code, self.first = r, kind, code, first
        self.pairs = [(kind(), SortedDict()) for _ in range(3)]

    def key(self):
        return key(self.r) + self.first

    def any_key(self):
        """A key, or a number beyond all keys, or no bound."""
        return self.r.choice([self.key(), self.key(), self.key(), self.first - 1, self.first + 2**64, None])

    def inside(self, twin, lo, hi):
        return [k for k in twin if (lo is None or lo <= k) and (hi is None or k < hi)]

    def single(self, m, twin):
        r, k, v = self.r, self.key(), key(self.r)
        name, words = r.choice([("__setitem__", (k, v)), ("__setitem__", (k, v)), ("__delitem__", (k,)), ("__getitem__", (k,)), ("get", (k, 5)),
                                ("pop", (k, None)), ("setdefault", (k, v)), ("__contains__", (k,)), ("peekitem", (r.randrange(-5, 5),)),
                                ("popitem", (r.randrange(-5, 5),)), ("bisect_left", (k,)), ("bisect_right", (k,))])
        mine, theirs = answer(lambda: getattr(m, name)(*words)), answer(lambda: getattr(twin, name)(*words))
        # An empty map and a place: SortedDict says KeyError, and IndexError of others.
        assert mine == theirs or {mine, theirs} == {KeyError, IndexError}, (name, words, mine, theirs)

    def ranges(self, m, twin):
        r, lo, hi = self.r, self.any_key(), self.any_key()
        keys = self.inside(twin, lo, hi)
        vals = [twin[k] for k in keys]
        part = m[lo:hi]
        assert dict(part) == dict(zip(keys, vals)) and list(part) == keys
        assert part.sum() == m.sum(lo, hi) == min(sum(vals), TOP)
        assert m.max(lo, hi, default=None) == part.max(default=None) == max(vals, default=None)
        assert m.min(lo, hi, default=None) == part.min(default=None) == min(vals, default=None)
        assert m.count(lo, hi) == part.count() == len(keys)
        assert m.mean(lo, hi, default=None) == part.mean(default=None) == (min(sum(vals), TOP) / len(vals) if vals else None)
        assert m.items_arrays(lo, hi) == (array(self.code, keys), array("Q", vals)) and m.keys_array(lo, hi) == array(self.code, keys)
        ends, back = (r.random() < 0.5, r.random() < 0.5), r.random() < 0.5
        assert list(m.irange(lo, hi, ends, back)) == list(twin.irange(lo, hi, ends, back))
        if r.random() < 0.3:
            del m[lo:hi]
            for k in keys:
                del twin[k]

    def many(self, m, twin):
        r = self.r
        keys = [self.key() for _ in range(r.randrange(150))]
        vals = [key(r) for _ in keys]
        form = r.choice([lambda code, ns: ns, array, lambda code, ns: memoryview(array(code, ns)), lambda code, ns: iter(ns)])
        what = r.randrange(4)
        if what == 0:
            m.put_many(form(self.code, keys), form("Q", vals))
            twin.update(zip(keys, vals))
        elif what == 1:
            m.del_many(form(self.code, keys))
            for k in keys:
                twin.pop(k, None)
        elif what == 2:
            found, present = m.get_many(form(self.code, keys))
            assert list(found) == [twin.get(k, 0) for k in keys] and list(present) == [k in twin for k in keys]
        else:
            m.update(r.choice([dict, list, self.kind])(zip(keys, vals)))
            twin.update(zip(keys, vals))

    def joined(self, i):
        r, (a, x), (b, y) = self.r, *self.r.choices(self.pairs, k=2)
        how = r.choice(list(HOW))
        made = r.choice([
            lambda: (a.union(b, how), {k: HOW[how](x[k], y[k]) if k in x and k in y else x.get(k, y.get(k)) for k in [*x, *y]}),
            lambda: (a.intersection(b, how), {k: HOW[how](x[k], y[k]) for k in x if k in y}),
            lambda: (a - b, {k: x[k] for k in x if k not in y}),
            lambda: (a | b, {**x, **y}),
            lambda: (a & b, {k: x[k] for k in x if k in y}),
            lambda: (copy.copy(a), x),
            lambda: (pickle.loads(pickle.dumps(a)), x),
            lambda: (self.kind(a), x),
        ])()  # fmt: skip
        self.pairs[i] = (made[0], SortedDict(made[1]))

    def step(self):
        i = self.r.randrange(len(self.pairs))
        m, twin = self.pairs[i]
        what = self.r.randrange(30)
        if what == 0:
            self.joined(i)
        elif what == 1:
            self.many(m, twin)
        elif what == 2:
            self.ranges(m, twin)
        elif what == 3:
            assert m == twin and len(m) == len(twin) and list(m.items()) == list(twin.items())
            assert list(reversed(m)) == list(reversed(twin)) and list(m.values()) == list(twin.values())
        else:
            self.single(m, twin)


class Texts:
    """Keys of few letters, so that they meet; now and then the key of no bytes, and long ones."""

    def __init__(self, r):
        self.r, self.pairs = r, [(pam.TextMap(), SortedDict()) for _ in range(2)]

    def word(self):
        r = self.r
        return bytes(r.choice(b"ab\0\xff") for _ in range(r.choice([0, 1, 2, 3, 4, 5, r.randrange(200)])))

    def bound(self):
        return self.r.choice([self.word(), self.word(), None])

    def single(self, m, twin):
        r, k, v = self.r, self.word(), key(self.r)
        name, words = r.choice([("__setitem__", (k, v)), ("__setitem__", (k, v)), ("__delitem__", (k,)), ("__getitem__", (k,)), ("get", (k, 5)),
                                ("pop", (k, None)), ("setdefault", (k, v)), ("__contains__", (k,)), ("peekitem", (r.randrange(-5, 5),)),
                                ("popitem", (r.randrange(-5, 5),)), ("bisect_left", (k,)), ("bisect_right", (k,))])
        mine, theirs = answer(lambda: getattr(m, name)(*words)), answer(lambda: getattr(twin, name)(*words))
        # An empty map and a place: SortedDict says KeyError, and IndexError of others.
        assert mine == theirs or {mine, theirs} == {KeyError, IndexError}, (name, words, mine, theirs)

    def ranges(self, m, twin):
        lo, hi = self.bound(), self.bound()
        keys = [k for k in twin if (lo is None or lo <= k) and (hi is None or k < hi)]
        vals = [twin[k] for k in keys]
        part = m[lo:hi]
        assert list(part.items()) == list(zip(keys, vals))
        assert part.sum() == m.sum(lo, hi) == min(sum(vals), TOP)
        assert m.max(lo, hi, default=None) == part.max(default=None) == max(vals, default=None)
        assert list(m.irange(lo, hi)) == list(twin.irange(lo, hi))
        if self.r.random() < 0.3:
            del m[lo:hi]
            for k in keys:
                del twin[k]

    def joined(self, i):
        r, (a, x), (b, y) = self.r, *self.r.choices(self.pairs, k=2)
        how = r.choice(list(HOW))
        made = r.choice([
            lambda: (a.union(b, how), {k: HOW[how](x[k], y[k]) if k in x and k in y else x.get(k, y.get(k)) for k in [*x, *y]}),
            lambda: (a.intersection(b, how), {k: HOW[how](x[k], y[k]) for k in x if k in y}),
            lambda: (a - b, {k: x[k] for k in x if k not in y}),
            lambda: (copy.copy(a), x),
            lambda: (pickle.loads(pickle.dumps(a)), x),
        ])()  # fmt: skip
        self.pairs[i] = (made[0], SortedDict(made[1]))

    def step(self):
        r, i = self.r, self.r.randrange(len(self.pairs))
        m, twin = self.pairs[i]
        what = r.randrange(30)
        if what == 0:
            self.joined(i)
        elif what == 1:
            pairs = [(self.word(), key(r)) for _ in range(r.randrange(150))]
            m.put_many(r.choice([dict, list, iter])(pairs))
            twin.update(pairs)
        elif what == 2:
            self.ranges(m, twin)
        elif what == 3:
            assert m == twin and len(m) == len(twin) and list(m.items()) == list(twin.items())
            assert list(reversed(m)) == list(reversed(twin)) and list(m.values()) == list(twin.values())
        else:
            self.single(m, twin)


class Seqs:
    def __init__(self, r):
        self.r, self.seq, self.twin = r, pam.Seq(), []

    def place(self):
        return self.r.choice([self.r.randrange(-len(self.twin) - 2, len(self.twin) + 2), sys.maxsize, -sys.maxsize])

    def part(self):
        step = self.r.choice([None, None, None, 1, -1, 2])
        return slice(self.r.choice([None, self.place()]), self.r.choice([None, self.place()]), step)

    def step(self):
        r, s, twin = self.r, self.seq, self.twin
        if len(twin) > 3000:
            self.seq, self.twin = pam.Seq(), []
            return
        item, items = key(r), [key(r) for _ in range(r.randrange(50))]
        name, words = r.choice([("append", (item,)), ("insert", (self.place(), item)), ("__getitem__", (self.place(),)), ("__setitem__", (self.place(), item)),
                                ("__delitem__", (self.place(),)), ("pop", (self.place(),)), ("__getitem__", (self.part(),)),
                                ("__setitem__", (self.part(), items)), ("__delitem__", (self.part(),)), ("extend", (items,)), ("reverse", ()), ("__add__", (items,))])
        other = tuple(pam.Seq(word) if name == "__add__" else word for word in words)
        mine, theirs = answer(lambda: getattr(s, name)(*other)), answer(lambda: getattr(twin, name)(*words))
        assert (list(mine) if isinstance(mine, pam.Seq) else mine) == theirs, (name, words, mine, theirs)
        if r.random() < 0.05:
            part = slice(self.place(), self.place())
            assert list(s) == twin and list(reversed(s)) == twin[::-1] and len(s) == len(twin)
            assert s.sum(part.start, part.stop) == min(sum(twin[part]), TOP) and s.max(part.start, part.stop, default=None) == max(twin[part], default=None)
            assert copy.copy(s) == s == pickle.loads(pickle.dumps(s))


class Sets:
    def __init__(self, r):
        self.r, self.set, self.twin = r, pam.Intervals(), set()

    def step(self):
        r = self.r
        left = key(r)
        right = r.choice([left, min(left + r.randrange(40), TOP), key(r)])
        if left > right:
            left, right = right, left
        what = r.randrange(10)
        if what < 4:
            self.set.add(left, right)
            self.twin.add((left, right))
        elif what < 6 and self.twin:
            some = r.choice(sorted(self.twin))
            self.set.discard(*some)
            self.twin.discard(some)
        elif what == 6:
            wanted = sorted(i for i in self.twin if i[0] <= right and left <= i[1])
            assert self.set.overlapping(left, right) == wanted
            stabbed = sorted(i for i in self.twin if i[0] <= left <= i[1])
            assert self.set.stab(left) == stabbed and self.set.covers(left) == bool(stabbed)
        elif what == 7:
            assert ((left, right) in self.set) == ((left, right) in self.twin) and len(self.set) == len(self.twin)
        elif what == 8 and r.random() < 0.1:
            assert list(self.set) == sorted(self.twin) and copy.copy(self.set) == self.set == pickle.loads(pickle.dumps(self.set))
        elif r.random() < 0.01:
            self.twin = set(list(self.twin)[:20])
            self.set = pam.Intervals(self.twin)


def main():
    seed, seconds = int(sys.argv[1]), float(sys.argv[2])
    r, end, steps = random.Random(seed), time.monotonic() + seconds, 0
    try:
        while time.monotonic() < end:
            kinds = [Maps(r), Maps(r, pam.SignedMap, "q", -(2**63)), Texts(r), Seqs(r), Sets(r)]
            for _ in range(500):
                for kind in kinds:
                    kind.step()
                steps += 1
    except BaseException:
        print(f"seed {seed}, step {steps}", file=sys.stderr)
        raise
    print(f"twins.py: {steps} steps of each kind, seed {seed}")


main()
