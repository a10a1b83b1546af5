"""What each call answers and refuses. `python3 -m unittest` in bindings/python; NumPy is wanted for its arrays."""
import copy
import ctypes
import doctest
import importlib
import pickle
import threading
import unittest
from array import array

import numpy

import pam

TOP = 2**64 - 1


class Maps(unittest.TestCase):
    def setUp(self):
        self.map = pam.Map({1: 10, 3: 30, TOP: 5})

    def test_entries(self):
        m = self.map
        self.assertEqual((m[3], m.get(2), m.get(2, 7), len(m), 3 in m, 2 in m), (30, None, 7, 3, True, False))
        m[2] = 20
        del m[1]
        self.assertEqual(dict(m), {2: 20, 3: 30, TOP: 5})
        self.assertEqual(m.pop(2), 20)
        self.assertEqual(m.setdefault(3, 1), 30)
        m.clear()
        self.assertFalse(m)

    def test_keys_that_are_none(self):
        for key in (2, -1, 2**64, 2**70):
            with self.assertRaises(KeyError):
                self.map[key]
            with self.assertRaises(KeyError):
                del self.map[key]
            self.assertNotIn(key, self.map)
        for key in (-1, 2**64):
            with self.assertRaises(OverflowError):
                self.map[key] = 1
            with self.assertRaises(OverflowError):
                self.map[1] = key
        for key in ("1", 1.0, None, (1,)):
            for call in (self.map.__getitem__, self.map.get, self.map.__contains__, self.map.__delitem__, self.map.bisect):
                self.assertRaises(TypeError, call, key)
            self.assertRaises(TypeError, self.map.__setitem__, key, 1)
            self.assertRaises(TypeError, self.map.__setitem__, 1, key)
        self.assertEqual(len(self.map), 3)

    def test_a_snapshot_stays(self):
        kept, other, third = self.map.copy(), copy.copy(self.map), copy.deepcopy(self.map)
        self.map[1] = 11
        self.map.clear()
        self.assertEqual([dict(m) for m in (kept, other, third)], [{1: 10, 3: 30, TOP: 5}] * 3)

    def test_a_walk_sees_what_was_there(self):
        m = pam.Map((k, k) for k in range(10000))
        seen = []
        for key in m:
            seen.append(key)
            m[key + 10**6] = 0
            del m[key]
        self.assertEqual(seen, list(range(10000)))
        self.assertEqual(list(m.items()), [(k + 10**6, 0) for k in range(10000)])
        self.assertEqual(list(reversed(m))[:2], [1009999, 1009998])
        self.assertEqual(list(reversed(m.items()))[0], (1009999, 0))
        self.assertEqual(list(reversed(m.values())), [0] * 10000)

    def test_parts(self):
        m = pam.Map((k, 2 * k) for k in range(100))
        self.assertEqual(list(m[10:13]), [10, 11, 12])
        self.assertEqual((len(m[:10]), len(m[95:]), len(m[:]), len(m[7:7]), len(m[9:3]), len(m[-5:2])), (10, 5, 100, 0, 0, 2))
        self.assertEqual((m[10:13].sum(), m.sum(10, 13), m[10:13].max(), m.max(10, 13)), (66, 66, 24, 24))
        self.assertRaises(ValueError, lambda: m[::2])
        self.assertRaises(ValueError, m.max, 200)
        self.assertEqual(m.max(200, default=None), None)
        self.assertEqual((m.min(), m.min(10, 13), m[10:13].min(), m.min(200, default=7), m[10:13].mean(), m.mean(9, 11)), (0, 20, 20, 7, 22.0, 19.0))
        self.assertEqual((m.count(), m.count(10, 13), m[10:].count(-5, 13), m.count(13, 10), m.mean(200, default=None)), (100, 3, 3, 0, None))
        for call in (m.min, m.mean, m[:0].min, m[:0].mean):
            self.assertRaises(ValueError, call, 200)
        self.assertEqual(pam.Map({1: TOP, 2: TOP}).mean(), TOP / 2)
        del m[5:95]
        self.assertEqual(list(m), [0, 1, 2, 3, 4, 95, 96, 97, 98, 99])
        self.assertRaises(TypeError, m.__setitem__, slice(1, 2), 3)

    def test_order(self):
        m = self.map
        self.assertEqual((m.bisect_left(3), m.bisect_right(3), m.bisect_left(-4), m.bisect_right(TOP), m.bisect_left(2**64)), (1, 2, 0, 3, 3))
        self.assertEqual((m.peekitem(), m.peekitem(0), m.peekitem(-3)), ((TOP, 5), (1, 10), (1, 10)))
        self.assertEqual((m.next_item(3), m.next_item(TOP), m.next_item(-1), m.prev_item(1), m.prev_item(2**64)), ((TOP, 5), None, (1, 10), None, (TOP, 5)))
        self.assertEqual(list(m.irange(1, 3, (False, True))), [3])
        self.assertEqual(list(m.irange(reverse=True)), [TOP, 3, 1])
        for place in (3, -4, 2**70):
            self.assertRaises(IndexError, m.peekitem, place)
        self.assertEqual([m.popitem(), m.popitem(0), m.popitem()], [(TOP, 5), (1, 10), (3, 30)])
        self.assertRaises(KeyError, m.popitem)

    def test_set_operations(self):
        a, b = pam.Map({1: 10, 2: 20}), pam.Map({2: 5, 3: 30})
        self.assertEqual(dict(a | b), {1: 10, 2: 5, 3: 30})
        self.assertEqual(dict(a & b), {2: 20})
        self.assertEqual(dict(a - b), {1: 10})
        answers = {how: a.union(b, how)[2] for how in ("first", "second", "sum", "max")}
        self.assertEqual(answers, {"first": 20, "second": 5, "sum": 25, "max": 20})
        self.assertEqual(a.intersection(b, how="sum")[2], 25)
        self.assertRaises(ValueError, a.union, b, "least")
        self.assertRaises(TypeError, a.union, {2: 5})
        self.assertRaises(TypeError, lambda: a | {2: 5})
        below, rest = a.split(2)
        self.assertEqual((dict(below), dict(rest)), ({1: 10}, {2: 20}))
        a |= {7: 70}
        a.update(b)
        self.assertEqual(dict(a), {1: 10, 2: 5, 3: 30, 7: 70})
        self.assertEqual(pam.Map({1: TOP}).union(pam.Map({1: 2}), "sum")[1], TOP)

    def test_arrays(self):
        keys, vals = array("Q", [3, 1, 3]), array("Q", [1, 2, 3])
        forms = [
            (keys, vals),
            (numpy.array(keys, dtype=numpy.uint64), numpy.array(vals, dtype=numpy.uint64)),
            (memoryview(keys), memoryview(bytes(vals)).cast("Q")),
            (numpy.array([3, 0, 1, 0, 3, 0], dtype=numpy.uint64)[::2], list(vals)),
            (iter(keys), tuple(vals)),
        ]
        for some in forms:
            self.assertEqual(dict(pam.Map.from_arrays(*some)), {1: 2, 3: 3})
        frozen = numpy.array(keys, dtype=numpy.uint64)
        frozen.flags.writeable = False
        m = pam.Map.from_arrays(frozen, vals)
        m.put_many(numpy.array([9], dtype=numpy.uint64), [90])
        self.assertEqual(m.get_many(frozen), (array("Q", [3, 2, 3]), bytearray([1, 1, 1])))
        self.assertEqual(m.get_many([4, 9]), (array("Q", [0, 90]), bytearray([0, 1])))
        m.del_many(array("Q", [1, 2]))
        self.assertEqual(numpy.array(m.keys_array()).tolist(), [3, 9])
        self.assertEqual(m.items_arrays(4), (array("Q", [9]), array("Q", [90])))
        self.assertEqual(pam.Map.from_arrays([], array("Q")).items_arrays(), (array("Q"), array("Q")))

    def test_arrays_that_do_not_fit(self):
        m, good = self.map, array("Q", [1])
        wrong = [b"12345678", array("q", [1]), array("I", [1, 2]), array("d", [1.0]), numpy.zeros((1, 1), numpy.uint64),
                 numpy.array([1], dtype=">u8"), numpy.array([1], dtype=numpy.int64), numpy.array(5, dtype=numpy.uint64), 7, None, "1", ["1"], [1.5]]
        for keys in wrong:
            for call in (pam.Map.from_arrays, m.put_many):
                self.assertRaises(TypeError, call, keys, good)
                self.assertRaises(TypeError, call, good, keys)
            self.assertRaises(TypeError, m.get_many, keys)
            self.assertRaises(TypeError, m.del_many, keys)
        for keys in ([-1], [2**64]):
            self.assertRaises(OverflowError, m.put_many, keys, good)
        for call in (pam.Map.from_arrays, m.put_many):
            self.assertRaises(ValueError, call, [1, 2], good)
        for source in ([1], [(1, 2, 3)], 5, {"a": 1}, {1: None}):
            self.assertRaises((TypeError, ValueError), pam.Map, source)
        self.assertEqual(dict(m), {1: 10, 3: 30, TOP: 5})

    def test_bytes(self):
        for m in (pam.Map(), self.map, pam.Map((k * k, k) for k in range(5000))):
            data = m.to_bytes()
            for form in (data, bytearray(data), memoryview(data)):
                self.assertEqual(pam.Map.from_bytes(form), m)
            self.assertEqual(pickle.loads(pickle.dumps(m)), m)
            self.assertRaises(ValueError, pam.Map.from_bytes, data[:-1])
            self.assertRaises(ValueError, pam.Map.from_bytes, data + b"\0")
        self.assertRaises(ValueError, pam.Map.from_bytes, b"")
        for data in ("text", None, 5):
            self.assertRaises(TypeError, pam.Map.from_bytes, data)

    def test_equality(self):
        self.assertEqual(self.map, {1: 10, 3: 30, TOP: 5})
        self.assertNotEqual(self.map, pam.Map({1: 10, 3: 31, TOP: 5}))
        self.assertNotEqual(self.map, 5)
        self.assertRaises(TypeError, hash, self.map)
        self.assertEqual(repr(pam.Map((k, 0) for k in range(11))), "Map({0: 0, 1: 0, 2: 0, 3: 0, 4: 0, 5: 0, 6: 0, 7: 0, 8: 0, 9: 0, ...})")


LEAST, GREATEST = -(2**63), 2**63 - 1


class SignedMaps(unittest.TestCase):
    def setUp(self):
        self.map = pam.SignedMap({-3: 30, 1: 10, LEAST: 5, GREATEST: 7})

    def test_entries(self):
        m = self.map
        self.assertEqual((list(m), m[-3], m.get(-1), len(m), LEAST in m, 0 in m), ([LEAST, -3, 1, GREATEST], 30, None, 4, True, False))
        m[0] = 20
        del m[1]
        self.assertEqual((m.pop(-3), m.setdefault(-4, 1), dict(m)), (30, 1, {LEAST: 5, -4: 1, 0: 20, GREATEST: 7}))
        m.clear()
        self.assertFalse(m)

    def test_keys_that_are_none(self):
        for key in (LEAST - 1, GREATEST + 1, 2**70):
            self.assertRaises(KeyError, self.map.__getitem__, key)
            self.assertRaises(KeyError, self.map.__delitem__, key)
            self.assertNotIn(key, self.map)
            self.assertRaisesRegex(OverflowError, str(key), self.map.__setitem__, key, 1)
            self.assertRaises(OverflowError, self.map.put_many, [key], [1])
            self.assertRaises(OverflowError, pam.SignedMap, {key: 1})
        self.assertRaises(OverflowError, self.map.__setitem__, 1, -1)
        for key in ("1", 1.0, None):
            for call in (self.map.__getitem__, self.map.__contains__, self.map.__delitem__, self.map.bisect):
                self.assertRaises(TypeError, call, key)
            self.assertRaises(TypeError, self.map.__setitem__, key, 1)
        self.assertEqual(len(self.map), 4)

    def test_order(self):
        m = self.map
        self.assertEqual((m.peekitem(), m.peekitem(0), m.next_item(-3), m.prev_item(LEAST), m.prev_item(0)), ((GREATEST, 7), (LEAST, 5), (1, 10), None, (-3, 30)))
        self.assertEqual((m.bisect_left(-3), m.bisect_right(-3), m.bisect(LEAST - 1), m.bisect(GREATEST), m.bisect(2**70)), (1, 2, 0, 4, 4))
        self.assertEqual((list(m.irange(-3, 1)), list(m.irange(maximum=-3, reverse=True)), list(reversed(m))), ([-3, 1], [-3, LEAST], list(m)[::-1]))
        self.assertEqual((m.popitem(), m.popitem(0)), ((GREATEST, 7), (LEAST, 5)))

    def test_parts(self):
        m = self.map
        self.assertEqual((m[-3:1], m[:0], m[2:], m[:LEAST], m[9:-9]), ({-3: 30}, {LEAST: 5, -3: 30}, {GREATEST: 7}, {}, {}))
        self.assertEqual((m.sum(), m.sum(-3, 2), m.max(0), m[:0].max(), m.sum(0, -1)), (52, 40, 10, 30, 0))
        self.assertEqual((m.count(-3, 2), m.min(-3), m[:0].mean(), m.count(LEAST, GREATEST)), (2, 7, 17.5, 3))
        below, rest = m.split(0)
        self.assertEqual((list(below), list(rest)), ([LEAST, -3], [1, GREATEST]))
        del m[-3:1]
        self.assertEqual(list(m), [LEAST, 1, GREATEST])
        del m[:]
        self.assertEqual(len(m), 0)

    def test_arrays(self):
        keys, vals = [3, -1, 3, LEAST], [1, 2, 3, 4]
        frozen = numpy.array(keys, dtype=numpy.int64)
        frozen.flags.writeable = False
        for form in (keys, array("q", keys), memoryview(array("q", keys)), frozen, numpy.array([3, 0, -1, 0, 3, 0, LEAST], dtype=numpy.int64)[::2]):
            m = pam.SignedMap.from_arrays(form, vals)
            self.assertEqual(dict(m), {LEAST: 4, -1: 2, 3: 3})
            self.assertEqual(m.get_many(form), (array("Q", [3, 2, 3, 4]), bytearray([1, 1, 1, 1])))
            self.assertEqual(m.items_arrays(-1), (array("q", [-1, 3]), array("Q", [2, 3])))
            m.del_many(form)
            self.assertEqual((len(m), m.keys_array()), (0, array("q")))
        self.assertEqual(keys, [3, -1, 3, LEAST])
        for wrong in (array("Q", [1]), numpy.array([1], dtype=numpy.uint64), b"12345678", [1.5], 7):
            self.assertRaises(TypeError, m.put_many, wrong, [1])
        self.assertRaises(ValueError, m.put_many, [1, 2], [1])

    def test_two_maps(self):
        a, b = pam.SignedMap({-1: 10, 2: 20}), pam.SignedMap({2: 5})
        self.assertEqual((a | b, a & b, a - b, a.union(b, "sum")), ({-1: 10, 2: 5}, {2: 20}, {-1: 10}, {-1: 10, 2: 25}))
        for other in (pam.Map({2: 5}), {2: 5}):
            self.assertRaises(TypeError, a.union, other)
            self.assertRaises(TypeError, lambda: a | other)
        a.update(pam.Map({7: 70}))
        self.assertEqual((a == {-1: 10, 2: 20, 7: 70}, a == pam.SignedMap(a), a == b, b == pam.Map({2: 5})), (True, True, False, True))
        self.assertEqual(pam.Map(b), {2: 5})

    def test_bytes_and_snapshots(self):
        m = pam.SignedMap((k * k * (-1) ** k, k) for k in range(5000))
        kept = m.copy()
        for key in m:
            m[key] = 0
        self.assertEqual((kept, type(copy.copy(kept))), (pickle.loads(pickle.dumps(kept)), pam.SignedMap))
        self.assertEqual(list(kept.items())[:2], [(-4999 * 4999, 4999), (-4997 * 4997, 4997)])
        moved = pam.Map((k + 2**63, v) for k, v in kept.items())
        self.assertEqual((kept.to_bytes(), pam.SignedMap.from_bytes(moved.to_bytes())), (moved.to_bytes(), kept))
        self.assertEqual((repr(pam.SignedMap({-1: 2})), repr(kept[:0])[:30]), ("SignedMap({-1: 2})", "SignedMap({-24990001: 4999, -2"))
        kept.close()
        self.assertRaises(ValueError, len, kept)


class TextMaps(unittest.TestCase):
    def setUp(self):
        self.map = pam.TextMap({"": 5, "bar": 10, "foo": 30})

    def test_entries(self):
        m = self.map
        self.assertEqual((m["bar"], m[b"bar"], m[""], m.get("ba"), m.get("ba", 7), len(m), "foo" in m, b"fo" in m), (10, 10, 5, None, 7, 3, True, False))
        m["é"] = 20
        self.assertEqual(m["é".encode()], 20)
        del m[""]
        self.assertEqual(dict(m), {b"bar": 10, b"foo": 30, "é".encode(): 20})
        self.assertEqual((m.pop("bar"), m.pop("bar", None), m.setdefault("foo", 1)), (10, None, 30))
        with self.assertRaises(KeyError):
            m["bar"]
        with self.assertRaises(KeyError):
            del m["bar"]
        m.clear()
        self.assertFalse(m)

    def test_keys_and_values_that_are_none(self):
        m = self.map
        for key in (1, 1.0, None, ("a",)):
            for call in (m.__getitem__, m.get, m.__contains__, m.__delitem__, m.bisect, m.next_item):
                self.assertRaises(TypeError, call, key)
            self.assertRaises(TypeError, m.__setitem__, key, 1)
        for val in (-1, 2**64):
            self.assertRaises(OverflowError, m.__setitem__, "a", val)
            self.assertRaises(OverflowError, m.put_many, [("a", val)])
        self.assertRaises(TypeError, m.__setitem__, "a", "1")
        self.assertEqual(len(m), 3)

    def test_equal_to_mappings(self):
        m = pam.TextMap({"a": 1})
        self.assertEqual((m == {"a": 1}, m == {b"a": 1}, m == {"a": 2}, m == {}), (True, True, False, False))
        self.assertEqual((m == {1: 1}, m == {"\ud800": 1}, m == {"a": 1, b"a": 1}, m == [("a", 1)]), (False, False, False, False))

    def test_order(self):
        m = self.map
        m[b"foo\0"] = 1
        m["x" * 1000] = 2
        self.assertEqual(list(m), [b"", b"bar", b"foo", b"foo\0", b"x" * 1000])
        self.assertEqual(list(reversed(m)), list(m)[::-1])
        self.assertEqual((m.bisect_left("foo"), m.bisect_right("foo"), m.peekitem(), m.peekitem(0)), (2, 3, (b"x" * 1000, 2), (b"", 5)))
        self.assertEqual((m.next_item("foo"), m.prev_item("foo"), m.next_item("y"), m.prev_item("")), ((b"foo\0", 1), (b"bar", 10), None, None))
        self.assertEqual(m.popitem(), (b"x" * 1000, 2))
        self.assertRaises(IndexError, m.peekitem, 9)

    def test_parts(self):
        m = pam.TextMap((f"{k:03}", k) for k in range(100))
        self.assertEqual(list(m["010":"013"]), [b"010", b"011", b"012"])
        self.assertEqual((m["010":"013"].sum(), m.sum("010", "013"), m.max("010", "013"), m.sum("1")), (33, 33, 12, 0))
        self.assertEqual(list(m.irange("010", "012")), [b"010", b"011", b"012"])
        self.assertEqual((len(m[:"01"]), len(m["09":]), len(m[:]), len(m["5":"4"])), (10, 10, 100, 0))
        self.assertRaises(ValueError, lambda: m["a":"b":2])
        self.assertRaises(ValueError, m.max, "1")
        del m["005":"095"]
        self.assertEqual(len(m), 10)

    def test_walks_and_snapshots(self):
        m = pam.TextMap((f"{k:05}", k) for k in range(3000))
        kept = m.copy()
        for key in m:
            m[key + b"!"] = m.pop(key)
        self.assertEqual([key[:-1] for key in m], list(kept))
        self.assertEqual(list(kept.items())[-1], (b"02999", 2999))
        self.assertEqual(pickle.loads(pickle.dumps(kept)), kept)
        self.assertEqual((kept == copy.deepcopy(kept), kept == m), (True, False))

    def test_set_operations(self):
        a, b = pam.TextMap({"a": 10, "b": 20}), pam.TextMap({"b": 5, "c": 30})
        self.assertEqual((a | b, a & b, a - b), ({"a": 10, "b": 5, "c": 30}, {"b": 20}, {"a": 10}))
        self.assertEqual({how: a.union(b, how)["b"] for how in ("first", "second", "sum", "max")}, {"first": 20, "second": 5, "sum": 25, "max": 20})
        self.assertRaises(ValueError, a.union, b, "least")
        self.assertRaises(TypeError, a.union, {"b": 5})

    def test_closed(self):
        self.map.close()
        for call in (len, list, pam.TextMap.sum):
            self.assertRaises(ValueError, call, self.map)


class Sequences(unittest.TestCase):
    def test_as_a_list(self):
        s, twin = pam.Seq(range(50)), list(range(50))
        for name, words in [("append", (7,)), ("insert", (0, 9)), ("insert", (-3, 8)), ("insert", (99, 6)), ("pop", ()), ("pop", (3,)),
                            ("extend", ([1, 2, 3],)), ("reverse", ()), ("remove", (9,)), ("index", (30,)), ("count", (1,)),
                            ("__setitem__", (5, 55)), ("__setitem__", (slice(2, 40), [1, 2])), ("__setitem__", (slice(3, 1), [4])),
                            ("__setitem__", (slice(None, None, 3), None)), ("__delitem__", (slice(1, 4),)), ("__delitem__", (slice(None, None, 2),)),
                            ("__delitem__", (-1,)), ("__delitem__", (slice(4, 2),))]:
            if words == (slice(None, None, 3), None):
                words = (words[0], [0] * len(twin[words[0]]))
            self.assertEqual(getattr(s, name)(*words), getattr(twin, name)(*words), name)
            self.assertEqual(list(s), twin, name)
            self.assertEqual(list(reversed(s)), twin[::-1])
        for part in (slice(1, 3), slice(-2, None), slice(None, None, -1), slice(5, 1), slice(None, None, 2)):
            self.assertEqual(list(s[part]), twin[part])

    def test_what_is_refused(self):
        s = pam.Seq([1, 2])
        for place in (2, -3, 2**64, 2**70):
            self.assertRaises(IndexError, s.__getitem__, place)
            self.assertRaises(IndexError, s.__setitem__, place, 1)
            self.assertRaises(IndexError, s.__delitem__, place)
        self.assertRaises(IndexError, pam.Seq().pop)
        self.assertRaises(OverflowError, s.append, 2**64)
        self.assertRaises(OverflowError, s.__setitem__, 0, -1)
        for item in ("1", 1.5, None):
            self.assertRaises(TypeError, s.append, item)
            self.assertRaises(TypeError, s.extend, item)
        self.assertRaises(TypeError, lambda: s + [1])
        self.assertRaises(ValueError, s.__setitem__, slice(None, None, 2), [1, 2, 3])
        self.assertRaises(ValueError, s.max, 5)
        self.assertEqual(list(s), [1, 2])

    def test_folds_and_parts(self):
        s = pam.Seq(range(3000))
        kept = s.copy()
        self.assertEqual((s.sum(), s.sum(10, 20), s.max(0, 5), s.sum(-2), s.sum(5, 2)), (4498500, 145, 4, 5997, 0))
        both = s[2990:] + s[:10]
        self.assertEqual(list(both), [*range(2990, 3000), *range(10)])
        s += s
        self.assertEqual((len(s), len(kept)), (6000, 3000))
        self.assertEqual(pickle.loads(pickle.dumps(kept)), kept)
        self.assertEqual(pam.Seq(numpy.arange(3000, dtype=numpy.uint64)), kept)
        self.assertEqual(kept.to_array(2998), array("Q", [2998, 2999]))
        s.clear()
        self.assertEqual((list(s), s == pam.Seq(), s == []), ([], True, False))
        self.assertEqual(repr(kept), "Seq([0, 1, 2, 3, 4, 5, 6, 7, 8, 9, ...])")


class IntervalSets(unittest.TestCase):
    def test_a_set(self):
        a = pam.Intervals([(1, 5), (4, 9), (1, 5), (7, 7), (0, TOP)])
        self.assertEqual(list(a), [(0, TOP), (1, 5), (4, 9), (7, 7)])
        self.assertEqual((len(a), (4, 9) in a, (4, 8) in a, (9, 4) in a), (4, True, False, False))
        self.assertEqual((a.stab(5), a.overlapping(6, 7)), ([(0, TOP), (1, 5), (4, 9)], [(0, TOP), (4, 9), (7, 7)]))
        kept = a.copy()
        a.discard(0, TOP)
        a.discard(0, TOP)
        a.remove(7, 7)
        self.assertRaises(KeyError, a.remove, 7, 7)
        self.assertEqual((a.covers(9), a.covers(10), kept.covers(10), a.stab(10)), (True, False, True, []))
        self.assertEqual(pickle.loads(pickle.dumps(kept)), kept)
        self.assertNotEqual(a, kept)

    def test_more_than_a_block(self):
        pairs = [(k // 3, k // 3 + k % 3) for k in range(6000)] + [(TOP, TOP)]
        a = pam.Intervals(pairs)
        self.assertEqual(list(a), pairs)
        self.assertEqual(a.overlapping(0, TOP), pairs)

    def test_what_is_refused(self):
        a = pam.Intervals()
        self.assertRaises(ValueError, a.add, 5, 4)
        self.assertRaises(ValueError, a.overlapping, 5, 4)
        self.assertRaises(ValueError, pam.Intervals, [(1, 2), (2, 1)])
        self.assertRaises(ValueError, pam.Intervals.from_arrays, [1], [2, 3])
        self.assertRaises(OverflowError, a.add, -1, 4)
        self.assertRaises(OverflowError, a.stab, 2**64)
        self.assertRaises(TypeError, a.add, "1", 2)
        self.assertRaises(TypeError, a.covers, 1.0)
        self.assertRaises(TypeError, a.__contains__, 5)
        self.assertRaises(TypeError, pam.Intervals, [5])
        self.assertEqual(list(a), [])


class Lives(unittest.TestCase):
    def test_closed(self):
        for made in (pam.Map({1: 1}), pam.Seq([1]), pam.Intervals([(1, 1)])):
            made.close()
            made.close()
            for call in (len, list, repr, bool, copy.copy, pickle.dumps):
                self.assertRaises(ValueError, call, made)
        m = pam.Map()
        m.close()
        other = pam.Map({1: 1})
        calls = [lambda: m[1], lambda: 1 in m, lambda: m.__setitem__(1, 1), lambda: m.__delitem__(1), lambda: m[1:2], lambda: m | other,
                 lambda: other & m, lambda: other - m, m.sum, lambda: m.sum(3, 2), m.min, m.mean, m.count, lambda: m.min(3, 2), lambda: m.count(3, 2), lambda: m.bisect(1), m.clear, m.to_bytes,
                 m.keys_array, lambda: m.get_many([1]), lambda: m.put_many([1], [1]), lambda: m.del_many([]), lambda: m.update({}), lambda: m == other]
        for call in calls:
            self.assertRaises(ValueError, call)

    def test_never_opened_and_opened_twice(self):
        for kind in (pam.Map, pam.Seq, pam.Intervals):
            self.assertRaises(ValueError, len, kind.__new__(kind))
            self.assertRaises(ValueError, kind().__init__)

    def test_what_is_kept_of_what_raised(self):
        m = pam.Map({1: 1})
        self.assertRaises(TypeError, m.update, [(2, 2), (3, "x")])
        self.assertEqual(dict(m), {1: 1})

    def test_threads_in_one_map(self):
        m = pam.Map()

        def put(start):
            for key in range(start, start + 3000):
                m[key] = key
                m.copy().sum()

        threads = [threading.Thread(target=put, args=(5000 * t,)) for t in range(4)]
        for thread in threads:
            thread.start()
        for thread in threads:
            thread.join()
        self.assertEqual(list(m), [5000 * t + k for t in range(4) for k in range(3000)])

    def test_threads_that_replace_what_others_read(self):
        m, s, stop, faults = pam.Map({1: 1}), pam.Seq([1]), [], []

        def read():
            while not stop:
                try:
                    m.sum(), s.sum(), len(m), list(m), list(s)
                except Exception as fault:
                    faults.append(fault)

        threads = [threading.Thread(target=read) for _ in range(3)]
        for thread in threads:
            thread.start()
        for key in range(3000):
            m |= pam.Map({key: key})
            s.insert(0, key)
        stop.append(True)
        for thread in threads:
            thread.join()
        self.assertEqual((len(m), len(s), faults), (3000, 3001, []))


def load_tests(_loader, tests, _pattern):
    for name in ("pam", "pam._map", "pam._text_map", "pam._seq", "pam._intervals"):
        tests.addTests(doctest.DocTestSuite(importlib.import_module(name)))
    tests.addTests(doctest.DocFileSuite("../README.md"))
    return tests
