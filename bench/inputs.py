"""Seeded scripts of any size for each tool, as pieces of bytes: those with one text, in which every kind of work comes up."""
import itertools
import random

import measure

LIMIT, CALLERS = 67108864, 64


def up_to(size, lines):
    """The first lines that have at most so many bytes together."""
    for line in lines:
        size -= len(line)
        if size < 0:
            return
        yield line


def pairs(r, count, keys, values=2**20):
    return b"".join(b",%d,%d" % (r.randrange(keys), r.randrange(values)) for _ in range(count))


def of_map(r, size):
    """Two maps built, single puts and runs of them, set operations, parts, and questions."""
    count = size // 36
    keys = 4 * count + 1
    yield b"build,0%s\nbuild,1%s\n" % (pairs(r, count, keys), pairs(r, count, keys))
    yield from (b"put,2,%d,%d\n" % (r.randrange(keys), r.randrange(2**20)) for _ in range(count // 4))
    yield b"union,3,0,1,sum\ninter,4,0,1,max\ndiff,5,0,1\ncat,6,4,0\nfilter,7,3,9,99999\natleast,8,3,500000\nmput,3%s\n" % pairs(r, count // 9 + 1, keys)
    yield b"mdel,3%s\n" % b"".join(b",%d" % r.randrange(keys) for _ in range(count // 9 + 1))
    for _ in range(count // 20):
        low = r.randrange(keys)
        yield b"sum,3,%d,%d\nrank,4,%d\nslice,9,3,%d,%d\ncopy,10,9\ndel,10,%d\nget,0,%d\n" % (low, low + keys // 2, low, low, low + 99, low, low)
    yield b"fold,3\nfold,4\nfold,5\nfold,7\nfold,8\nlist,3,0,%d\n" % (keys // 50)


def of_seq(r, size):
    """Items pushed, appended, turned round, cut and set."""
    for _ in range(size // 9000 + 1):
        yield b"push,0%s\nappend,1,0,1\n" % b"".join(b",%d" % r.randrange(2**20) for _ in range(1000))
        yield b"".join(b"set,0,%d,%d\nat,0,%d\n" % (r.randrange(1000), r.randrange(99), r.randrange(1000)) for _ in range(20))
        yield b"take,2,1,%d\nskip,3,1,%d\nappend,4,2,3\nfold,4,9,%d\n" % (r.randrange(9999), r.randrange(9999), r.randrange(9999))
    yield b"reverse,5,1\nfold,5,0,99999999\nlist,5,0,999\n"


def of_interval(r, size):
    """Intervals added and removed, and numbers in few of them."""
    word = 2**32
    starts = [r.randrange(word) for _ in range(size // 40)]
    yield from (b"add,%d,%d\n" % (start, start + r.randrange(40_000)) for start in starts)
    yield from (b"del,%d,%d\nany,%d\nstab,%d\n" % (start, start + 1, start, r.randrange(word)) for start in starts[:: 5])
    yield b"size\nover,0,%d\n" % (word // 50)


def of_points(r, size):
    """Points added in batches and alone, sums and lists of rectangles."""
    plane = 1_000_000
    point = lambda: (r.randrange(plane), r.randrange(plane), r.randrange(1000))
    for _ in range(size // 30_000 + 1):
        yield b"add%s\n" % b"".join(b",%d,%d,%d" % point() for _ in range(1000))
        yield b"".join(b"add,%d,%d,%d\n" % point() for _ in range(200))
        yield b"".join(b"sum,%d,%d,0,%d\n" % (x, x + plane // 2, y) for x, y, _ in (point() for _ in range(40)))
    yield b"list,0,%d,0,%d\nsize\n" % (plane // 9, plane // 9)


def word(r):
    """One of 20,000 words, the early ones far more often."""
    return b"w%d" % int(20_000 * r.random() ** 3)


def of_index(r, size):
    """Documents of fifty words, and questions."""
    for number in range(size // 270 + 1):
        yield b"doc,%d,%s\n" % (number, b" ".join(word(r) for _ in range(50)))
    for _ in range(size // 3000 + 1):
        yield b"and,%s,%s\nor,%s,%s\nwithout,%s,%s\ntop,10,%s\n" % tuple(word(r) for _ in range(7))


def edges(r, count, vertices):
    return b"".join(b",%d,%d" % (r.randrange(vertices), r.randrange(vertices)) for _ in range(count))


def of_graph(r, size):
    """Edges added and cut, a snapshot, searches and components."""
    count = size // 15
    vertices = count // 5 + 1
    yield b"add%s\nkeep\nadd%s\n" % (edges(r, count, vertices), b"".join(b",%d,%d" % (at, at + 1) for at in range(min(vertices, 20_000))))
    yield b"cut%s\n" % edges(r, count // 20 + 1, vertices)
    yield b"size\nbfs,0,%d\nnow,%d\ncomp\n" % (r.randrange(vertices), r.randrange(vertices))


def served(r, size, operation, query):
    """Rounds that have batches of one caller, or reads of all callers, so that there is one text."""
    yield b"serve,%d\n" % CALLERS
    for turn in itertools.count():
        caller = turn % CALLERS
        batches = (b"b,%d,%s\n" % (caller, b",".join(operation() for _ in range(n))) for n in (1, 100, 3, 40))
        reads = (b"r,%d,%s\n" % (reader, query()) for reader in range(CALLERS))
        lines = b"".join([*batches, b"round\n", *reads, b"round\n"])
        size -= len(lines)
        if size < 0:
            return
        yield lines


def of_serve(r, size):
    """A map of 10,000 keys that batches change."""
    key = lambda: r.randrange(10_000)
    kinds = [lambda: b"put,%d,%d" % (key(), key()), lambda: b"add,%d,%d" % (key(), key()), lambda: b"del,%d" % key(), lambda: b"wipe,%d,9" % key()]
    asked = [lambda: b"get,%d" % key(), lambda: b"sum,%d,9999" % key(), lambda: b"rank,%d" % key(), lambda: b"size"]
    return served(r, size, lambda: r.choice(kinds)(), lambda: r.choice(asked)())


def of_gserve(r, size):
    """A graph of 100 vertices that batches change."""
    vertex = lambda: r.randrange(100)
    kinds = [lambda: b"add,%d,%d" % (vertex(), vertex()), lambda: b"cut,%d,%d" % (vertex(), vertex())]
    asked = [lambda: b"degree,%d" % vertex(), lambda: b"bfs,%d" % vertex(), lambda: b"size"]
    return served(r, size, lambda: r.choice(kinds)(), lambda: r.choice(asked)())


MAKERS = {"map": of_map, "seq": of_seq, "interval": of_interval, "points": of_points, "index": of_index, "graph": of_graph, "serve": of_serve, "gserve": of_gserve}


def script(tool, size):
    """A script of about so many bytes."""
    return MAKERS[tool](random.Random(measure.SEED), size)
