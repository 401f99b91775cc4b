#!/usr/bin/env python3
"""Writes kits as SHAPE-SIZE-kSTAGES-LIMIT.kit: task graphs of small PolyBench kernels, drawn
shapes of growing size, kits whose stages are evened out for many passes, and kits that are refused.

A task is one run of a kernel's statement; its cost is 1 for each operation. A wire runs from
the last task that wrote an array element to each task that reads it, as wide as the elements
carried. Usage: kernels.py DIR
"""
import heapq
import os
import random
import sys

BLOCKS, WIRES = 512, 1024


class Tasks:
    """Tasks in program order; wires follow from what each reads and writes."""

    def __init__(self):
        self.costs, self.writer, self.wires = [], {}, {}

    def task(self, cost, reads, write):
        v = len(self.costs)
        self.costs.append(cost)
        for element in reads:
            u = self.writer.get(element)
            if u is not None:
                self.wires[(u, v)] = self.wires.get((u, v), 0) + 1
        self.writer[write] = v

    def fits(self):
        return len(self.costs) <= BLOCKS and len(self.wires) <= WIRES


def two_mm(n):
    """tmp := alpha A B; D := tmp C + beta D. A task is one element of a product."""
    g = Tasks()
    for i in range(n):
        for j in range(n):
            g.task(2 * n, [], ("tmp", i, j))
    for i in range(n):
        for j in range(n):
            g.task(2 * n + 1, [("tmp", i, k) for k in range(n)], ("D", i, j))
    return g


def atax(n):
    """y = A^T (A x). A task is one multiply and add."""
    g = Tasks()
    for i in range(n):
        g.task(1, [], ("tmp", i))
        for j in range(n):
            g.task(2, [("tmp", i)], ("tmp", i))
        for j in range(n):
            g.task(2, [("y", j), ("tmp", i)], ("y", j))
    return g


def jacobi_1d(n):
    """Steps over a row of cells, from A to B and back. A task is one cell."""
    g = Tasks()
    width = 16
    for t in range(n):
        old, new = ("A", "B") if t % 2 == 0 else ("B", "A")
        for i in range(1, width - 1):
            g.task(3, [(old, i - 1), (old, i), (old, i + 1)], (new, i))
    return g


def lu(n):
    """LU factors in place. A task is the update of one element."""
    g = Tasks()
    for k in range(n):
        for i in range(k + 1, n):
            g.task(1, [("A", i, k), ("A", k, k)], ("A", i, k))
        for i in range(k + 1, n):
            for j in range(k + 1, n):
                g.task(2, [("A", i, j), ("A", i, k), ("A", k, j)], ("A", i, j))
    return g


def trisolv(n):
    """L x = b, forwards. A task is one multiply and subtract, or the division."""
    g = Tasks()
    for i in range(n):
        g.task(1, [], ("x", i))
        for j in range(i):
            g.task(2, [("x", i), ("x", j)], ("x", i))
        g.task(1, [("x", i)], ("x", i))
    return g


# The drawn shapes: wires among n blocks, each from a lower to a higher number.

def chain(n, r):
    return [(v - 1, v) for v in range(1, n)]


def tree_out(n, r):
    """Each block but the first has one sender, any earlier one."""
    return [(r.randrange(v), v) for v in range(1, n)]


def tree_in(n, r):
    """Each block but the last has one receiver, any later one."""
    return [(v, r.randrange(v + 1, n)) for v in range(n - 1)]


def star_out(n, r):
    return [(0, v) for v in range(1, n)]


def star_in(n, r):
    return [(v, n - 1) for v in range(n - 1)]


def fan(n, r):
    """One block to all but the last, and those to the last."""
    return [(0, v) for v in range(1, n - 1)] + [(v, n - 1) for v in range(1, n - 1)]


def hourglass(n, r):
    """Half of the blocks to the middle one, and that to the other half."""
    half = n // 2
    return [(v, half) for v in range(half)] + [(half, v) for v in range(half + 1, n)]


def beads(n, r):
    """Sixteen to one to sixteen to one."""
    wires = []
    for waist in range(16, n, 17):
        wires += [(v, waist) for v in range(waist - 16, waist)]
        wires += [(waist, v) for v in range(waist + 1, min(waist + 17, n))]
    return wires


def no_wires(n, r):
    return []


def layered(n, r):
    """Layers of eight, each block with two senders of the layer before."""
    wires = []
    for v in range(8, n):
        first = (v // 8 - 1) * 8
        wires += [(u, v) for u in r.sample(range(first, first + 8), 2)]
    return wires


def randomly(n, r):
    """Two wires a block, between any two."""
    wires = set()
    while len(wires) < min(2 * n, WIRES):
        wires.add(tuple(sorted(r.sample(range(n), 2))))
    return sorted(wires)


def bipartite(n, r):
    """Each of one half to each of the other, as far as wires go."""
    half = n // 2
    each = min(half, WIRES // half)
    return [(u, half + (u + j) % half) for u in range(half) for j in range(each)]


def two_hubs(n, r):
    """Two blocks to all others. One wire is between the two: n - 1 wires each."""
    return [(0, 1)] + [(u, v) for v in range(2, n) for u in (0, 1)]


def hubs(n, r):
    """Sixteen blocks of the first half, each to 63 later ones."""
    return [(u, v) for u in range(0, n // 2, n // 32) for v in r.sample(range(u + 1, n), 63)]


def filled(make):
    """The shape with more wires, each to one of the next sixteen blocks, 1,024 in all."""
    def wires(n, r):
        made = dict.fromkeys(make(n, r))
        while len(made) < WIRES:
            a = r.randrange(n - 1)
            made[(a, min(a + r.randint(1, 16), n - 1))] = None
        return list(made)
    return wires


GROWING = (64, 128, 256, 512)
SHAPES = [("chain", chain, GROWING), ("tree_out", tree_out, GROWING), ("tree_in", tree_in, GROWING),
          ("star_out", star_out, (64, 512)), ("star_in", star_in, (64, 512)), ("fan", fan, (64, 512)),
          ("hourglass", hourglass, (64, 512)), ("beads", beads, (64, 512)), ("no_wires", no_wires, (64, 512)),
          ("bipartite", bipartite, (64, 512)), ("layered", layered, GROWING), ("random", randomly, GROWING),
          ("two_hubs", two_hubs, (512,)), ("chain_full", filled(chain), (512,)),
          ("layered_full", filled(layered), (512,)), ("hubs_full", filled(hubs), (512,))]


def drawn(make, n, shuffled):
    """The shape with costs and widths of 1 to 9; shuffled: blocks and wires under any numbers."""
    r = random.Random(n)
    g = Tasks()
    g.costs = [r.randint(1, 9) for _ in range(n)]
    wires, label = make(n, r), list(range(n))
    if shuffled:
        r.shuffle(label)
        r.shuffle(wires)
    g.wires = {(label[a], label[b]): r.randint(1, 9) for a, b in wires}
    return g


def largest(kernel):
    """The largest size that fits a kit."""
    n, best = 2, kernel(2)
    while True:
        n += 1
        g = kernel(n)
        if not g.fits():
            return n - 1, best
        best = g


def least_limit(g, k):
    """The least limit under which the blocks' play order can be divided into k runs."""
    waiting, receivers = [0] * len(g.costs), [[] for _ in g.costs]
    for a, b in g.wires:
        waiting[b] += 1
        receivers[a].append(b)
    ready, order = [v for v, w in enumerate(waiting) if w == 0], []
    while ready:
        v = heapq.heappop(ready)
        order.append(v)
        for b in receivers[v]:
            waiting[b] -= 1
            if waiting[b] == 0:
                heapq.heappush(ready, b)

    def runs(limit):
        count, load = 1, 0
        for v in order:
            load += g.costs[v]
            if load > limit:
                count, load = count + 1, g.costs[v]
        return count

    low, high = max(g.costs), sum(g.costs)
    while low < high:
        middle = (low + high) // 2
        low, high = (low, middle) if runs(middle) <= k else (middle + 1, high)
    return low


def write(folder, name, g, k, limit):
    lines = ["(kit (blocks %d) (stages %d) (limit %d))" % (len(g.costs), k, limit)]
    lines += ["(block (cost %d))" % c for c in g.costs]
    wires = g.wires.items() if isinstance(g.wires, dict) else g.wires
    lines += ["(wire (from %d) (to %d) (width %d))" % (a, b, w) for (a, b), w in wires]
    with open(os.path.join(folder, name + ".kit"), "w") as f:
        f.write("\n".join(lines) + "\n")


def write_all(folder, shape, size, g):
    """Three stage counts, each with three limits: the least that rung 0 allows, a fifth above
    an even share with room for the largest block, and one that never matters."""
    for k in (2, 4, 16):
        even = sum(g.costs) * 6 // (5 * k) + max(g.costs)
        for word, limit in (("tight", least_limit(g, k)), ("even", even), ("loose", sum(g.costs))):
            write(folder, "%s-%03d-k%02d-%s" % (shape, size, k, word), g, k, limit)


# Kits whose first cut is very uneven and whose passes even it out, at the same cut, for long.

def slow_chain(n, cost):
    """A chain of a fifth of the blocks, numbered against its wires, and a star of the rest. The first cut ends
    the early stages after one block each. A block goes over to the stage before as soon as its sender has
    gone, but it was visited before its sender: a pass takes at most one over a border. A longer chain
    would be joined: its pairs would be a tenth of the blocks."""
    long = n // 5 - 2
    g = Tasks()
    g.costs = [cost(v, long) for v in range(long)] + [1] * (n - long)
    g.wires = {(v, v - 1): 1 for v in range(long - 1, 0, -1)}
    g.wires.update({(long, v): 2 for v in range(long + 1, n)})
    return g


def slow_hubs(n, k):
    """One costly block a stage, for a limit that two of them exceed, and between each two a bundle of
    blocks that are as well in the one's stage as in the other's. Numbered against the wires."""
    each = (n - k) // (k - 1)
    step = 120000 // (each * each)
    g = Tasks()
    hubs = [v * (each + 1) for v in range(k)]
    last = hubs[-1]
    g.costs = [1 + step * (v % (each + 1)) for v in range(last + 1)]
    for hub in hubs:
        g.costs[hub] = 65535
    for a, b in zip(hubs, hubs[1:]):
        for v in range(a + 1, b):
            g.wires[(b, v)] = g.wires[(v, a)] = 1
    return g


def free(n):
    """No wires: every stage is open to every block. Each costs a fiftieth more than the one before."""
    g = Tasks()
    g.costs = [1 + int(1.02 ** v) for v in range(n)]
    return g


def write_evening(folder):
    r = random.Random(9)
    for n in (256, 512):
        drawn_costs = slow_chain(n, lambda v, long: r.randint(1, 9))
        rising = slow_chain(n, lambda v, long: 1 + int(1.1 ** (long - v)))
        for k in (4, 16):
            for word, g in (("chain", drawn_costs), ("rising", rising), ("free", free(n))):
                write(folder, "evening-%s-%03d-k%02d-loose" % (word, n, k), g, k, sum(g.costs))
            write(folder, "evening-hubs-%03d-k%02d-one_hub" % (n, k), slow_hubs(n, k), k, 2 * 65535 - 1)


def write_refused(folder):
    """Of 512 blocks: the last wire repeats, or wire 1; the wires form one loop, a loop of the last blocks
    alone, before a chain or at both its ends; no rung can be cut."""
    for shape, make, _ in SHAPES:
        for shuffled in (False, True):
            g = drawn(make, BLOCKS, shuffled)
            name = shape + ("_shuffled" if shuffled else "")
            for k in (1, 16):
                limit = sum(g.costs) - 1 if k == 1 else least_limit(g, k) - 1
                if limit >= max(g.costs):
                    write(folder, "uncut-%s-k%02d" % (name, k), g, k, limit)
            wires = list(g.wires.items())[:WIRES - 1]
            if wires:
                g.wires = wires + wires[-1:]
                write(folder, "repeat-%s" % name, g, 16, sum(g.costs))
    g = drawn(randomly, BLOCKS, True)
    wires = list(g.wires.items())[:WIRES - 1]
    g.wires = wires[:1] + wires
    write(folder, "repeat-at_once", g, 16, sum(g.costs))
    for shuffled in (False, True):
        name = "_shuffled" if shuffled else ""
        g = drawn(chain, BLOCKS, shuffled)
        ends = sorted(set(b for _, b in g.wires) ^ set(a for a, _ in g.wires))
        first = next(v for v in ends if all(b != v for _, b in g.wires))
        g.wires[(sum(ends) - first, first)] = 1
        write(folder, "loop-whole%s" % name, g, 16, sum(g.costs))
        for shape, make in (("random", randomly), ("layered", layered), ("chain", chain)):
            g = drawn(make, BLOCKS, shuffled)
            last = (BLOCKS - 2, BLOCKS - 1)
            g.wires = {e: w for e, w in list(g.wires.items())[:WIRES - 2] if e[0] not in last and e[1] not in last}
            g.wires[(BLOCKS - 2, BLOCKS - 1)] = g.wires[(BLOCKS - 1, BLOCKS - 2)] = 1
            write(folder, "loop-last-%s%s" % (shape, name), g, 16, sum(g.costs))
    # a chain behind a loop, and one between two loops: no end of it is free on one side, or on either
    for word, loops in (("before", (BLOCKS - 2,)), ("between", (BLOCKS - 4, BLOCKS - 2))):
        g = drawn(chain, loops[0], False)
        g.costs = [1] * BLOCKS
        for u in loops:
            g.wires[(u, u + 1)] = g.wires[(u + 1, u)] = 1
        g.wires[(loops[0], 0)] = 1
        if len(loops) == 2:
            g.wires[(loops[0] - 1, loops[1])] = 1
        write(folder, "loop-%s-chain" % word, g, 16, BLOCKS)


def main():
    folder = sys.argv[1]
    os.makedirs(folder, exist_ok=True)
    for old in os.listdir(folder):
        os.remove(os.path.join(folder, old))
    for name, kernel in [("2mm", two_mm), ("atax", atax), ("jacobi_1d", jacobi_1d), ("lu", lu), ("trisolv", trisolv)]:
        size, g = largest(kernel)
        write_all(folder, name, size, g)
    for shape, make, sizes in SHAPES:
        for n in sizes:
            write_all(folder, shape, n, drawn(make, n, False))
            write_all(folder, shape + "_shuffled", n, drawn(make, n, True))
    write_evening(folder)
    write_refused(folder)


main()
