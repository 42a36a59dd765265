#!/usr/bin/env python3
"""The five searches, node by node, by their definitions alone: a second program to compare with.

    plain_searches.py KIND FILE [NODES]     what the search of a .mm file shows after each node
    plain_searches.py nodes FILE                each node of the tree of a .mm file: activity:mode, start-finish where it can be executed, whether it was
                                            placed or pruned, and the makespan of the incumbent after it
    plain_searches.py groups SEED GROUPS N      of each group of N small random projects, what each kind of search shows:
                                            how many nodes there were, and a sum over all that was shown after each
    plain_searches.py largest                   the same of a project at the limits, whose activities follow one another
    plain_searches.py values SEED N             a sum over the values of each activity of N small random projects
    plain_searches.py boards SEED N             of partial schedules that grow and shrink, of N of them: how many earliest starts
                                            were asked for, and a sum over all that was told
    plain_searches.py schedules SEED N          of ten random schedules of each of N of them: how many are feasible, and a sum over
                                            what each is, or breaks first
    plain_searches.py least SEED N              of N random projects of at most three activities: how many have a feasible schedule,
                                            and a sum over their least makespans, by going over all schedules

KIND is tree, rule:lft, rule:mts, rule:spt or sample:SEED. Nothing here is shared with the service: no code, no
tables. Activities and modes are counted from 0 inside, and from 1 in what is printed.
"""
import sys
from itertools import islice, product


class Project:
    """`modes[j]` is a list of (duration, requests, consumptions), `successors[j]` a list of places."""

    def __init__(self, modes, successors, capacities, stocks):
        self.modes, self.successors = modes, successors
        self.capacities, self.stocks = capacities, stocks
        self.n = len(modes)
        self.predecessors = [[i for i in range(self.n) if j in successors[i]] for j in range(self.n)]
        self.horizon = sum(max(m[0] for m in ms) for ms in modes)
        self.shortest = [min(m[0] for m in ms) for ms in modes]
        self.tail = [0] * self.n
        self.lft = [0] * self.n
        followers = [set() for _ in modes]
        for j in reversed(range(self.n)):
            self.tail[j] = max((self.shortest[s] + self.tail[s] for s in successors[j]), default=0)
            self.lft[j] = min((self.lft[s] - self.shortest[s] for s in successors[j]), default=self.horizon)
            for s in successors[j]:
                followers[j] |= {s} | followers[s]
        self.mts = [len(f) for f in followers]
        self.bound = max(self.shortest[j] + self.tail[j] for j in range(self.n))

    def least(self, j, k):
        return min(m[2][k] for m in self.modes[j])

    def executable(self, j, m):
        d, requests, _ = self.modes[j][m]
        return d == 0 or all(q <= c for q, c in zip(requests, self.capacities))

    def affordable(self, placed, j, m):
        there = {a for a, _, _ in placed}
        for k, stock in enumerate(self.stocks):
            used = sum(self.modes[a][b][2][k] for a, b, _ in placed)
            rest = sum(self.least(i, k) for i in range(self.n) if i not in there and i != j)
            if used + self.modes[j][m][2][k] + rest > stock:
                return False
        return True

    def eligible(self, placed):
        there = {a for a, _, _ in placed}
        return [j for j in range(self.n) if j not in there and all(i in there for i in self.predecessors[j])]

    def finish(self, place):
        return place[2] + self.modes[place[0]][place[1]][0]

    def use(self, placed, r, t):
        return sum(self.modes[a][b][1][r] for a, b, s in placed if s <= t < s + self.modes[a][b][0])

    def earliest(self, placed, j, m, start):
        d, requests, _ = self.modes[j][m]
        start = max([start] + [self.finish(p) for p in placed if p[0] in self.predecessors[j]])
        while not all(self.use(placed, r, t) + q <= self.capacities[r]
                      for r, q in enumerate(requests) for t in range(start, start + d)):
            start += 1
        return start

    def makespan(self, placed):
        return max((self.finish(p) for p in placed), default=0)


def tree_nodes(p):
    """Yields of each node its place (without a start where it cannot be executed), whether it was placed, and the incumbent (a list of places, or None) after it."""
    best = [None]

    def level(placed):
        bound = placed[-1][2] if placed else 0
        for j in p.eligible(placed):
            for m in range(len(p.modes[j])):
                if not p.executable(j, m):
                    yield (j, m, None), False, best[0]
                    continue
                place = (j, m, p.earliest(placed, j, m, bound))
                known = best[0]
                late = known is not None and p.finish(place) + p.tail[j] >= p.makespan(known)
                if late or not p.affordable(placed, j, m):
                    yield place, False, known
                    continue
                deeper = placed + [place]
                if len(deeper) == p.n and (known is None or p.makespan(deeper) < p.makespan(known)):
                    best[0] = deeper
                yield place, True, best[0]
                if len(deeper) < p.n:
                    yield from level(deeper)

    yield from level([])


def tree(p):
    """Yields the incumbent after each node."""
    for _, _, best in tree_nodes(p):
        yield best


def node_line(p, place, placed, best):
    j, m, start = place
    times = "-" if start is None else f"{start}-{p.finish(place)}"
    return f"{j + 1}:{m + 1} {times} {'placed' if placed else 'pruned'} {'none' if best is None else p.makespan(best)}"


def words(seed):
    a, mask = 6364136223846793005, (1 << 64) - 1
    x = ((seed + 109) * a + 109) & mask
    while True:
        low = (((x >> 18) ^ x) >> 27) & 0xFFFFFFFF
        turn = x >> 59
        yield ((low >> turn) | (low << (32 - turn))) & 0xFFFFFFFF
        x = (x * a + 109) & mask


def draw(p, xs, word):
    greatest = max(p.lft[j] for j in xs)
    weights = [greatest - p.lft[j] + 1 for j in xs]
    x = word % sum(weights)
    for j, w in zip(xs, weights):
        if x < w:
            return j
        x -= w


def passes(p, choose, source):
    """Yields, node by node, None or the schedule that the pass completed at this node."""
    while True:
        placed, void = [], False
        for _ in range(p.n):
            first, second = next(source), next(source)
            if not void:
                j = choose(p.eligible(placed), first)
                allowed = [m for m in range(len(p.modes[j])) if p.executable(j, m) and p.affordable(placed, j, m)]
                if allowed:
                    m = mode_of(p, j, allowed, second)
                    placed = placed + [(j, m, p.earliest(placed, j, m, 0))]
                else:
                    void = True
            yield placed if not void and len(placed) == p.n else None


def mode_of(p, j, allowed, second):
    if second is None:
        return min(allowed, key=lambda m: (p.modes[j][m][0], m))
    return allowed[second % len(allowed)]


def nothing():
    while True:
        yield None


def search(p, kind):
    """Yields (best, closed, verdict) after each node. A search is over as soon as its best schedule is no longer than the bound."""
    for best, closed, verdict in all_nodes(p, kind):
        if best is not None and p.makespan(best) == p.bound:
            yield best, True, "optimal"
            return
        yield best, closed, verdict


def all_nodes(p, kind):
    """The same of a search that runs all its nodes, whatever it finds."""
    if kind == "tree":
        nodes = tree(p)
        best = next(nodes)
        for after in nodes:
            yield best, False, "open"
            best = after
        yield best, True, "optimal" if best else "infeasible"
    elif kind.startswith("rule:"):
        key = {"lft": lambda j: p.lft[j], "mts": lambda j: -p.mts[j], "spt": lambda j: p.shortest[j]}[kind[5:]]
        choose = lambda xs, _: min(xs, key=lambda j: (key(j), j))
        for k, found in enumerate(islice(passes(p, choose, nothing()), p.n), 1):
            yield found, k == p.n, "ended" if k == p.n else "open"
    else:
        best = None
        for found in passes(p, lambda xs, word: draw(p, xs, word), words(int(kind[7:]))):
            if found is not None and (best is None or p.makespan(found) < p.makespan(best)):
                best = found
            yield best, False, "open"


def shown(p, best):
    if best is None:
        return "none"
    of = {a: (b, s) for a, b, s in best}
    return " ".join([str(p.makespan(best))] + [f"{j + 1}:{of[j][0] + 1}:{of[j][1]}" for j in range(p.n)])


def read(path):
    """A well-formed .mm file; faults are not this program's matter."""
    lines = [line.split() for line in open(path)]
    at = lambda *head: next(i for i, w in enumerate(lines) if w[:len(head)] == list(head))
    count = lambda word: next(int("".join(w).split(":")[1].rstrip("RND")) for w in lines if w[:2] == ["-", word])
    try:
        n = next(int("".join(w).split(":")[1]) for w in lines if w[:1] == ["jobs"])
        r = count("renewable") if any(w[:2] == ["-", "renewable"] for w in lines) else 0
        k = count("nonrenewable") if any(w[:2] == ["-", "nonrenewable"] for w in lines) else 0
    except ValueError as fault:
        sys.exit(f"{path}: {fault}")
    numbers = lambda i: [int(w) for w in lines[i]]
    first = at("PRECEDENCE") + 2
    rows = [numbers(first + j) for j in range(n)]
    second = at("REQUESTS/DURATIONS:") + 2
    while lines[second] and lines[second][0].startswith("-"):
        second += 1
    modes = []
    for row in rows:
        modes.append([])
        for m in range(row[1]):
            w = numbers(second)
            w = w[1:] if m == 0 else w
            modes[-1].append((w[1], w[2:2 + r], w[2 + r:2 + r + k]))
            second += 1
    last = at("RESOURCEAVAILABILITIES:") + 2
    amounts = numbers(last) if r + k else []
    return Project(modes, [[s - 1 for s in row[3:]] for row in rows], amounts[:r], amounts[r:])


class Drawn:
    """Numbers for the random projects: x becomes (x * 1103515245 + 12345) modulo 2^31, and gives x div 2^16."""

    def __init__(self, seed):
        self.x = seed

    def below(self, n):
        self.x = (self.x * 1103515245 + 12345) % 2 ** 31
        return (self.x >> 16) % n


def random_project(drawn, activities=8, most_modes=3, durations=5):
    """1 to 8 activities, 1 to 3 modes of 0 to 4 periods, 0 to 2 resources of each sort, or smaller ones."""
    n, r, k = 1 + drawn.below(activities), drawn.below(3), drawn.below(3)
    modes, successors = [], []
    for j in range(n):
        modes.append([])
        for _ in range(1 + drawn.below(most_modes)):
            d = drawn.below(durations)
            requests = [drawn.below(4) for _ in range(r)]
            modes[-1].append((d, requests, [drawn.below(3) for _ in range(k)]))
        successors.append([s for s in range(j + 1, n) if drawn.below(4) == 0])
    return Project(modes, successors, [2 + drawn.below(4) for _ in range(r)], [drawn.below(3 * n) for _ in range(k)])


def digest(p, kind, most, h):
    """How many nodes there were, and a sum over what was shown after each: h becomes h * 31 + value modulo 2^32, where the
    values of a node are 0 without a best schedule, and otherwise 1 more than its makespan and then its modes and starts by
    rising activity; and last 1 where the search is closed, else 0."""
    nodes = 0
    for best, closed, _ in islice(search(p, kind), most):
        values = [0]
        if best is not None:
            of = {a: (b, s) for a, b, s in best}
            values = [p.makespan(best) + 1] + [x for j in range(p.n) for x in (of[j][0] + 1, of[j][1])]
        for value in values + [1 if closed else 0]:
            h = (h * 31 + value) % 2 ** 32
        nodes += 1
    return nodes, h


def group(drawn, n):
    """What the five kinds show of n projects, sampling with the seeds 0, 1 .. and for 4 passes, the tree for 400 nodes."""
    shown = [(0, 0)] * 5
    for i in range(n):
        p = random_project(drawn)
        kinds = [("tree", 400), ("rule:lft", 400), ("rule:mts", 400), ("rule:spt", 400), (f"sample:{i}", 4 * p.n)]
        for k, (kind, most) in enumerate(kinds):
            nodes, h = digest(p, kind, most, shown[k][1])
            shown[k] = (shown[k][0] + nodes, h)
    return shown


def largest():
    """202 activities, one after another, of 10 periods, with eight resources of each sort. The last has ten modes."""
    modes = [[(10, [1] * 8, [1] * 8) for _ in range(10 if j == 201 else 1)] for j in range(202)]
    return Project(modes, [[j + 1] if j < 201 else [] for j in range(202)], [1] * 8, [202] * 8)


def summed(h, *values):
    for value in values:
        h = (h * 31 + value) % 2 ** 32
    return h


def values(drawn, n):
    h = 0
    for _ in range(n):
        p = random_project(drawn)
        for j in range(p.n):
            h = summed(h, p.tail[j], p.lft[j], p.mts[j], p.shortest[j], *(p.least(j, k) for k in range(len(p.stocks))))
    return h


def board_steps(p, drawn, asked, h):
    """Twelve random questions about a partial schedule. What may come next is placed where it starts earliest."""
    placed = []
    for _ in range(12):
        j, m, start = drawn.below(p.n), drawn.below(3), drawn.below(10)
        m %= len(p.modes[j])
        can, may = p.executable(j, m), j in p.eligible(placed)
        h = summed(h, can, p.affordable(placed, j, m), may)
        if can and j not in [place[0] for place in placed]:
            asked += 1
            place = (j, m, p.earliest(placed, j, m, start))
            h = summed(h, place[2])
            if may:
                placed.append(place)
                h = summed(h, p.finish(place))
        h = summed(h, p.makespan(placed))
        if placed and drawn.below(6) == 0:
            placed.pop()
    return asked, h


def boards(drawn, n):
    asked, h = 0, 0
    for _ in range(n):
        asked, h = board_steps(random_project(drawn), drawn, asked, h)
    return asked, h


def breach(p, schedule):
    """0 and the makespan, or what is broken first: 2 mode, 3 precedence, 4 renewable, 5 nonrenewable, with its numbers. The first period in which too much is used is one
    in which an activity starts."""
    modes, starts = schedule
    for j in range(p.n):
        if not 1 <= modes[j] <= len(p.modes[j]):
            return 2, j + 1
    chosen = [p.modes[j][modes[j] - 1] for j in range(p.n)]
    ends = [start + mode[0] for start, mode in zip(starts, chosen)]
    for i, j in product(range(p.n), range(p.n)):
        if j in p.successors[i] and starts[j] < ends[i]:
            return 3, i + 1, j + 1
    for r, t in product(range(len(p.capacities)), sorted(set(starts))):
        if sum(mode[1][r] for j, mode in enumerate(chosen) if starts[j] <= t < ends[j]) > p.capacities[r]:
            return 4, r + 1, t
    for k, stock in enumerate(p.stocks):
        if sum(mode[2][k] for mode in chosen) > stock:
            return 5, k + 1
    return 0, max(ends)


def random_schedule(p, drawn):
    """Starts rise, so that precedence is often kept, and a mode is sometimes one that is not there."""
    modes, starts, start = [], [], 0
    for _ in range(p.n):
        odd, mode, step = drawn.below(40), drawn.below(2), drawn.below(5)
        modes.append(4 if odd == 0 else 1 + mode)
        start += step
        starts.append(start)
    return modes, starts


def schedules(drawn, n):
    feasible, h = 0, 0
    for _ in range(n):
        p = random_project(drawn)
        for _ in range(10):
            told = breach(p, random_schedule(p, drawn))
            feasible += told[0] == 0
            h = summed(h, *told)
    return feasible, h


def least(drawn, n):
    feasible, h = 0, 0
    for _ in range(n):
        p = random_project(drawn, 3, 2, 3)
        modes = product(*(range(1, 1 + len(ms)) for ms in p.modes))
        every = product(modes, product(range(p.horizon + 1), repeat=p.n))
        found = [told[1] for told in (breach(p, schedule) for schedule in every) if told[0] == 0]
        feasible += bool(found)
        h = summed(h, 1 + min(found) if found else 0)
    return feasible, h


def main():
    sums = {"values": values, "boards": boards, "schedules": schedules, "least": least}
    if sys.argv[1] in sums:
        print(sums[sys.argv[1]](Drawn(int(sys.argv[2])), int(sys.argv[3])))
        return
    if sys.argv[1] == "largest":
        kinds = ["tree", "rule:lft", "rule:mts", "rule:spt", "sample:0"]
        print([digest(largest(), kind, 205, 0) for kind in kinds])
        return
    if sys.argv[1] == "groups":
        drawn = Drawn(int(sys.argv[2]))
        for _ in range(int(sys.argv[3])):
            print("[" + ", ".join(f"({nodes}, {h})" for nodes, h in group(drawn, int(sys.argv[4]))) + "],")
        return
    p = read(sys.argv[2])
    if sys.argv[1] == "nodes":
        for node in tree_nodes(p):
            print(node_line(p, *node))
        return
    most = int(sys.argv[3]) if len(sys.argv) > 3 else None
    for k, (best, closed, verdict) in enumerate(islice(search(p, sys.argv[1]), most), 1):
        print(k, shown(p, best), "closed" if closed else "going", verdict)


if __name__ == "__main__":
    main()
