"""The least run of a pair's least difference, by another way than the program's: over sets of states, backwards from the difference, as
binary decision diagrams (Bryant, IEEE Transactions on Computers 35(8), 1986). It has no solver and no clause. For least_runs.py."""
import sys

import aiger

sys.setrecursionlimit(100000)


class Diagrams:
    """Functions of numbered variables, as nodes (variable, where it is 0, where it is 1). Nodes 0 and 1 are the constants."""

    LAST = 1 << 30

    def __init__(self):
        self.nodes, self.own, self.memo = [(self.LAST, 0, 0), (self.LAST, 1, 1)], {}, {}

    def node(self, variable, low, high):
        if low == high:
            return low
        key = (variable, low, high)
        if key not in self.own:
            self.own[key] = len(self.nodes)
            self.nodes.append(key)
        return self.own[key]

    def variable(self, v):
        return self.node(v, 0, 1)

    def halves(self, f, v):
        top, low, high = self.nodes[f]
        return (low, high) if top == v else (f, f)

    def choose(self, f, g, h):
        """g where f holds, and h elsewhere."""
        if f < 2:
            return g if f else h
        if g == h:
            return g
        if (g, h) == (1, 0):
            return f
        key = (f, g, h)
        if key not in self.memo:
            v = min(self.nodes[x][0] for x in key)
            lows, highs = zip(*(self.halves(x, v) for x in key))
            self.memo[key] = self.node(v, self.choose(*lows), self.choose(*highs))
        return self.memo[key]

    def negated(self, f):
        return self.choose(f, 0, 1)

    def both(self, f, g):
        return self.choose(f, g, 0)

    def either(self, f, g):
        return self.choose(f, 1, g)

    def unlike(self, f, g):
        return self.choose(f, self.negated(g), g)

    def some(self, f, from_on):
        """Whether some values of the variables from this one on, the last of the order, fit f."""
        memo = {}

        def walk(f):
            v, low, high = self.nodes[f]
            if v >= from_on:
                return 1 if f else 0
            if f not in memo:
                memo[f] = self.node(v, walk(low), walk(high))
            return memo[f]

        return walk(f)

    def put(self, f, values):
        """f with functions in place of its variables."""
        memo = {}

        def walk(f):
            if f < 2:
                return f
            if f not in memo:
                v, low, high = self.nodes[f]
                memo[f] = self.choose(values[v], walk(high), walk(low))
            return memo[f]

        return walk(f)

    def fixed(self, f, v, bit):
        """f with a bit in place of one variable."""
        memo = {}

        def walk(f):
            top, low, high = self.nodes[f]
            if top > v:
                return f
            if top == v:
                return high if bit else low
            if f not in memo:
                memo[f] = self.node(top, walk(low), walk(high))
            return memo[f]

        return walk(f)


class Pair:
    """Both sides on shared inputs: latch by latch a variable, left and right in turn, then the inputs."""

    def __init__(self, left, right):
        self.d = Diagrams()
        self.sides = (left, right)
        counts = [len(side.latches) for side in self.sides]
        most = max(counts)
        self.latches = [[2 * i + s for i in range(counts[s])] for s in (0, 1)]
        self.inputs = [2 * most + i for i in range(len(left.inputs))]
        self.steps, outputs = {}, []
        for side, latches in zip(self.sides, self.latches):
            values = self.values(side, latches)
            for v, (_, step, _) in zip(latches, side.latches):
                self.steps[v] = self.literal(values, step)
            outputs.append([self.literal(values, lit) for lit in side.outputs])
        for i in self.inputs:
            self.steps[i] = None
        self.apart = [self.d.unlike(a, b) for a, b in zip(*outputs)]

    def literal(self, values, lit):
        return self.d.negated(values[lit >> 1]) if lit & 1 else values[lit >> 1]

    def values(self, side, latches):
        values = {0: 0}
        values.update((lit >> 1, self.d.variable(v)) for lit, v in zip(side.inputs, self.inputs))
        values.update((row[0] >> 1, self.d.variable(v)) for row, v in zip(side.latches, latches))
        for own, a, b in side.gates:
            values[own >> 1] = self.d.both(self.literal(values, a), self.literal(values, b))
        return values

    def before(self, states):
        """The states and inputs that lead to some states."""
        return self.d.put(states, self.steps)

    def begins(self, states):
        """Those of the states in which a run can begin."""
        for side, latches in zip(self.sides, self.latches):
            for v, (_, _, reset) in zip(latches, side.latches):
                if reset != aiger.ANY:
                    states = self.d.both(states, self.d.variable(v) if reset else self.d.negated(self.d.variable(v)))
        return states

    def least(self, f, variables):
        """The first bits of these variables, in their order, that fit f, and f with them."""
        bits = []
        for v in variables:
            low = self.d.fixed(f, v, 0)
            bits.append(0 if low else 1)
            f = low or self.d.fixed(f, v, 1)
        return bits, f

    def distances(self, apart):
        """For 0, 1, 2 .. the states and inputs from which a difference is so many frames away."""
        while True:
            yield apart
            apart = self.before(self.d.some(apart, self.inputs[0] if self.inputs else Diagrams.LAST))


def least_difference(pair, depth):
    """The least frame and output at which some run differs."""
    d = pair.d
    any_apart = 0
    for apart in pair.apart:
        any_apart = d.either(any_apart, apart)
    for frame, from_here in zip(range(depth), pair.distances(any_apart)):
        if pair.begins(from_here):
            for output, apart in enumerate(pair.apart):
                own = next(f for t, f in enumerate(pair.distances(apart)) if t == frame)
                if pair.begins(own):
                    return frame, output
    return None


def least_run(pair, frame, output):
    """The bits of the least run of a difference in this frame and output, as a trace has them."""
    away = [f for _, f in zip(range(frame + 1), pair.distances(pair.apart[output]))]
    order = pair.latches[0] + pair.latches[1]
    state, _ = pair.least(pair.begins(away[frame]), order)
    bits = list(state)
    for left_over in range(frame, -1, -1):
        here = away[left_over]
        for v, bit in zip(order, state):
            here = pair.d.fixed(here, v, bit)
        row, _ = pair.least(here, pair.inputs)
        bits += row
        now = dict(zip(order + pair.inputs, state + row))
        state = [pair.d.put(pair.steps[v], now) for v in order]
    return "".join(map(str, bits))
