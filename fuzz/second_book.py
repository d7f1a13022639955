"""A lemma book apart from the product's: what it answers to an entry, by the definition of a good entry.

Nodes are words: c, the constant true, i0, an input, a3 and b3, gates by their variables, x0, whether the outputs differ. A literal is
a node, or `-` and one. Entries are lists: merge N L STEPS, apart N L BITS, spent N L SEEN STEPS, out J STEPS, outapart J BITS,
outspent J SEEN STEPS. A step is (clause, hints); hints are a3.2, an axiom, e0.1, a clause of an entry, s0, an own step.
"""
import itertools

from propagation import closed


def negated(lit):
    return lit[1:] if lit.startswith("-") else "-" + lit


def node_of(lit):
    return lit.lstrip("-")


def simplified(lits):
    """The clause with the first of each repeated literal, or None for a tautology."""
    kept = list(dict.fromkeys(lits))
    return None if any(negated(lit) in kept for lit in kept) else kept


class SecondNet:
    """Two circuits: their nodes in order of position, what defines them, and their values."""

    def __init__(self, inputs, a, b):
        self.inputs, self.sides = inputs, {"a": a, "b": b}
        self.fanins, self.order = {}, ["c"] + [f"i{k}" for k in range(inputs)]
        for side, (gates, _) in self.sides.items():
            for var, left, right in gates:
                self.fanins[f"{side}{var}"] = (self.literal(side, left), self.literal(side, right))
                self.order.append(f"{side}{var}")
        self.outputs = [(self.literal("a", x), self.literal("b", y)) for x, y in zip(a[1], b[1])]
        self.position = {node: place for place, node in enumerate(self.order)}
        self.axioms = {node: self.made_axioms(node) for node in self.order}
        self.axioms.update({f"x{j}": self.xor_axioms(j) for j in range(len(self.outputs))})

    def literal(self, side, aiger):
        var, negative = divmod(aiger, 2)
        if var == 0:
            return "c" if negative else "-c"
        node = f"i{var - 1}" if var <= self.inputs else f"{side}{var}"
        return "-" + node if negative else node

    def made_axioms(self, node):
        if node == "c":
            return [["c"]]
        if node not in self.fanins:
            return []
        left, right = self.fanins[node]
        made = [["-" + node, left], ["-" + node, right], [node, negated(left), negated(right)]]
        return [clause for clause in map(simplified, made) if clause is not None]

    def xor_axioms(self, j):
        x, (a, b) = f"x{j}", self.outputs[j]
        made = [["-" + x, a, b], ["-" + x, negated(a), negated(b)], [x, negated(a), b], [x, a, negated(b)]]
        return [clause for clause in map(simplified, made) if clause is not None]

    def has_number(self, lit):
        return node_of(lit) in self.axioms

    def values(self, bits):
        """Each node's value on an input."""
        found = {"c": True, **{f"i{k}": bit for k, bit in enumerate(bits)}}
        for node, (left, right) in self.fanins.items():
            found[node] = value_in(found, left) and value_in(found, right)
        return found

    def rows(self):
        """Each node's values on all inputs."""
        every = [self.values(bits) for bits in itertools.product([False, True], repeat=self.inputs)]
        return {node: tuple(values[node] for values in every) for node in self.order}


def value_in(values, lit):
    return values[node_of(lit)] != lit.startswith("-")


def is_new(clauses, clause):
    known = {node_of(lit) for other in clauses for lit in other}
    if any(node_of(lit) not in known for lit in clause):
        return False
    for lit in clause:
        found = closed(clauses, [negated(other) for other in clause if other != lit], negated)
        if found is not None and lit not in found:
            return True
    return False


def step_fault(find, clause, hints):
    """(place of the hint from 1 or 0, cause) of the first fault of a step, or None."""
    true, ended = {negated(lit) for lit in clause}, False
    for place, hint in enumerate(hints, 1):
        named = find(hint)
        if named is None:
            return place, "NoClause"
        if ended:
            return place, "AfterFalse"
        if any(lit in true for lit in named):
            return place, "Satisfied"
        free = [lit for lit in named if negated(lit) not in true]
        if len(free) > 1:
            return place, "TwoFree"
        true.update(free)
        ended = not free
    return None if ended else (0, "NotFalse")


class SecondBook:
    """The entries so far over a net."""

    def __init__(self, net, sweep, out):
        self.net, self.sweep, self.out, self.entries = net, sweep, out, []

    def offer(self, entry):
        """The answer, as the product's types print it; a good entry is taken."""
        fault = self.fault_in(entry)
        if fault is None:
            self.entries.append(entry)
            return f"At({len(self.entries) - 1})"
        return fault

    def merge_of(self, node, seen=None):
        for place, entry in enumerate(self.entries[:seen]):
            if entry[0] == "merge" and entry[1] == node:
                return place, entry[2]
        return None

    def merge_clauses(self, place):
        _, node, lit, _ = self.entries[place]
        return [["-" + node, lit], [node, negated(lit)]]

    def settled(self, entry):
        for place, other in enumerate(self.entries):
            if entry[0] == "merge" and other[:2] == ["merge", entry[1]]:
                return place
            if entry[0].startswith("out") and other[0].startswith("out") and other[1] == entry[1]:
                return place
        return None

    def is_named(self, entry):
        steps = entry[-1] if entry[0] in ("merge", "spent", "out", "outspent") else []
        if any(not self.net.has_number(lit) for clause, _ in steps for lit in clause):
            return False
        if entry[0].startswith("out"):
            return entry[1] < len(self.net.outputs)
        return entry[1] in self.net.position and node_of(entry[2]) in self.net.position

    def is_apart(self, entry):
        bits = entry[-1]
        if len(bits) != self.net.inputs:
            return False
        values = self.net.values(bits)
        first, second = self.net.outputs[entry[1]] if entry[0] == "outapart" else entry[1:3]
        return value_in(values, first) != value_in(values, second)

    def shown(self, entry):
        """The clauses in which the steps must end."""
        if entry[0] == "merge":
            return [["-" + entry[1], entry[2]], [entry[1], negated(entry[2])]]
        return [[f"-x{entry[1]}"]]

    def fault_in(self, entry):
        """The first cause against the entry, in the definition's order; None where it is good."""
        kind = entry[0]
        if not self.is_named(entry):
            return "Bad(NoNode)"
        if self.settled(entry) is not None:
            return f"Already({self.settled(entry)})"
        if not kind.startswith("out") and self.net.position[node_of(entry[2])] >= self.net.position[entry[1]]:
            return "Bad(NotEarlier)"
        if kind in ("apart", "outapart"):
            return None if self.is_apart(entry) else "NotApart"
        steps, budget = entry[-1], self.out if kind.startswith("out") else self.sweep
        if kind in ("merge", "out"):
            shown = self.shown(entry)
            if [clause for clause, _ in steps[len(steps) - len(shown):]] != shown or len(steps) < len(shown):
                return "Bad(Shape)"
            return "Bad(Count)" if len(steps) > budget + 2 else self.fault_in_steps(steps, kind == "out")
        if len(steps) != budget:
            return "Bad(Count)"
        return "Bad(Seen)" if entry[-2] > len(self.entries) else self.fault_in_log(entry)

    def citable(self, hint, own, with_xors):
        """The clause that a hint of a Merge or an Out names."""
        if hint.startswith("s"):
            place = int(hint[1:])
            return own[place] if place < len(own) else None
        head, k = hint.split(".")
        if head.startswith("e"):
            place = int(head[1:])
            if place >= len(self.entries) or self.entries[place][0] != "merge":
                return None
            clauses = self.merge_clauses(place)
        else:
            clauses = [] if head.startswith("x") and not with_xors else self.net.axioms.get(head, [])
        return clauses[int(k)] if int(k) < len(clauses) else None

    def fault_in_steps(self, steps, with_xors):
        own = []
        for place, (clause, hints) in enumerate(steps):
            fault = step_fault(lambda hint: self.citable(hint, own, with_xors), clause, hints)
            if fault:
                return f"Bad(Step({place}, BadStep {{ hint: {fault[0]}, why: {fault[1]} }}))"
            own.append(clause)
        return None

    def cone(self, seen, nodes):
        """{hint: clause} of the cone of the nodes over the first entries."""
        found, due, reached = {}, list(nodes), set()
        while due:
            node = due.pop()
            if node in reached:
                continue
            reached.add(node)
            merge = self.merge_of(node, seen)
            if merge:
                found.update({f"e{merge[0]}.{k}": clause for k, clause in enumerate(self.merge_clauses(merge[0]))})
                due.append(node_of(merge[1]))
                continue
            found.update({f"{node}.{k}": clause for k, clause in enumerate(self.net.axioms[node])})
            fanins = self.net.outputs[int(node[1:])] if node.startswith("x") else self.net.fanins.get(node, ())
            due += map(node_of, fanins)
        return found

    def seeds(self, entry):
        return [f"x{entry[1]}"] if entry[0].startswith("out") else [entry[1], node_of(entry[2])]

    def fault_in_log(self, entry):
        base, own = self.cone(entry[-2], self.seeds(entry)), []
        for place, (clause, hints) in enumerate(entry[-1]):
            named = {**base, **{f"s{k}": other for k, other in enumerate(own)}}
            fault = step_fault(named.get, clause, hints)
            if fault:
                return f"Bad(Step({place}, BadStep {{ hint: {fault[0]}, why: {fault[1]} }}))"
            own.append(clause)
        for place, clause in enumerate(own):
            clauses = [*base.values(), *own[:place]]
            decided = entry[0] == "outspent" and closed(clauses, [f"x{entry[1]}"], negated) is None
            if decided or not is_new(clauses, clause):
                return f"Bad(NotNew({place}))"
        return None
