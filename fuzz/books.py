#!/usr/bin/env python3
"""Random entries offered to lemma books of random pairs of circuits.

Usage: books.py [--runs N] [--seed N]

For each of N small pairs of circuits (200) entries are made that are good mostly: merges of equal nodes and outputs with steps found by
unit propagation and drawn lemmas, inputs on which nodes differ, and logs of new clauses. Some are then spoilt in a place or two: a
hint, a clause, a step, a node, an output, an input or the number of entries that were seen. A small program over the crate
lemma_book, built without proof in a folder that is given up, has each judged by one judge that it keeps, and offers it to its book.
What both answer must be what second_book.py answers by the definition, a second book that takes what it finds good. Status 1 where
any answer differs.
"""
import argparse
import random
import re

from pairs import random_circuit, rewritten
from propagation import closed
from rounds import SEED, Tally
import runner
from second_book import SecondBook, SecondNet, is_new, negated, node_of, simplified

USES = ["lits", "netlist", "unit_prop", "lemma_book", "netlist_edits", "keep_lemmas"]
OFFERS = 14


def drawn_net(rng):
    """Two circuits as (gates, outputs), the second mostly a rewriting of the first, and their number of inputs."""
    inputs = rng.randrange(1, 4)
    a = random_circuit(rng, inputs, rng.randrange(1, 3), rng.randrange(1, 8))
    b = rewritten(rng, a) if rng.random() < 0.8 else random_circuit(rng, inputs, len(a[1]), rng.randrange(1, 6))
    sides = [([(lhs // 2, left, right) for lhs, left, right in gates], outputs) for _, outputs, gates in (a, b)]
    return inputs, sides


def line_of_net(inputs, sides, sweep, out):
    parts = [f"net {sweep} {out} {inputs}"]
    for gates, outputs in sides:
        parts += [" ".join(f"{var} {left} {right}" for var, left, right in gates), " ".join(map(str, outputs))]
    return " : ".join(parts)


def line_of_entry(entry):
    head, body = " ".join(map(str, entry[:-1])), entry[-1]
    if entry[0] in ("apart", "outapart"):
        return f"{head}: " + "".join("1" if bit else "0" for bit in body)
    return f"{head}: " + "; ".join(f"{' '.join(clause)} by {' '.join(hints)}" for clause, hints in body)


def hints_for(named, clause):
    """Hints that make the clause a step over the named clauses, or None where unit propagation shows nothing."""
    true, hints, grown = {negated(lit) for lit in clause}, [], True
    while grown:
        grown = False
        for name, other in named.items():
            if any(lit in true for lit in other):
                continue
            free = [lit for lit in other if negated(lit) not in true]
            if len(free) <= 1:
                hints.append(name)
                true.update(free)
                grown = True
                if not free:
                    return hints
    return None


def drawn_clause(rng, nodes):
    lits = rng.sample(nodes, min(len(nodes), rng.randrange(1, 5)))
    return [rng.choice(["", "-"]) + node for node in lits]


def drawn_log(rng, named, count, given=()):
    """So many steps of new clauses over the named ones, where draws find them; `given` is not to clash before any."""
    nodes, log, named = sorted({node_of(lit) for clause in named.values() for lit in clause}), [], dict(named)
    for _ in range(60):
        if len(log) == count or not nodes:
            break
        clause = drawn_clause(rng, nodes)
        hints = hints_for(named, clause)
        if hints and is_new(named.values(), clause) and closed(named.values(), given, negated) is not None:
            named[f"s{len(log)}"] = clause
            log.append([clause, hints])
    return log


def shown_steps(rng, named, budget, shown):
    """Steps that end in the shown clauses: lemmas as they are needed, within the budget."""
    lemmas = []
    for _ in range(budget + 1):
        known = {**named, **{f"s{k}": clause for k, (clause, _) in enumerate(lemmas)}}
        last = []
        for clause in shown:
            hints = hints_for({**known, **{f"s{len(lemmas) + k}": other for k, (other, _) in enumerate(last)}}, clause)
            if hints is None:
                break
            last.append([clause, hints])
        if len(last) == len(shown):
            return lemmas + last
        lemmas += [[clause, hints] for clause, hints in drawn_log(rng, known, 1)]
    return None


def all_merges(book):
    merges = [place for place, entry in enumerate(book.entries) if entry[0] == "merge"]
    return {f"e{place}.{k}": clause for place in merges for k, clause in enumerate(book.merge_clauses(place))}


def good_merge(rng, book, rows):
    net = book.net
    gates = [node for node in net.order if node in net.fanins and not book.merge_of(node)] or list(net.fanins)
    if not gates:
        return None
    node = rng.choice(gates)
    flipped = tuple(not bit for bit in rows[node])
    equal = [other for other in net.order[:net.position[node]] if rows[other] in (rows[node], flipped)]
    if not equal:
        return None
    target = rng.choice(equal[:2])
    lit = ("-" if rows[target] == flipped else "") + target
    named = {**{f"{n}.{k}": c for n in net.order for k, c in enumerate(net.axioms[n])}, **all_merges(book)}
    steps = shown_steps(rng, named, book.sweep, [["-" + node, lit], [node, negated(lit)]])
    return steps and ["merge", node, lit, steps]


def good_out(rng, book, rows):
    net, output = book.net, rng.randrange(len(book.net.outputs))
    named = {**{f"{n}.{k}": c for n in net.axioms for k, c in enumerate(net.axioms[n])}, **all_merges(book)}
    steps = shown_steps(rng, named, book.out, [[f"-x{output}"]])
    return ["out", output, steps] if steps else None


def drawn_pair(rng, net):
    node = rng.choice(list(net.fanins) or net.order)
    return node, rng.choice(["", "-"]) + rng.choice(net.order[:max(1, net.position[node])])


def told_apart(rng, book, entry):
    """The entry with an input, by a few draws for one on which it is right."""
    for _ in range(6):
        entry[-1] = [rng.random() < 0.5 for _ in range(book.net.inputs)]
        if book.is_apart(entry):
            break
    return entry


def good_apart(rng, book, rows):
    return told_apart(rng, book, ["apart", *drawn_pair(rng, book.net), []])


def good_outapart(rng, book, rows):
    return told_apart(rng, book, ["outapart", rng.randrange(len(book.net.outputs)), []])


def good_spent(rng, book, rows):
    node, lit = drawn_pair(rng, book.net)
    seen = rng.randrange(len(book.entries) + 1)
    log = drawn_log(rng, book.cone(seen, [node, node_of(lit)]), book.sweep)
    return ["spent", node, lit, seen, log] if len(log) == book.sweep else None


def good_outspent(rng, book, rows):
    output, seen = rng.randrange(len(book.net.outputs)), rng.randrange(len(book.entries) + 1)
    log = drawn_log(rng, book.cone(seen, [f"x{output}"]), book.out, [f"x{output}"])
    return ["outspent", output, seen, log] if len(log) == book.out else None


MAKERS = [good_merge] * 4 + [good_out, good_apart] + [good_spent] * 3 + [good_outspent] * 2 + [good_outapart]


def drawn_node(rng, net):
    return rng.choice(net.order + net.order + ["x0", "x7", "i7", "a9", "b1"])


def drawn_hint(rng, book):
    names = [f"{drawn_node(rng, book.net)}.{rng.randrange(4)}", f"s{rng.randrange(3)}", f"e{rng.randrange(4)}.{rng.randrange(3)}"]
    return rng.choice(names)


def spoil_hints(rng, book, hints):
    place = rng.randrange(len(hints) + 1)
    kind = rng.randrange(4)
    if kind == 0 and place < len(hints):
        del hints[place]
    elif kind == 1 and hints:
        hints.insert(place, rng.choice(hints))
    elif kind == 2 and len(hints) > 1:
        rng.shuffle(hints)
    else:
        hints[place:place + rng.randrange(2)] = [drawn_hint(rng, book)]


def spoil_clause(rng, book, clause):
    if clause and rng.random() < 0.5:
        place = rng.randrange(len(clause))
        clause[place] = rng.choice([negated(clause[place]), drawn_node(rng, book.net)])
    elif rng.random() < 0.5:
        clause.append(rng.choice(["", "-"]) + drawn_node(rng, book.net))
    else:
        rng.shuffle(clause)


def spoil_steps(rng, book, steps):
    place = rng.randrange(len(steps) + 1)
    if place < len(steps) and rng.random() < 0.25:
        del steps[place]
    elif steps and rng.random() < 0.3:
        clause, hints = rng.choice(steps)
        steps.insert(place, [list(clause), list(hints)])
    elif steps:
        clause, hints = rng.choice(steps)
        if rng.random() < 0.7:
            spoil_hints(rng, book, hints)
        else:
            spoil_clause(rng, book, clause)


def spoil(rng, book, entry):
    """Changes the entry in one place, its steps or input mostly."""
    place = len(entry) - 1 if rng.random() < 0.6 else rng.randrange(1, len(entry))
    value = entry[place]
    if place == len(entry) - 1 and entry[0] in ("apart", "outapart"):
        entry[place] = value[:-1] if rng.random() < 0.5 else value + [True]
    elif place == len(entry) - 1:
        spoil_steps(rng, book, value)
    elif isinstance(value, int):
        entry[place] = value + rng.randrange(1, 3)
    else:
        entry[place] = ("-" if value.startswith("-") and place == 2 else "") + drawn_node(rng, book.net)


def nothing_new(rng, book, entry):
    """Puts a clause of the cone, or of the log, in the place of one of the log's, by steps that are right."""
    if entry[0] in ("spent", "outspent") and entry[-1]:
        named = book.cone(entry[-2], book.seeds(entry))
        place = rng.randrange(len(entry[-1]))
        named.update({f"s{k}": clause for k, (clause, _) in enumerate(entry[-1][:place])})
        name = rng.choice(sorted(named) or ["c.0"])
        entry[-1][place] = [list(named.get(name, ["c"])), [name]]


def whole_clauses(entry):
    """Whether no clause is a tautology, which the program's types rule out; repeated literals are dropped."""
    if entry[0] in ("apart", "outapart"):
        return True
    for step in entry[-1]:
        step[0] = simplified(step[0])
    return all(clause is not None for clause, _ in entry[-1])


def offers_to(rng, book):
    """Entries and the answers to them, in turn."""
    rows, made = book.net.rows(), []
    while len(made) < OFFERS:
        entry = rng.choice(MAKERS)(rng, book, rows)
        if entry is None and rng.random() < 0.8:
            continue
        entry = entry or good_apart(rng, book, rows)
        for _ in range(rng.choice([0, 0, 1, 1, 2])):
            spoil(rng, book, entry)
        if rng.random() < 0.25 and book.is_named(entry):
            nothing_new(rng, book, entry)
        if whole_clauses(entry):
            line = line_of_entry(entry)
            made.append((line, book.offer(entry)))
    return made


def main():
    parser = argparse.ArgumentParser(description=__doc__, formatter_class=argparse.RawDescriptionHelpFormatter)
    parser.add_argument("--runs", type=int, default=200)
    parser.add_argument("--seed", type=int, default=SEED)
    words = parser.parse_args()
    rng, tally, lines, expected = random.Random(words.seed), Tally(words.seed), [], []
    for _ in range(words.runs):
        inputs, sides = drawn_net(rng)
        sweep, out = rng.randrange(1, 3), rng.randrange(1, 3)
        net_line = line_of_net(inputs, sides, sweep, out)
        made = offers_to(rng, SecondBook(SecondNet(inputs, *sides), sweep, out))
        lines += [net_line] + [line for line, _ in made]
        expected += [(answer, f"{line} over {net_line}") for line, answer in made]
    answers = runner.answers("offers", USES, lines).splitlines()
    if len(answers) != len(expected):
        raise SystemExit(f"{len(answers)} answers to {len(expected)} entries")
    for answer, (right, what) in zip(answers, expected):
        cause = " ".join(word for word in re.findall("[A-Z][A-Za-z]+", right) if word not in ("Bad", "Step", "BadStep"))
        tally.add(cause, answer != right and f"{answer}, and not {right}: {what}")
    tally.end()


if __name__ == "__main__":
    main()
