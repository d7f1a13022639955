"""Lemma files apart from the product's reader: which entries bytes spell, what a net takes of them, and the text of a book.

Entries, nodes and hints are written as in second_book.py.
"""
import re

from second_book import SecondBook

NUMBER = "(0|[1-9][0-9]*)"
INDEX = 2 ** 32
PLACE = 10 ** 18


class Fault(Exception):
    """Why bytes are no lemma file."""


def numbered(pattern, word, *limits):
    """The numbers of the word, if it has the pattern and each is below its limit."""
    found = re.fullmatch(pattern, word)
    if found is None:
        return None
    numbers = [int(text) for text in found.groups() if text is not None and text.isdigit()]
    return numbers if all(n < limit for n, limit in zip(numbers, limits)) else None


def is_node(word):
    return word == "c" or numbered(f"[iabx]{NUMBER}", word, INDEX) is not None


def is_literal(word):
    return is_node(word[1:] if word.startswith("-") else word)


def hint_of(word):
    """The hint as second_book.py writes it, or None."""
    found = numbered(f"#{NUMBER}/{NUMBER}", word, PLACE, 2)
    if found:
        return f"e{found[0]}.{found[1]}"
    found = numbered(f"@{NUMBER}", word, PLACE)
    if found:
        return f"s{found[0]}"
    if numbered(f"![ab]{NUMBER}", word, INDEX):
        return f"{word}.0"
    node, slash, k = word.partition("/")
    if slash and is_node(node) and numbered(NUMBER, k, 256) is not None:
        return f"{node}.{k}"
    return None


def step_of(words):
    """A step's clause and hints, or None."""
    if ";" not in words:
        return None
    at = words.index(";")
    clause, hints = words[:at], [hint_of(word) for word in words[at + 1:]]
    nodes = [lit.lstrip("-") for lit in clause]
    if not all(map(is_literal, clause)) or len(set(nodes)) < len(nodes) or None in hints:
        return None
    return [clause, hints]


def entry_of(words):
    """The entry that a first line begins, without its steps, or None."""
    if words[0] == "m" and len(words) == 3 and is_node(words[1]) and is_literal(words[2]):
        return ["merge", words[1], words[2], []]
    if words[0] == "o" and len(words) == 2 and numbered(NUMBER, words[1], INDEX):
        return ["out", int(words[1]), []]
    return None


def read(data):
    """The entries of a file."""
    *lines, rest = data.decode("latin-1").split("\n")
    entries, current = [], None
    for at, line in enumerate(lines, 1):
        words = line.split(" ")
        if at == 1:
            good = line == "lemmas 1"
        elif current is None:
            current = entry_of(words)
            good = current is not None
        elif line == ".":
            good = bool(current[-1])
            entries.append(current)
            current = None
        else:
            step = step_of(words[1:]) if words[0] == "s" else None
            good = step is not None
            current[-1].append(step)
        if not good:
            raise Fault(f"line {at}: bad line")
    if rest or current is not None or not lines:
        raise Fault(f"line {len(lines) + 1}: ends too early")
    return entries


def cited(hint):
    """The entry that a hint cites, or None."""
    return int(hint[1:].split(".")[0]) if hint.startswith("e") else None


def load(net, sweep, out, entries):
    """The book of those entries that can be taken."""
    book, numbers = SecondBook(net, sweep, out), {}
    for place, entry in enumerate(entries):
        hints = [hint for _, hints in entry[-1] for hint in hints]
        if any(cited(hint) is not None and cited(hint) not in numbers for hint in hints):
            continue
        steps = [[clause, [renewed(hint, numbers) for hint in hints]] for clause, hints in entry[-1]]
        if book.offer(entry[:-1] + [steps]).startswith("At"):
            numbers[place] = len(book.entries) - 1
    return book


def renewed(hint, numbers):
    return hint if cited(hint) is None else f"e{numbers[cited(hint)]}.{hint.split('.')[1]}"


def hint_text(hint):
    if hint.startswith("s"):
        return "@" + hint[1:]
    if hint.startswith("!"):
        return hint[:-2]
    return ("#" + hint[1:] if hint.startswith("e") else hint).replace(".", "/")


def text_of(entries):
    """The file of entries, all of them merges and equal outputs, as they are numbered."""
    lines = ["lemmas 1"]
    for entry in entries:
        lines.append(f"m {entry[1]} {entry[2]}" if entry[0] == "merge" else f"o {entry[1]}")
        lines += [" ".join(["s", *clause, ";", *map(hint_text, hints)]) for clause, hints in entry[-1]]
        lines.append(".")
    return "".join(line + "\n" for line in lines)
