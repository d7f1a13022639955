#!/usr/bin/env python3
"""How the pages read: words, lines, the longest line, sentence and table cell of each, and the words that plain English leaves out.

Usage: words.py [--list] [PAGE ..]

Status 1 where a page is above its limits, which stand in one table below. --list prints each sentence, cell and line that is above.
A sentence ends at `.`, `?`, `!`, `:` or `;` before a space, at the end of a paragraph, of an item or of a cell. Blocks of code aren't read.
Text between backquotes counts as one word.
"""
import argparse
import re
import sys
from pathlib import Path

import house

NO_LIMIT = 10**9

# Page, or `*` for all others: lines, columns, words of a sentence, characters of a cell.
LIMITS = {
    "README.md": (120, 100, 25, 80),
    "docs/LAYERS.md": (NO_LIMIT, NO_LIMIT, 25, 240),
    "*": (NO_LIMIT, NO_LIMIT, 25, NO_LIMIT),
}

# Words that a plainer one replaces, and the one that replaces it.
PLAINER = {r"\bbut for\b": "except", r"\b(?:is|are|was|were) warned\b": "is written to standard error", r"\bbehind\b": "after"}

# Paragraphs and cells that are a formula: how they begin. None is so far.
EXCEPTED = ()


def pages():
    """The pages of the repository, as the words of a call name them."""
    found = [*house.TOP.glob("*.md"), *house.TOP.glob("docs/*.md"), house.TOP / "examples" / "README.md",
             *house.TOP.glob("bench/*.md"), *house.TOP.glob("fuzz/*.md"), *house.TOP.glob("tools/*.md")]
    return [str(page.relative_to(house.TOP)) for page in sorted(found)]


def plain(text):
    """The text of a line without links, marks and code: what is read aloud."""
    text = re.sub(r"!\[[^\]]*\]\([^)]*\)", "", text)
    text = re.sub(r"\[([^\]]*)\]\([^)]*\)", r"\1", text)
    text = re.sub(r"`[^`]*`", "code", text)
    return text.replace("**", "").replace("*", "")


def parts(text):
    """The paragraphs, items and cells of a page, in order, each with whether it is a cell."""
    block, fenced, found = [], False, []

    def flush():
        if block:
            found.append((" ".join(block), False))
            block.clear()

    for line in text.split("\n"):
        if line.startswith("```"):
            fenced = not fenced
            flush()
        elif fenced or line.startswith("    ") and not block:
            continue
        elif line.startswith("|"):
            flush()
            found += [(cell.strip(), True) for cell in re.split(r"(?<!\\)\|", line.strip().strip("|"))]
        elif not line.strip() or line.startswith("#"):
            flush()
        elif re.match(r"\s*(?:[-*]|\d+\.) ", line):
            flush()
            block.append(re.sub(r"^\s*(?:[-*]|\d+\.) ", "", line).strip())
        else:
            block.append(line.strip())
    flush()
    return found


def sentences(text):
    """The sentences of a paragraph or a cell."""
    return [one for one in re.split(r"(?<=[.?!:;])\)?\s+", plain(text)) if one.strip()]


def words(sentence):
    """The words of a sentence: what has a letter or a digit."""
    return [word for word in sentence.split() if re.search(r"\w", word)]


def judged(page):
    """What a page measures, and what of it is above its limits."""
    text = (house.TOP / page).read_text(encoding="utf-8")
    most_lines, most_columns, most_words, most_cell = LIMITS.get(page, LIMITS["*"])
    lines = text.rstrip("\n").split("\n")
    above = [f"{len(lines)} lines"] if len(lines) > most_lines else []
    above += [f"line {k}: {len(line)} columns" for k, line in enumerate(lines, 1) if len(line) > most_columns]
    counts = {"words": 0, "lines": len(lines), "columns": max(map(len, lines)), "sentence": 0, "cell": 0}
    for part, is_cell in parts(text):
        if is_cell:
            counts["cell"] = max(counts["cell"], len(part))
            if len(part) > most_cell:
                above.append(f"{len(part)} characters in a cell: {part}")
        for sentence in sentences(part):
            count = len(words(sentence))
            counts["words"] += count
            if part.startswith(EXCEPTED):
                continue
            counts["sentence"] = max(counts["sentence"], count)
            if count > most_words:
                above.append(f"{count} words: {sentence}")
    for word, better in PLAINER.items():
        many = sum(len(re.findall(word, plain(part), re.IGNORECASE)) for part, _ in parts(text))
        if many:
            above.append(f"{many} times {word.replace(chr(92) + 'b', '')}: {better} is plainer")
    return counts, above


def main():
    asked = argparse.ArgumentParser(description=__doc__, formatter_class=argparse.RawDescriptionHelpFormatter)
    asked.add_argument("--list", action="store_true")
    asked.add_argument("pages", nargs="*", metavar="PAGE")
    given, wrong = asked.parse_args(), 0
    print(f"{'page':28} {'words':>6} {'lines':>6} {'columns':>8} {'sentence':>9} {'cell':>6} {'above':>6}")
    for page in given.pages or pages():
        counts, above = judged(page)
        print(f"{page:28} {counts['words']:6} {counts['lines']:6} {counts['columns']:8} {counts['sentence']:9} {counts['cell']:6} {len(above):6}")
        if given.list:
            print("".join(f"    {one}\n" for one in above), end="")
        wrong += len(above)
    return 1 if wrong else 0


if __name__ == "__main__":
    sys.exit(main())
