#!/usr/bin/env python3
"""What a check of a crate spends its time on: the modules that took it longest.

    rm -r crates/NAME/out/incremental; (cd crates/NAME && rt check --jobs 1)
    tools/slow.py NAME [COUNT]     the COUNT longest (20), in seconds of wall time, and the sums by kind of module

A check saves each module as it ends with it; the time between two is taken for the later one's, so it has to be one check from
nothing, with one job. `F.Lts` is what the check of lifetimes makes of function F: long where much that has to be dropped is held
at many exits. `F.Proof` is the search for what the contract leaves, `F.Tie` what joins the two, `specs.` and other names below
`proofs.` are the crate's definitions and lemmas.
"""
import collections
import os
import sys

TOP = os.path.dirname(os.path.dirname(os.path.abspath(__file__)))
# A longer silence is one between two checks.
BETWEEN_CHECKS = 300


def saved(crate):
    """When each module was saved, and its name, in turn."""
    found = []
    for at, _, names in os.walk(f'{TOP}/crates/{crate}/out/incremental'):
        for name in names:
            if name.endswith('.oantt'):
                module = name.removesuffix('.oantt').removesuffix('.decls').removeprefix('Rattle-')
                found.append((os.stat(f'{at}/{name}').st_mtime, module))
    return sorted(found)


def main():
    if len(sys.argv) not in (2, 3):
        sys.exit(__doc__)
    crate, count = sys.argv[1], int((sys.argv[2:] or ['20'])[0])
    modules = saved(crate)
    if not modules:
        sys.exit(f'{crate}: no check has left anything in its out/incremental')
    took = [(end - start, name) for (start, _), (end, name) in zip(modules, modules[1:]) if end - start < BETWEEN_CHECKS]
    for seconds, name in sorted(took, reverse=True)[:count]:
        print(f'{seconds:7.1f}  {name}')
    kinds = collections.Counter()
    for seconds, name in took:
        kinds[name.rsplit('.', 1)[-1]] += seconds
    print('by kind: ' + ', '.join(f'{kind} {seconds:.0f}' for kind, seconds in kinds.most_common(8)))


if __name__ == '__main__':
    main()
