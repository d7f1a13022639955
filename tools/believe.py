#!/usr/bin/env python3
"""How much a reader must believe: the lines of definitions that a promise of docs/MODEL.md's first page reaches.

    tools/believe.py                     what MODEL.md says: each promise, EQUIVALENT without the written files, and that of `fraig`
    tools/believe.py --list IsEquivalent the definitions that it reaches, file by file (IsReducedTo: those of `fraig`;
                                         MeansEquivalent: those of plain words)
    tools/believe.py --check             fails where MODEL.md has other numbers

Counted are the definitions of this repository (crates/NAME/specs), each whole, and beside them the types of the code that they
name (crates/NAME/src). Not counted: imports, comments, blank lines, and the words of the library and of `clap`.
"""
import os
import re
import sys

TOP = os.path.dirname(os.path.dirname(os.path.abspath(__file__)))
HOME = 'cec_top/specs/Headline'
PROMISES = ['IsEquivalent', 'IsDifferent', 'IsUndecided', 'IsVerified']
FILES = ('LeavesFiles', 'RefutesMiter')
# What the two verdicts that need no book promise besides: of a run's earlier checks, of the books that are handed back, and of lemmas
# that are loaded and saved.
BESIDES = ('KeepsPromise', 'HandsBack', 'Loads', 'opening_text', 'BeginsOn', 'SavesUnder', 'Opening')
FORMATS = 'SpellsAiger'
# The page of a reduced circuit, and what it says of the book by which the circuit is reduced.
REDUCED_HOME = 'cec_top/specs/Reduced'
REDUCED = 'IsReducedTo'
BOOK = ('IsLegal', 'IsSwept', 'IsSweptAlone', 'IsReducedCircuit')
# The page of plain words: what a verdict means, what a run shows of it, and which words are plain. What a desk shows isn't counted,
# here as elsewhere.
PLAIN_HOME = 'cec_top/specs/Plain'
PLAIN = (('MeansEquivalent', PLAIN_HOME), ('RunMeans', PLAIN_HOME), ('PlainCheck', 'command_line/specs/PlainWords'))
PLAIN_FILES = ('LeavesProof', 'RefutesMiter')
DESK = ('DeskState',)
SAID = ('EQUIVALENT of plain words {} without the written files, of which {} are the two forms of AIGER, and {} with them; '
        'EQUIVALENT of all words {} and {}; DIFFERENT {}; UNDECIDED {}; VERIFIED {}; EQUIVALENT of `fraig` {}, and without what it '
        'says of the book {}.')

NAME = r"[A-Za-z_][\w'-]*"
SIGNED = re.compile(rf"^(?:(?:abbrev|unfoldable|pub) )*(?:record |data )?(◌\S+◌|{NAME}) *(?::|\(|\{{)")


def joined(lines):
    """Each `use` in one line."""
    out, open_use = [], ''
    for line in lines:
        if open_use or line.startswith(('use ', 'pub use ')):
            open_use += ' ' + line.strip()
            if open_use.count('{') == open_use.count('}'):
                out.append(open_use.strip())
                open_use = ''
        else:
            out.append(line)
    return out


class File:
    def __init__(self, path, text):
        self.path, self.names, self.modules, self.defs, self.owner = path, {}, {}, {}, {}
        block = None
        for line in joined(text.split('\n')):
            if line.startswith(('use ', 'pub use ')):
                self.imports(line)
                block = None
            elif not line.strip() or line.startswith(('--', 'infix', 'pub mod', 'mod ')):
                block = None if not line.strip() or line.startswith('--') else block
            else:
                block = self.line(line, block)

    def imports(self, line):
        m = re.match(r'(?:pub )?use (Rattle\.[\w.+-]+?)\.\{(.*)\}$', line)
        if m:
            for item in m.group(2).split(','):
                parts = item.strip().split(' as ')
                self.names[parts[-1]] = (m.group(1), parts[0])
            return
        m = re.match(r'(?:pub )?use (Rattle\.[\w.+-]+)(?: as (\S+))?$', line)
        if m:
            self.modules[m.group(2) or m.group(1).split('.')[-1]] = m.group(1)

    def line(self, line, block):
        m = SIGNED.match(line)
        begins = m and line.startswith(('pub ', 'abbrev ', 'unfoldable ')) or (m and block is None)
        if begins:
            block = m.group(1)
            self.defs[block] = []
            if ' data ' in ' ' + line.split(':')[0]:
                self.data = block
        if block:
            code = line.split(' -- ')[0]
            if not line.strip().startswith('--'):
                self.defs[block].append(code)
                m = re.match(rf'^  ({NAME}) :', line)
                if m and self.defs[block][0].lstrip('pub ').startswith('data '):
                    self.owner[m.group(1)] = block
        return block


def load():
    files = {}
    for root, _, names in os.walk(os.path.join(TOP, 'crates')):
        if '/specs' not in root or '/out' in root:
            continue
        for name in names:
            if name.endswith('.antt') and name != 'Lib.antt':
                path = os.path.relpath(os.path.join(root, name), os.path.join(TOP, 'crates'))[:-5]
                with open(os.path.join(root, name), encoding='utf-8') as f:
                    files[path] = File(path, f.read())
    return files


def type_lines(crate, name):
    """The lines of a struct or an enum of the code, without comments."""
    for root, _, names in os.walk(os.path.join(TOP, 'crates', crate, 'src')):
        for file in names:
            with open(os.path.join(root, file), encoding='utf-8') as f:
                text = f.read()
            m = re.search(rf'^(?:pub(?:\(crate\))? )?(?:struct|enum) {name}\b[^;{{]*(?:;|\{{.*?^\}}|\{{[^\n]*\}})', text, re.M | re.S)
            if m:
                return [l for l in m.group(0).split('\n') if l.strip() and not l.strip().startswith(('//', '#'))]
    return []


def place(module, name):
    """Where a module's name is defined: ('def', file, name), ('type', crate, type), or None for a library's."""
    parts = module.split('.')
    crate = parts[1]
    if not os.path.isdir(os.path.join(TOP, 'crates', crate)) or len(parts) < 3 or parts[2] != 'specs':
        return None
    if len(parts) > 3 and parts[3] == 'contracts':
        return None
    if len(parts) > 3 and parts[3] == 'declared':
        kinds = [p for p in parts[4:] if p[0].isupper() and p != 'TheVariants']
        if parts[-1] == 'TheConstants':
            return None
        return ('type', crate, kinds[-1] if kinds else name)
    return ('def', '/'.join(parts[1:]), name)


def targets(file, body):
    """The definitions and types that a definition names."""
    text = '\n'.join(body)
    text = re.sub(r'"[^"]*"', '""', text)
    found = []
    for m in re.finditer(rf"(?<![\w.'])({NAME})((?:\.{NAME})*)", text):
        head, rest = m.group(1), m.group(2)
        if head in file.names:
            found.append(place(*file.names[head]))
        elif head in file.modules and rest:
            found.append(place(file.modules[head], rest[1:].split('.')[0]))
        elif head in file.defs:
            found.append(('def', file.path, head))
        elif head in file.owner:
            found.append(('def', file.path, file.owner[head]))
    for symbol, at in [(n.strip('◌'), place(*v)) for n, v in file.names.items() if n.startswith('◌')]:
        if at and (symbol in text or symbol == '>>=' and re.search(r'\bdo\b', text)):
            found.append(at)
    for name in file.defs:
        symbol = name.strip('◌')
        if name.startswith('◌') and (symbol in text or symbol == '>>=' and re.search(r'\bdo\b', text)):
            found.append(('def', file.path, name))
    return [f for f in found if f]


def reach(files, root, stops=(), home=HOME):
    """Everything that the root reaches, with its lines."""
    seen, todo = {}, [('def', home, root)]
    while todo:
        at = todo.pop()
        if at in seen or at[2] in stops:
            continue
        if at[0] == 'type':
            seen[at] = type_lines(at[1], at[2])
            continue
        file = files.get(at[1])
        if file is None:
            continue
        name = at[2] if at[2] in file.defs else file.owner.get(at[2])
        if name is None:
            if at[2] in file.names:
                todo.append(place(*file.names[at[2]]) or at)
                seen[at] = []
            else:
                seen[at] = []
            continue
        at = ('def', at[1], name)
        if at in seen:
            continue
        seen[at] = file.defs[name]
        todo += targets(file, file.defs[name])
    return seen


def lines(seen, kind='def'):
    return sum(len(body) for at, body in seen.items() if at[0] == kind)


def plain(files, stops):
    """The lines of the page of plain words, and of all that it reaches."""
    seen = {}
    for root, home in PLAIN:
        seen.update(reach(files, root, (*stops, *DESK), home))
    return lines(seen)


def main(args):
    files = load()
    if args[:1] == ['--list']:
        homes = [home for home in (HOME, REDUCED_HOME, PLAIN_HOME) if args[1] in files[home].defs]
        if not homes:
            print(f'{args[1]} is no definition of {HOME}, {REDUCED_HOME} or {PLAIN_HOME}')
            return 1
        seen = reach(files, args[1], home=homes[0])
        for kind, where, name in sorted(k for k in seen if seen[k]):
            print(f'{len(seen[(kind, where, name)]):4} {where} {name}')
        return 0
    without = lines(reach(files, 'IsEquivalent', (*FILES, *BESIDES)))
    of_plain = plain(files, PLAIN_FILES)
    formats = of_plain - plain(files, (*PLAIN_FILES, FORMATS))
    stops = {'IsEquivalent': BESIDES, 'IsDifferent': BESIDES}
    reduced = [lines(reach(files, REDUCED, without_these, REDUCED_HOME)) for without_these in ((), BOOK)]
    said = SAID.format(of_plain, formats, plain(files, ()), without, *(lines(reach(files, root, stops.get(root, ()))) for root in PROMISES), *reduced)
    print(said)
    if args[:1] == ['--check']:
        with open(os.path.join(TOP, 'docs', 'MODEL.md'), encoding='utf-8') as f:
            return int(said not in ' '.join(f.read().split()))
    return 0


if __name__ == '__main__':
    sys.exit(main(sys.argv[1:]))
