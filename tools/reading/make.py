#!/usr/bin/env python3
"""Writes docs/READING.md: the definitions on which a public contract or a record of the theorems depends, and no others.

    make.py           writes the page
    make.py --check   compares it with what would be written; the last line is 'N passed, M failed'

From the `ensures` of every public entry and from the records of the theorems the names are followed through the `use` lines
of crates/*/specs. What each definition says is its line in the glossary at the head of its file. Refused, with a message:
an entry that has a `requires`; a definition to believe outside specs/, without a line in its glossary, or in front of one that
it uses; a file of specs/ that mixes definitions to believe with others; one whose first comment names no section of
docs/FORMAT.md; a name of the toolchain that KIT does not explain; a glossary's line that goes on one or two columns off; an
entry's clause that goes over several lines.
"""
import os
import re
import sys
from collections import namedtuple

ROOT = os.path.dirname(os.path.dirname(os.path.dirname(os.path.abspath(__file__))))
PAGE = 'docs/READING.md'
ENTRIES = [('wavelet', 'transform'), ('wavelet', 'undo'), ('region', 'region'), ('picture_mask', 'mask'), ('joining', 'join'), ('brightness', 'brightness'), ('samples', 'show'),
           ('level_picture', 'show_level'), ('samples', 'truncate'), ('encoder', 'write'), ('decoder', 'read'), ('cutter', 'cut'), ('header', 'body'),
           ('header_reader', 'read_header'), ('header', 'arrived'), ('showing', 'show_stream'),
           ('showing_limited', 'show_limited')]
THEOREMS = [('exactness', 'Demands', ['Demand2', 'Demand3', 'Arrived', 'SmallPicture', 'LampBrightness']), ('joining', 'Laws', ['Joining']),
            ('brightness', 'Laws', ['Brightness'])]
KIT = [
    ('ℕ, zero, suc', 'natural numbers; `suc n` is n + 1'),
    ('◌+◌, ◌*◌, ◌^◌, min, max', 'as usual, on natural numbers'),
    ('◌-◌', 'on natural numbers: 0 where the difference would be negative'),
    ('◌/◌, ◌%◌', 'quotient and remainder of natural numbers'),
    ('ℤ, pos, negsuc', 'whole numbers: `pos n` is n, `negsuc n` is −(n + 1)'),
    ('◌+ℤ◌, ◌-ℤ◌, ◌*ℤ◌, neg_ℤ, nat_abs', 'on whole numbers: sum, difference, product, −z, magnitude'),
    ('◌<◌, ◌≤◌', 'as statements'),
    ('ltb, leb, eqb', '<, ≤ and = of natural numbers, as truth values'),
    ('Bool, true, false, not, ◌&&◌, ◌||◌', 'truth values'),
    ('◌≡◌, ◌≢◌', 'is equal, is not equal; of functions, at every argument'),
    ('×', '`A × B`: both; `(x : A) × B`: there is an x of A with B. A record holds where all its fields do'),
    ('List, [], ◌∷◌, ◌++◌', 'lists: the empty one, one more in front, one behind the other'),
    ('length, replicate', 'the number of cells; n equal cells'),
    ('get_or', '`get_or l i o` is cell i of l, o past its end'),
    ('take, drop', 'the first n cells; the cells behind them'),
    ('Option, Some, None', 'a value, or none'),
    ('Result, Ok, Err', 'a value, or what was refused; a record `Result` of our own is told where it stands'),
    ('IfOk', '`IfOk r P`: where r is `Ok x`, P of x; of an `Err` it says nothing'),
]
LANGUAGE = '''`abbrev` and `unfoldable` begin a definition and say how the checker treats it; `λ x. e` is the function that gives e for x. A `use` of
`Rattle.grid.specs.Picture` is of `crates/grid/specs/Picture.antt`; `specs.declared.Kernel` is the type `Kernel` of the crate's `src/lib.rt`. In a
contract, `b.old` and `b.new` are what the buffer b holds before and after the call, `b.now` is what a buffer that is only read holds, and `result` is what
the call returns.'''
PROMISES = 'The records of demands 2 and 3, of what arrived, of the small picture, of joining and of brightness, and the contracts of demand 1, none of which has a `requires`.'
INNER = '''These files of `specs/` hold what only the contracts of inner functions, proofs and worked examples cite. No promise depends on them: a
wrong definition there can make a proof fail, not a promise hollow.'''


class Failure(Exception):
    pass


def read(path):
    with open(os.path.join(ROOT, path), encoding='utf-8') as file:
        return file.read()


def crates():
    """The crates in the order of crates.txt."""
    return [line.split(':')[0].split()[0] for line in read('crates.txt').split('\n') if ':' in line and not line.startswith('#')]


def uses(text):
    """Which module each name of a file comes from, and which module each alias stands for."""
    names, aliases = {}, {}
    for module, listed, alias in re.findall(r'^(?:ghost )?use ([^\s{;]+?)(?:\.\{([^}]*)\}| as (\w+));?$', text, re.M):
        if alias:
            aliases[alias] = module
        for name in filter(None, (n.strip() for n in listed.split(','))):
            names[name] = module
    return names, aliases


def words(text):
    """The words of a text, but for the fields of records: `pub NAME :`, `NAME = ..` and `.NAME`."""
    text = re.sub(r'^  pub \S+ :|(?<!\S)\S+ =(?= )', '', text, flags=re.M)
    return [word for word in re.findall(r'[^\s(){};,]+', text) if not word.startswith('.')]


Type = namedtuple('Type', 'path line said lines')


class Definition:
    def __init__(self, module, name, line, code):
        self.module, self.name, self.line = module, name, line
        self.text, self.lines, self.uses = '\n'.join(code), len(code), []


class Module:
    """A file of specs/: its definitions, its glossary and its `use` lines."""
    HEAD = re.compile(r'(?:abbrev |unfoldable )?(?:pub )?(?:record |data )?([^\s:({]+)\s*[:({]')

    def __init__(self, crate, name):
        self.crate, self.name, self.path = crate, name, f'crates/{crate}/specs/{name}.antt'
        text = read(self.path)
        self.names, self.aliases = uses(text)
        cited = re.search(r'docs/FORMAT\.md, ([^)]*)', text.split('\n--\n')[0])
        self.titles = re.findall(r'"([^"]*)"', cited[1]) if cited else []
        self.sayings = self.glossary(text)
        self.definitions = {}
        line = 1
        for block in re.split(r'(\n\n+)', text):
            source = block.split('\n')
            code = [l for l in source if l and not l.startswith(('--', 'use '))]
            if code and (found := self.HEAD.match(code[0])):
                self.definitions[found[1]] = Definition(self, found[1], line + source.index(code[0]), code)
            line += block.count('\n')

    def glossary(self, text):
        """NAME ARGUMENTS == WHAT, where WHAT may go on below where it began: what stands on either side, by name."""
        said, name, column = {}, None, 0
        for line in text.split('\nuse ')[0].split('\n'):
            if entry := re.match(r'--   ((\S+).*?) +== (.*)', line):
                name, column = entry[2], line.index('== ') + 3
                said[name] = [entry[1], entry[3]]
            elif name and re.match('--' + ' ' * (column - 2) + r'\S', line):
                said[name][1] += ' ' + line.strip('- ')
            elif name and re.match('--' + ' ' * (column - 4) + r' {0,4}\S', line):
                raise Failure(f'{self.path}: the line of {name} goes on at another column than it began')
            else:
                name = None
        return said


class Reader:
    """Follows names from the promises."""

    def __init__(self):
        self.modules = {}
        for crate in crates():
            lib = f'crates/{crate}/specs/Lib.antt'
            if os.path.exists(os.path.join(ROOT, lib)):
                for name in re.findall(r'^pub mod (\w+)', read(lib), re.M):
                    self.modules[crate, name] = Module(crate, name)
        # no `use` brings × in
        self.believed, self.types, self.kit = set(), {}, {'×'}

    def follow(self, text, names, aliases, local=None):
        """The definitions that a text names, and all that they depend on."""
        found = []
        for word in words(text):
            head, _, rest = word.partition('.')
            if rest and head in aliases:
                found.append(self.name(aliases[head], rest))
                continue
            # a field of what a definition without arguments gives
            word = head or word
            if local and word in local.definitions:
                found.append(self.define(local.definitions[word]))
            elif word in names:
                found.append(self.name(names[word], word))
            elif f'◌{word}◌' in names:
                self.kit.add(f'◌{word}◌')
        return [f for f in found if f]

    def name(self, module, name):
        place = re.fullmatch(r'Rattle\.(\w+)\.(.+)', module)
        own = place and place[1] in crates() and re.fullmatch(r'Rattle\.(\w+)\.specs\.(.+)', module)
        if not own:
            if place and place[1] in crates():
                raise Failure(f'{name} is to be believed and stands in {module}, not in specs/')
            self.kit.add(name)
            return None
        crate, inside = own[1], own[2]
        if inside.startswith('declared.'):
            self.type(crate, inside.split('.')[1])
            return None
        definitions = self.modules[crate, inside].definitions
        if name in definitions:
            return self.define(definitions[name])
        for holder in definitions.values():
            if re.search(rf'^  {re.escape(name)} :', holder.text, re.M):
                return self.define(holder)
        raise Failure(f'{name} is not in {self.modules[crate, inside].path}')

    def define(self, definition):
        if definition not in self.believed:
            self.believed.add(definition)
            module = definition.module
            found = self.follow(definition.text, module.names, module.aliases, module)
            definition.uses = [d for d in found if d is not definition]
        return definition

    def type(self, crate, name):
        """An enum or a struct of a crate's code, or of one that it uses, and those that it holds."""
        path = f'crates/{crate}/src/lib.rt'
        text = read(path)
        if other := re.search(rf'^use (\w+)::{name};', text, re.M):
            return self.type(other[1], name)
        found = re.search(rf'((?:^//[^\n]*\n)*)(?:^#\[[^\n]*\n)*(^pub (?:enum|struct) {name} \{{(.*?)^\}})', text, re.M | re.S)
        if not found or (crate, name) in self.types:
            return
        line = text[:found.start(2)].count('\n') + 1
        said = ' '.join(l.strip('/ ') for l in found[1].split('\n')).strip()
        self.types[crate, name] = Type(path, line, said, found[2].count('\n') + 1)
        for held in re.findall(r'\b[A-Z]\w+', found[3]):
            self.type(crate, held)

    def entry(self, crate, function):
        """The contract of a public entry: its file and line, and the definitions that it names."""
        path = f'crates/{crate}/src/lib.rt'
        text = read(path)
        found = re.search(rf'^pub (?:extern "C" )?fn {function}\(.*?^\{{', text, re.M | re.S)
        if not found:
            raise Failure(f'{path} has no entry {function}')
        if 'requires' in found[0]:
            raise Failure(f'{crate}::{function} has a requires')
        for result in re.findall(r'\) -> ([A-Z]\w+)\n', found[0]):
            self.type(crate, result)
        clauses = re.findall(r'^\s+ensures(?: \w+)? \{(.*)\}$', found[0], re.M)
        if len(clauses) != len(re.findall(r'^\s+ensures\b', found[0], re.M)):
            raise Failure(f'{crate}::{function} has a clause that goes over several lines')
        promised = ' '.join(clauses)
        return path, text[:found.start()].count('\n') + 1, self.follow(promised, *uses(text))

    def promises(self):
        """The records of the theorems and the contracts of the entries: name, file, line, definitions."""
        for crate, name, records in THEOREMS:
            for record in records:
                definition = self.define(self.modules[crate, name].definitions[record])
                yield record, definition.module.path, definition.line, definition.uses
        exported = re.findall(r'^pub extern "C" fn (\w+)', read('crates/interface/src/lib.rt'), re.M)
        for crate, function in ENTRIES + [('interface', function) for function in exported]:
            yield function, *self.entry(crate, function)


def files(reader):
    """The files of specs/ that hold what is to be believed, in reading order, and the others."""
    chosen, others = [], []
    for module in reader.modules.values():
        mine = [d for d in module.definitions.values() if d in reader.believed]
        rest = [d.name for d in module.definitions.values() if d not in reader.believed]
        if mine and rest:
            raise Failure(f'{module.path} also has what no promise depends on: {", ".join(rest)}')
        (chosen if mine else others).append(module)
    return chosen, others


def test(chosen, kit):
    """The rules that files to believe are held to."""
    sections = set(re.findall(r'^#+ (.*)', read('docs/FORMAT.md'), re.M))
    order = [d for module in chosen for d in module.definitions.values()]
    for module in chosen:
        if not module.titles or not set(module.titles) <= sections:
            raise Failure(f'{module.path} cites no section of docs/FORMAT.md, or one that is not there: {module.titles}')
        if silent := [name for name in module.definitions if name not in module.sayings]:
            raise Failure(f'{module.path} has no line for {", ".join(silent)} in its glossary')
    for at, definition in enumerate(order):
        if later := [d.name for d in definition.uses if order.index(d) > at]:
            raise Failure(f'{definition.name} uses {", ".join(later)}, which stand behind it')
    if unknown := kit - {name for names, _ in KIT for name in names.split(', ')}:
        raise Failure(f'the toolchain\'s {", ".join(sorted(unknown))}: KIT does not say what it is')


def table(*heads):
    return ['', '| ' + ' | '.join(heads) + ' |', '|' + '---|' * len(heads)]


def row(*cells):
    return '| ' + ' | '.join(cells) + ' |'


def escaped(text):
    return text.replace('|', '\\|')


def link(path, line, text):
    return f'[`{text}`](../{path}#L{line})'


def anchor(title):
    return f'[{title}](FORMAT.md#{title.lower().replace(" ", "-")})'


def head(chosen, types):
    definitions = [d for module in chosen for d in module.definitions.values()]
    return f"""# What one must believe

Made by `tools/reading/make.py` from the code; `.ci/run` fails where it is not current.

The checker proves that the code meets its contracts and that the theorems hold. It cannot say whether contracts and theorems say
what is wanted: that is for a reader, and this page leads to all of it. At its end stand the promises: the contracts of the entries and
the records of the theorems. Above them stand the definitions on which they depend, and no others: **{len(definitions)} definitions, {sum(d.lines for d in definitions)} lines**
in `specs/`, comments and blank lines not counted, and the {len(types)} types of the answers, {sum(t.lines for t in types)} lines in `src/`. They stand in reading order: each
uses only what stands above it, and the types. `docs/FORMAT.md` says the same in words; behind each file stands the section to
compare it with."""


def page():
    reader = Reader()
    promises = list(reader.promises())
    chosen, others = files(reader)
    test(chosen, reader.kit)
    types = sorted(reader.types.items(), key=lambda t: (crates().index(t[0][0]), t[1].line))
    out = [head(chosen, reader.types.values()), '', '## Symbols of the toolchain'] + table('names', 'meaning')
    for names, meaning in KIT:
        if used := [name for name in names.split(', ') if name in reader.kit]:
            out.append(row(' '.join(f'`{escaped(name)}`' for name in used), meaning))
    out += ['', LANGUAGE, '', '## The definitions']
    for module in chosen:
        lines = sum(d.lines for d in module.definitions.values())
        out += ['', f'**`{module.path}`**, {lines} lines. {", ".join(map(anchor, module.titles))}'] + table('definition', 'what it says')
        for definition in module.definitions.values():
            left, right = module.sayings[definition.name]
            out.append(row(link(module.path, definition.line, left), re.sub(':$', '; its fields: the first comment of the file', escaped(right))))
    out += ['', '## The types of the answers'] + table('type', 'what it is')
    out += [row(link(t.path, t.line, f'{crate}::{name}'), t.said) for (crate, name), t in types]
    out += ['', '## The promises', '', PROMISES] + table('promise', 'definitions that it names')
    out += [row(link(path, line, name), ', '.join(dict.fromkeys(f'`{d.name}`' for d in named))) for name, path, line, named in promises]
    out += ['', '## Definitions of inner contracts', '', INNER, '']
    out += [f'- `{module.path}`: {", ".join(f"`{name}`" for name in module.definitions)}' for module in others]
    return '\n'.join(out) + '\n'


def main():
    try:
        text = page()
    except Failure as failure:
        print(f'{PAGE}: {failure}')
        print('0 passed, 1 failed')
        return 1
    if sys.argv[1:] != ['--check']:
        with open(os.path.join(ROOT, PAGE), 'w', encoding='utf-8') as file:
            file.write(text)
        return 0
    current = os.path.exists(os.path.join(ROOT, PAGE)) and read(PAGE) == text
    print(f'{PAGE} is {"current" if current else "not current: run tools/reading/make.py"}')
    print('1 passed, 0 failed' if current else '0 passed, 1 failed')
    return 0 if current else 1


if __name__ == '__main__':
    sys.exit(main())
