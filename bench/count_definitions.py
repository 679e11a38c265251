#!/usr/bin/env python3
"""Counts the definitions that a reader has to believe: those of specs/ that a clause of a public call reaches.

usage: python3 bench/count_definitions.py [--list]   (at the top of the repository; --list names what nothing reaches)

A clause is a `requires` or an `ensures` of a public function or of a trait's method, a ghost member, or the `Value` of a model. A name in
it is looked up in the `ghost use` lines of its file, and from there on in the `use` lines of specs/. A definition's lines are those of
its signature and cases, without comments, imports and blank lines. Laws are counted apart: public functions that do nothing, whose
contract is a statement about definitions. What private contracts alone cite counts as not reached.
"""
import os
import re
import sys

HEAD = re.compile(r'(?:abbrev pub|unfoldable pub|pub abbrev|pub unfoldable|pub record|pub data|pub|abbrev|unfoldable|record|data) ([^\s{]\S*)')
WORD = re.compile(r"[^\s(){}\[\],;λ∥«»]+")


def text_of(path):
    with open(path, encoding='utf-8') as text:
        return text.read()


def crates():
    return sorted(line.split(':')[0].split()[0] for line in text_of('crates.txt').split('\n') if line.strip() and line[0] != '#')


def files(crate, part, ending):
    for folder, _, names in os.walk(f'crates/{crate}/{part}'):
        yield from (os.path.join(folder, name) for name in sorted(names) if name.endswith(ending))


def imports(uses):
    """What names and what modules the lines `path.{names}` and `path as alias` bring in."""
    names, modules = {}, {}
    for use in uses:
        braces = re.fullmatch(r'(Rattle\.\S+?)\.\{(.*)\}', use, re.S)
        if braces:
            for item in filter(None, map(str.strip, braces.group(2).split(','))):
                name, _, other = item.partition(' as ')
                names[other.strip() or name.strip()] = (braces.group(1), name.strip())
        else:
            plain = re.fullmatch(r'(Rattle\.\S+)(?: as (\S+))?', use)
            modules[plain.group(2) or plain.group(1).split('.')[-1]] = plain.group(1)
    return names, modules


class Module:
    """One file of specs/: the lines of each definition, the members of records and data, and what the file imports."""

    def __init__(self, path):
        self.lines, self.home = {}, {}
        uses, now, deep = [], None, 0
        for line in text_of(path).split('\n'):
            code = re.sub(r'(^|\s)--.*', '', line).rstrip()
            bare = code.strip()
            deeper = len(code) - len(code.lstrip())
            if not bare:
                now = now if line.strip() else None
            elif re.match(r'(pub )?use ', bare):
                uses += re.findall(r'use (Rattle\.[^;]+)', bare)
            elif re.match(r'(pub )?(mod|module) |infix', bare):
                now = None
            elif now and deeper > deep and re.match(r'(pub )?\S+ :', bare) and self.is_type(now):
                self.lines[now].append(code)
                self.home[re.match(r'(?:pub )?(\S+) :', bare).group(1)] = now
            elif HEAD.match(bare):
                now, deep = HEAD.match(bare).group(1), deeper
                self.lines[now] = [code]
            elif now:
                self.lines[now].append(code)
        self.names, self.modules = imports(uses)

    def is_type(self, name):
        return re.search(r'\b(record|data)\b', self.lines[name][0]) is not None


def clauses(path):
    """The texts of the clauses of public calls, each with its call and whether it is a law, and the `ghost use` lines of a source file."""
    source = re.sub(r'#\[cfg\(test\)\]\s*mod \w+;', '', text_of(path)).split('#[cfg(test)]')[0]
    uses = [re.sub(r'\s+', ' ', it) for it in re.findall(r'ghost use (Rattle\.[^;]+);', source)]
    found = [(it, '', False) for it in re.findall(r'ghost Value = \{([^}]*)\}', source)]
    outer, name, now, public = '', '', None, False
    for line in source.split('\n'):
        bare = line.strip()
        if bare.startswith('//'):
            continue
        if line and line[0] not in ' }':
            outer = line
        if re.match(r'(pub )?ghost \w+: \{', bare):
            found.append((bare, '', False))
        if re.match(r'(pub |pub\(crate\) )?(final |const |extern "C" )*fn ', bare):
            of_trait = re.match(r'(pub )?trait\b', outer) or re.match(r'impl\b.* for ', outer)
            name = re.search(r'fn (\w+)', bare).group(1)
            now, public = '', bare.startswith(('pub fn', 'pub const fn', 'pub extern "C" fn')) or (of_trait and line[0] == ' ')
        elif now is not None and (bare in ('{', '{}') or bare.endswith(';') and not now):
            if public:
                found.append((now, name, bare == '{}'))
            now = None
        elif now is not None and (now or bare.startswith(('requires', 'ensures'))):
            now += ' ' + bare
            if bare.endswith(';'):
                found.append((now, name, False))
                now = None
    return uses, found


class Walk:
    def __init__(self):
        self.modules = {'.'.join(['Rattle', *it[:-5].split('/')[1:]]): Module(it) for crate in crates() for it in files(crate, 'specs', '.antt')}

    def resolve(self, path, name):
        module = self.modules.get(path)
        if module is None:
            return None
        if name in module.lines:
            return path, name
        if name in module.home:
            return path, module.home[name]
        return self.resolve(*module.names[name]) if name in module.names else None

    def named(self, text, names, modules, own=None):
        for word in WORD.findall(text):
            head, *rest = word.split('.')
            if head in modules and rest:
                yield self.resolve(modules[head], rest[0])
            for name in (head, word, f'◌{word}◌'):
                if own:
                    yield self.resolve(own, name)
                if name in names:
                    yield self.resolve(*names[name])

    def reached(self, wanted):
        """What the clauses reach of which `wanted` says so, by their crate, their call and whether it is a law."""
        todo, seen = [], set()
        for crate in crates():
            for path in files(crate, 'src', '.rt'):
                uses, found = clauses(path)
                names, modules = imports(uses)
                for text, call, is_law in found:
                    if wanted(crate, call, is_law):
                        todo += filter(None, self.named(text, names, modules))
        while todo:
            path, name = todo.pop()
            if (path, name) not in seen:
                seen.add((path, name))
                module = self.modules[path]
                todo += filter(None, self.named('\n'.join(module.lines[name]), module.names, module.modules, path))
        return seen


def main():
    walk = Walk()
    program = walk.reached(lambda crate, call, is_law: (crate, call) == ('rd_run', 'run'))
    calls = walk.reached(lambda crate, call, is_law: not is_law) - program
    laws = walk.reached(lambda crate, call, is_law: is_law) - calls - program
    kinds = ['by `run`', 'by other calls', 'by laws alone', 'by neither']
    print('| Crate |' + ''.join(f' {it}: lines | definitions |' for it in kinds))
    print('|---|' + '---|' * 8)
    total = [0] * 8
    for crate in crates():
        row = [0] * 8
        for path, module in walk.modules.items():
            if not path.startswith(f'Rattle.{crate}.'):
                continue
            for name, lines in module.lines.items():
                at = next((i for i, it in enumerate((program, calls, laws)) if (path, name) in it), 3) * 2
                row[at] += len(lines)
                row[at + 1] += 1
                if at == 6 and '--list' in sys.argv:
                    print(f'    by neither: {path} {name}')
        total = [a + b for a, b in zip(total, row)]
        print(f'| `{crate}` | {" | ".join(map(str, row))} |')
    print(f'| all | {" | ".join(map(str, total))} |')


main()
