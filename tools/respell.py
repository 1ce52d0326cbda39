#!/usr/bin/env python3
"""Brings this repository's own names in specs/ and proofs/ to today's spelling, once, after port.py: lower-case names in snake case.

    tools/respell.py [--list]

A dash between two plain words and a capital inside a lower-case name become an underscore. Where a definition and a law about it would
fall together (`formOf` and `form-of`), the definition has the plain name and the law ends in `_lem`. Names that begin with a capital, names
of Rust source, comments that are English and names that the prover makes stay as they are.
"""
import collections
import re
import subprocess
import sys
from pathlib import Path

ROOT = Path(__file__).resolve().parent.parent
TOKEN = re.compile(r"[^\s(){}\[\],.;:\"λ←↦|@]+")
DECLARED = re.compile(r'^\s*((?:(?:abbrev|unfoldable|pub|data|record|ruleset)\s+)*)([^\s(){}:.;]+)\s+:\s')
# The first words of paths to modules that are not this repository's.
LIBRARIES = ['mathlib', 'lib', 'native', 'Prim', 'borrow', 'denote', 'base']
# Names whose words are not split by their letters alone.
BY_HAND = {'pad-getD': 'pad_get_or', 'to-T': 'to_T', 'from-T': 'from_T', 'in-T': 'in_T'}


def antt_files():
    return sorted(p for p in (ROOT / 'crates').rglob('*.antt') if 'out' not in p.parts)


def declared():
    """The names that specs/ and the lemma files of proofs/ declare."""
    names = set()
    for path in antt_files():
        if path.name == 'Proof.antt':
            continue
        for line in path.read_text().splitlines():
            if not line.lstrip().startswith('--') and (m := DECLARED.match(line)):
                names.add(m[2])
    return names


def snake(name):
    if name in BY_HAND:
        return BY_HAND[name]
    if not re.match(r"^[a-z][\w'₀-₉-]*$", name):
        return name
    name = name.replace('-', '_')
    return re.sub(r'([a-z0-9])([A-Z])', lambda m: f'{m[1]}_{m[2].lower()}', name)


def renamed():
    """Of each name that changes, the new one."""
    falls = collections.defaultdict(set)
    for name in declared():
        falls[snake(name)].add(name)
    new = {}
    for word, names in falls.items():
        camel = {n for n in names if re.search('[a-z0-9][A-Z]', n) and '-' not in n and n not in BY_HAND}
        first = camel or {n for n in names if n == word} or names
        assert len(first) == 1, (word, names)
        for name in names:
            to = word if name in first else f'{word}_lem'
            assert name in first or len(names) == 2, (word, names)
            if to != name:
                new[name] = to
    return new


def of_the_library(text):
    """What a file has of other modules than this repository's: names, and aliases of modules."""
    own = {p.name for p in (ROOT / 'crates').iterdir()}
    names, aliases = set(), set(LIBRARIES)
    for m in re.finditer(r'(?m)^(?:pub )?use (\S+?)(?:\.\{([^}]*)\}|(?: as (\S+))?$)', text):
        parts = m[1].split('.')
        if parts[0] == 'Rattle' and parts[1] in own:
            continue
        if m[2]:
            names |= {n.split(' as ')[-1].strip() for n in m[2].split(',')}
        else:
            aliases.add(m[3] or parts[-1])
    return names, aliases


def turned(text, new, library, every):
    """Each name that is the repository's own. A field that is a step of a walk through code gets no ending."""
    names, aliases = library
    def one(m):
        word = m[0]
        head = re.search(r"([\w'-]+)(\.[\w'-]+)*\.$", text[:m.start()][-200:])
        if word in names and not head or head and (head[1] in aliases or head[0].startswith('Rattle.std.')):
            return word
        to = new.get(word)
        if to is None:
            return snake(word) if re.match('[a-z]', word) and (every or '-' not in word) else word
        step = head and text[m.end():m.end() + 1] == '.' and not every
        return to.removesuffix('_lem') if step else to
    return TOKEN.sub(one, text)


def turned_antt(text, new, walk):
    library = of_the_library(text)
    camel = {n: to for n, to in new.items() if re.search('[a-z0-9][A-Z]', n) and '-' not in n}
    out = []
    for line in text.splitlines(keepends=True):
        code, said = line, ''
        if m := re.search(r'(^|\s)--(\s|$)', line):
            code, said = line[:m.start()], line[m.start():]
        if re.match(r'(pub )?use ', code):
            code = re.sub(r'\{[^}]*\}', lambda m: turned(m[0], new, library, not walk), code)
            code = re.sub(r' as ([a-z]\S*)$', lambda m: f' as {snake(m[1])}', code.rstrip('\n')) + code[len(code.rstrip('\n')):]
        else:
            code = turned(code, new, library, not walk)
        out.append(code + re.sub(r"\b[a-z][A-Za-z0-9]*\b", lambda m: camel.get(m[0], m[0]), said))
    return ''.join(out)


def turned_rt(text, new):
    """Source: a name with a capital inside is never Rust's. Strings stay."""
    def one(m):
        return m[0] if m[0][0] == '"' else new.get(m[0], snake(m[0]))
    return re.sub(r'"(?:\\.|[^"\\])*"|\b[a-z][a-z0-9]*[A-Z][A-Za-z0-9]*\b', one, text)


def main():
    new = renamed()
    if '--list' in sys.argv:
        for name, to in sorted(new.items()):
            print(name, to)
        return
    for path in antt_files():
        text = path.read_text()
        path.write_text(turned_antt(text, new, path.name == 'Proof.antt'))
    for path in sorted((ROOT / 'crates').rglob('*.rt')):
        if 'out' not in path.parts:
            path.write_text(turned_rt(path.read_text(), new))
    for crate in sorted((ROOT / 'crates').iterdir()):
        subprocess.run(['rt', 'fmt'], cwd=crate, stdout=subprocess.DEVNULL, check=False)


if __name__ == '__main__':
    main()
