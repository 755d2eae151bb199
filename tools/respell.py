#!/usr/bin/env python3
"""Brings the repository's own definitions and lemmas to one spelling: words in snake case.

Run once, at the top, after the kit's port.py. It renames what the files of specs/ and proofs/ define (definitions, lemmas,
fields, constructors) and what contracts cite of it; functions of src/, types, modules, and the names that Rattle makes
(goals, steps) keep theirs. With --list it only prints what it would do.
"""
import re
import sys
from pathlib import Path

TOP = Path(__file__).resolve().parent.parent if '--here' not in sys.argv else Path('.')
# what an identifier of antt may be made of
WORD = re.compile(r"[^\s(){}\[\].,;:«»⌜⌝|\"@?]+")
HEAD = re.compile(r"^(\s*)((?:pub|unfoldable|abbrev|infixl|infixr|infix|package)\s+)*([^\s(){}\[\].,;:«»]+(?:\s+[^\s(){}\[\].,;:«»]+)*)\s+:\s")
# Names that would fall together with another, or with a function of the same crate (a lemma of a function's name ends in `_lem`).
CHOSEN = {
    'agreement-keeps': 'agreement_keeps_lem',
    'covered-at-maximum': 'covered_at_maximum_lem',
    'covers-all': 'covers_all_lem',
    'lawful-within': 'lawful_within_lem',
    'paths-add-up': 'paths_add_up_lem',
    'reached-explains': 'reached_explains_lem',
    'record-binds': 'record_binds_lem',
    'weak-duality': 'weak_duality_lem',
    'rounded-up': 'quotient_up',
    'Ended-by': 'ended_by',
    'degOf': 'deg_of_node',
    'incOf': 'inc_of_node',
    'of-issuer': 'of_issuer_sum',
    'Sum': 'sum_over',
    'T-from': 'T-from',
}
# These words stand in the code too, but in another crate or in another kind of place, where nothing is mistaken.
APART = {'curve_of', 'held_lots', 'open_exposures', 'in_range', 'in_run', 'of_lot', 'path_fits'}
KEYWORDS = {'use', 'mod', 'module', 'where', 'open', 'record', 'data', 'let', 'in', 'elim', 'λ', 'mutual', 'unfolding'}


def files():
    for crate in sorted((TOP / 'crates').iterdir()):
        for part in ('specs', 'proofs'):
            yield from sorted((crate / part).rglob('*.antt')) if (crate / part).is_dir() else []


def sources():
    for crate in sorted((TOP / 'crates').iterdir()):
        yield from sorted((crate / 'src').rglob('*.rt'))


def strip(line):
    return line.split('--', 1)[0] if '-- ' in line or line.strip().startswith('--') else line


def defined():
    """The names that the files define, without those that answer a goal of Rattle's."""
    names, goals = {}, set()
    for path in files():
        for line in path.read_text().split('\n'):
            line = strip(line)
            m = re.match(r'^(?:pub )?(?:record|data) (\S+)', line)
            if m:
                names.setdefault(m.group(1), set()).add(str(path.relative_to(TOP)))
                continue
            m = HEAD.match(line + ' ')
            if not m:
                continue
            words = m.group(3).split()
            if words[0] in KEYWORDS:
                continue
            rest = line[m.end():].strip()
            if re.match(r'(goal|need)\.', rest) and m.group(1) == '':
                goals.update(words)
                continue
            for w in words:
                names.setdefault(w, set()).add(str(path.relative_to(TOP)))
    return names, goals


def aliases():
    """The names that imports give: `use .. as NAME`."""
    for path in [*files(), *sources()]:
        for line in path.read_text().split('\n'):
            if re.match(r'\s*(ghost )?use ', line):
                yield from ((w, str(path)) for w in re.findall(r' as ([a-zA-Z][\w\'-]*)', line))


def snake(name):
    if name in CHOSEN:
        return CHOSEN[name]
    if name[:1].isupper():
        return ''.join(w[:1].upper() + w[1:] for w in name.split('-'))
    new = re.sub(r'(?<=[a-z0-9])([A-Z])(?=[a-z]|$)', lambda m: '_' + m.group(1).lower(), name)
    return re.sub(r'(?<=[\w\'])-(?=[\w])', '_', new)


def renamed():
    names, goals = defined()
    for name, path in aliases():
        names.setdefault(name, set()).add(path)
    return {n: snake(n) for n in names if snake(n) != n and n not in goals and re.match(r"^[a-zA-Z][\w'-]*$", n)}, names, goals


def words_of(text):
    return set(WORD.findall(text))


def borrowed(text):
    """The names that a file takes from a library of the kit: these keep their spelling there."""
    own = {c.name for c in (TOP / 'crates').iterdir()}
    names = set()
    for module, braces in re.findall(r'^\s*(?:pub |ghost )*use ([^\s{]+)\.\{([^}]*)\}', text, re.M):
        parts = module.split('.')
        if parts[0] == 'Rattle' and len(parts) > 1 and parts[1] in own:
            continue
        for item in braces.split(','):
            names.update(w.strip() for w in item.split(' as ')[-1:])
            names.add(item.split(' as ')[0].strip())
    return names


def respelled(line, table):
    """The line with its names respelled; the word "Sum" of a remark stays."""
    remark = line.find('-- ')
    keeps = lambda m: m.group(0) == 'Sum' and 0 <= remark < m.start()
    return WORD.sub(lambda m: m.group(0) if keeps(m) else table.get(m.group(0), m.group(0)), line)


def main():
    table, names, goals = renamed()
    used = set()
    for path in [*files(), *sources()]:
        used |= words_of(path.read_text())
    together = {n: m for n, m in table.items() if m in used and m not in APART}
    both = {}
    for n, m in table.items():
        both.setdefault(m, []).append(n)
    if '--list' in sys.argv:
        for n, m in sorted(table.items()):
            print(f'{n} -> {m}' + ('   TOGETHER' if n in together else '') + ('   TWO ' + ' '.join(both[m]) if len(both[m]) > 1 else ''))
        print(len(table), 'names,', len(together), 'fall together')
        return
    if together or any(len(ns) > 1 for ns in both.values()):
        sys.exit('some names fall together: see --list')
    edits = [p for c in sorted((TOP / 'crates').iterdir()) if (c / 'must-fail').is_dir() for p in sorted((c / 'must-fail').glob('*.edit'))]
    changed = 0
    for path in [*files(), *sources(), *edits]:
        old = path.read_text()
        theirs = borrowed(old)
        own = {n: m for n, m in table.items() if n not in theirs}
        new = '\n'.join(respelled(line, own) for line in old.split('\n'))
        if new != old:
            path.write_text(new)
            changed += 1
    print(len(table), 'names in', changed, 'files')


if __name__ == '__main__':
    main()
