#!/usr/bin/env python3
"""Spells the repository's own definitions and lemmas as Rattle's library spells its own: words in snake case, as `page_of` and `nothing_lost`. It was run once,
behind the kit's port.py. Names of types, modules and Rust stay, and so do names that Rattle makes and those of the library. With --list it writes nothing,
and prints each old name with its new one. Run at the root of the repository."""
import collections
import glob
import re
import sys

NAME = r'[^\s(){}.;,@"«»:\[\]`]+'
DECLARED = re.compile(r'^ *(?:(?:abbrev|pub|unfoldable|record|data|ruleset)\s+)*(' + NAME + '(?: ' + NAME + r')*)(?: \{[^}]*\}| \([^)]*\))*\s+:(?=\s)', re.M)
USE = re.compile(r'\buse (\S+?)\.\{([^}]*)\}')
WORD = re.compile(r'(?<![\w\'′-])[A-Za-z][\w\'′-]*')
# names whose halves are no plain words, and the one fact that was spelled as a function
BY_HAND = {'means': 'Meant'}


def crates():
    return [line.split(':')[0] for line in open('crates.txt') if ':' in line and not line.startswith('#')]


def declaring():
    for crate in crates():
        yield from sorted(glob.glob('crates/%s/specs/**/*.antt' % crate, recursive=True) + glob.glob('crates/%s/proofs/*.antt' % crate))


def declared(text):
    return [name for names in DECLARED.findall(text) for name in names.split(' ')]


def spelled(name):
    name = BY_HAND.get(name, name).replace('getD', 'get_or')
    if name[0].isupper():
        return name
    return re.sub(r'(?<=[a-z0-9])[A-Z](?=[a-z0-9]|$)', lambda m: '_' + m[0].lower(), name).replace('-', '_')


def table():
    own = collections.defaultdict(set)
    for path in declaring():
        text = re.sub(r'--.*', '', open(path).read())
        for name in declared(text):
            own[name].add(path)
    rows, meets = {}, collections.defaultdict(set)
    for name in own:
        if re.match(r'(invariant|decreases)-', name):
            continue
        meets[spelled(name)].add(name)
        if spelled(name) != name:
            rows[name] = spelled(name)
    # where a lemma would get the name of a definition, it ends in _lem
    for new, olds in meets.items():
        if len(olds) > 1:
            definition = [o for o in olds if not re.search('[-_]', o)] or [o for o in olds if '_' in o]
            for old in olds - set(definition[:1]):
                rows[old] = new + '_lem'
            if len({rows.get(o, o) for o in olds}) < len(olds) or new + '_lem' in meets:
                sys.exit('these fall together: %s' % ' '.join(sorted(olds)))
    return {old: new for old, new in rows.items() if old != new}, own


def lent(text, path, own, names):
    """Names that this file has from elsewhere, and does not declare."""
    out = set()
    for module, items in USE.findall(text):
        parts = module.split('.')
        if parts[0] == 'Rattle' and parts[1] in names:
            continue
        out |= {item.split(' as ')[-1].strip() for item in items.split(',')}
    return {n for n in out if path not in own.get(n, ())}


def has(text, name):
    """Whether the text declares the name, or takes it from elsewhere: an underscored word may be Rust's where it does not."""
    return name in declared(text) or any(name in re.split(r'[\s,]+', items) for _, items in USE.findall(text))


def turned(text, rows, stay):
    return WORD.sub(lambda m: rows[m[0]] if m[0] in rows and m[0] not in stay else m[0], text)


def main():
    rows, own = table()
    names = crates()
    if sys.argv[1:] == ['--list']:
        for old in sorted(rows):
            print(old, rows[old])
        return
    camel = {old: new for old, new in rows.items() if not re.search('[-_]', old) and old not in BY_HAND}
    for path in sorted(glob.glob('crates/**/*', recursive=True)):
        if path.endswith('.antt'):
            text = open(path).read()
            # a quoted word of a comment is turned too, other words of it only where they can be nothing else
            lines = []
            stay = lent(text, path, own, names) | {old for old in rows if '_' in old and not has(text, old)}
            for line in text.split('\n'):
                code, dashes, said = line.partition('--') if re.search(r'(^|\s)--(\s|$)', line) else (line, '', '')
                lines.append(turned(code, rows, stay) + dashes + turned(said, camel, stay))
            new = '\n'.join(lines)
        elif path.endswith('.rt'):
            text = open(path).read()
            stay = lent(text, path, own, names)
            new = re.sub(r'(requires|ensures|ghost)\b.*|^.*\n?', lambda m: turned(m[0], rows, stay) if m[1] else turned(m[0], camel, stay), text, flags=re.M)
        elif path.endswith('.edit'):
            text = open(path).read()
            new = turned(text, {old: new for old, new in rows.items() if '_' not in old}, set())
        else:
            continue
        if new != text:
            open(path, 'w').write(new)
    # what the programs print stays
    prose = {old: new for old, new in rows.items() if '_' not in old and old != 'well-formed'}
    for path in ['README.md'] + sorted(glob.glob('docs/*.md') + glob.glob('crates/**/README.md', recursive=True)):
        text = open(path).read()
        new = re.sub(r'`[^`\n]*`', lambda m: turned(m[0], prose, set()), text)
        new = turned(new, camel, set())
        if new != text:
            open(path, 'w').write(new)


main()
