#!/usr/bin/env python3
"""Counts the old forms that docs/DESIGN-PASS.md speaks of, in crates/*/src: old_forms.py [-l] [POINT ..]; -l lists each place."""
import collections
import glob
import itertools
import re
import sys

FUNCTION = re.compile(r'^( *)(?:pub(?:\([a-z]+\))? )?(?:extern "C" )?(?:const )?fn (\w+)', re.M)


def sources():
    for path in sorted(glob.glob('crates/*/src/**/*.rt', recursive=True)):
        yield path, open(path).read()


def functions():
    """Each function: its path and line, name, head (signature and clauses) and body."""
    for path, text in sources():
        starts = list(FUNCTION.finditer(text))
        for start in starts:
            indent = start.group(1)
            end = text.find('\n' + indent + '}\n', start.start())
            end = len(text) if end < 0 else end
            one = text[start.start():end]
            if one.split('\n')[0].rstrip().endswith('{'):
                head, body = one.split('{\n', 1) if '{\n' in one else (one, '')
            else:
                head, _, body = one.partition('\n' + indent + '{\n')
            yield '%s:%d' % (path, text.count('\n', 0, start.start()) + 1), start.group(2), head, body


def lines(pattern, flags=0, keep=lambda path, line: True):
    expression = re.compile(pattern, flags)
    for path, text in sources():
        for number, line in enumerate(text.split('\n'), 1):
            code = line.split('//')[0]
            if expression.search(code) and keep(path, line):
                yield '%s:%d: %s' % (path, number, line.strip())


def enums_like_results():
    """Enums with a variant for nothing, for a refusal or for a failure."""
    odd = re.compile(r'^\s*(Nothing|NotUnderstood|Refused|RefusedAt|Failed|Missing|End|Good|Bad|WellFormed|Written|Has|WrongLength|Broken)\b', re.M)
    for path, text in sources():
        for enum in re.finditer(r'^(?:pub )?enum (\w+)[^{]*\{(.*?)^\}', text, re.M | re.S):
            found = odd.findall(enum.group(2))
            if found:
                yield '%s: enum %s (%s)' % (path, enum.group(1), ', '.join(found))


def flag_values():
    """A value that stands for none: page 0, and constants beyond the range of what they stand among."""
    yield from lines(r'ControlPage\(0\)|\.0 == 0\b|\b(BROKEN|WRONG|NOT_READ|NO_NUMBER|WRONG_NUMBERS|NO_QUEUE|NONE)\b')


def numbers_for_kinds():
    """Constants that number kinds, and bool or number where a refusal is meant."""
    for path in ('crates/model/src/faults.rt', 'crates/model/src/refusals.rt', 'crates/model/src/instructions.rt'):
        try:
            text = open(path).read()
        except OSError:
            continue
        for name in re.findall(r'^pub const (\w+)', text, re.M):
            yield '%s: %s' % (path, name)


def skeleton(body):
    body = re.sub(r'//.*', '', body)
    body = re.sub(r'\b(let|mut|if|else|match|while|for|in|return|loop|true|false|continue|break|as)\b|[A-Za-z_][A-Za-z_0-9:]*|\d+', lambda m: m.group(1) or 'x', body)
    return re.sub(r'\s+', ' ', body).strip()


def twins():
    """Functions of five lines and more whose bodies differ only in names, constants and numbers."""
    groups = collections.defaultdict(list)
    for place, name, _, body in functions():
        if body.count('\n') >= 4:
            groups[skeleton(body)].append('%s %s' % (place, name))
    for members in groups.values():
        if len(members) > 1:
            for member in members:
                yield '%s (one of %d)' % (member, len(members))


def loops_by_hand():
    """Loops over an index or a count, and recursions by one."""
    yield from lines(r'\bwhile\b.*(<|<=|>|!=)')
    for place, name, _, body in functions():
        if re.search(r'\b%s\([^;]*?\b(left|count|i|rest|depth|queues) - 1' % name, body, re.S) or re.search(r'\b%s\([^;]*?, i\)' % name, body):
            yield '%s: recursion of %s by one' % (place, name)


def casts():
    """Conversions by `as`, where a From or a TryFrom says more."""
    yield from lines(r' as (u8|u16|u32|u64|usize|i32)\b')


def comparisons():
    """Comparisons of two values field by field."""
    yield from lines(r'\.0 == \w+\.0|\b\w+\.(\w+) == \w+\.\1\b')


def pieces():
    """Lines printed piece by piece."""
    yield from lines(r'\b(text|word|address|number|two|three|four|register)\(', keep=lambda path, line: re.search('crates/(screen|console|report|sheet)/', path))


def facts():
    """Parts of a `requires` that stand, but for the names of parameters, in three functions and more."""
    seen = collections.defaultdict(list)
    for place, name, head, _ in functions():
        types = dict(re.findall(r'(\w+): ([^,)]+)', re.split(r'\n? *(?:requires|ensures)', head)[0]))
        for clause in re.findall(r'requires \w* ?\{(.*?)\}\s*(?=requires|ensures|$)', head, re.S):
            for part in clause.split('×'):
                part = re.sub(r'\s+', ' ', part).strip().strip('()').strip()
                seen[re.sub(r'\b\w+\b', lambda m: types.get(m.group(0), m.group(0)), part)].append('%s %s: %s' % (place, name, part))
    for members in sorted(seen.values(), key=len, reverse=True):
        if len(members) > 2:
            yield from members


def travellers():
    """Functions with three parameters, by name and type, that come together in three functions and more."""
    together = collections.defaultdict(set)
    for place, name, head, _ in functions():
        given = sorted(set(re.findall(r'(\w+): ([^,)]+)', re.split(r'\n? *(?:requires|ensures)', head)[0])))
        for three in itertools.combinations(given, 3):
            together[three].add('%s %s' % (place, name))
    yield from sorted(set().union(*(members for members in together.values() if len(members) > 2)))


def lengths_beside():
    """A buffer with a place or a length beside it."""
    for place, name, head, _ in functions():
        signature = re.split(r'\n? *(?:requires|ensures)', head)[0]
        if re.search(r'(output|block|line|ahead|given|buffer|file|list|copied): &(mut )?\[u(8|16)\][^)]*\b(kept|at|left|begun|end|count|used|begin|from): (usize|u8)', signature, re.S):
            yield '%s %s' % (place, name)


def switches():
    """Which step comes next, told by a value that is matched on, and functions chosen by a number."""
    yield from lines(r'\bmatch (cursor|code|operation|shape|due|number|row|order|place|entered)\b|if (code|operation) == ')


def proofs():
    """Proofs by hand: files that walk the goals one by one, and files of answers."""
    for pattern in ('crates/*/proofs/**/Proof.antt', 'crates/*/proofs/**/Answers.antt'):
        yield from sorted(glob.glob(pattern, recursive=True))


POINTS = {
    '1a': enums_like_results, '1b': flag_values, '1c': numbers_for_kinds, '2': twins, '3': loops_by_hand, '4a': casts, '4b': comparisons, '4c': pieces,
    '5a': facts, '5b': travellers, '6': lengths_beside, '7': switches, '8': proofs,
}


def main():
    wanted = [word for word in sys.argv[1:] if word != '-l'] or list(POINTS)
    for point in wanted:
        places = list(POINTS[point]())
        print('%s: %d (%s)' % (point, len(places), POINTS[point].__doc__.split('.')[0].split('\n')[0]))
        if '-l' in sys.argv:
            for place in places:
                print('    ' + place)


main()
