#!/usr/bin/env python3
"""Writes crates/model/specs/Bytes.antt: every definition of the model by a short name at the memory that the code has; and, in the two files that compute
whole cases, the line that names every definition to open. With --check it changes nothing, and fails if one of the three is not what it writes. Run at
the root of the repository."""
import re
import sys

SPECS = 'crates/model/specs/'
# the files that compute cases, and what they open beside the model
CASES = {'crates/table/specs/Script.antt': 'same_words writes looks', 'crates/history/specs/Example.antt': 'writes'}
FILES = [line.split()[-1] for line in open(SPECS + 'Lib.antt') if line.startswith('pub mod')]
TYPES = {
    'Registers': 'declared.Registers', 'Arguments': 'declared.Arguments', 'Held': 'Told', 'Verdict': 'Told', 'Finding': 'Told',
    'Checked': 'Told', 'Entry': 'declared.Entry', 'Fit': 'Told', 'State': 'declared.State', 'Parts': 'declared.Parts', 'Said': 'Told',
    'Line': 'Told', 'Side': 'declared.Side', 'Context': 'declared.Context', 'Taken': 'Page', 'Tested': 'Mail', 'Lists': 'Lists', 'Outcome': 'Answer', 'Rule': 'Rule',
}


def unfolding():
    names = []
    for file in FILES:
        if file not in ('Same', 'Bytes', 'Rule', 'Coded'):
            found = re.findall(r'^\s*unfoldable pub (\S+) :', open(SPECS + file + '.antt').read(), re.M)
            names += ['%s.%s' % (file, x) for x in found]
    found = re.findall(r'^\s*unfoldable pub (\S+) :', open(SPECS + 'Rule.antt').read(), re.M)
    return names + ['Rule.' + x for x in found]


def short_names():
    uses, body, seen = [], [], {}
    for file in FILES:
        if file in ('Store', 'Same', 'Map', 'Rule', 'Bytes', 'Told', 'Coded'):
            continue
        parts = re.split(r'^module _ (.*) where$', open(SPECS + file + '.antt').read(), flags=re.M)
        found = []
        for params, text in zip(parts[1::2], parts[2::2]):
            if '(m : S.M)' not in params:
                found += re.findall(r'^  (?:unfoldable|abbrev) pub (\S+) : (.*)$', text, re.M)
        if file == 'Judge':
            found = [('well_formed', 'S.M → List ℕ → Lists → Rule'), ('judged', 'S.M → Bool')]
        if file == 'Classes':
            found = [('told_of', 'S.M → Finding')]
        for name, type_ in found:
            if name in seen:
                sys.exit('%s stands in %s and in %s' % (name, seen[name], file))
            seen[name] = file
            if name == 'Step':
                continue
            type_ = type_.replace('S.M', 'Memory').replace('(Memory)', 'Memory')
            type_ = re.sub(r'\bStep S\b', 'Step', type_)
            body.append('abbrev pub %s : %s\n%s = %s.%s bytes\n' % (name, type_, name, file, name))
        if found:
            uses.append('use Rattle.model.specs.%s as %s' % (file, file))
    text = '\n'.join(body)
    types = ['use Rattle.model.specs.%s.{%s}' % (TYPES[t], t) for t in TYPES if re.search(r'\b%s\b' % t, text)]
    head = [
        '-- The model at the memory that the code has, by short names: what contracts and laws cite. Written by tools/short_names.py.',
        'use Rattle.std.specs.Prelude.{ℕ, Bool, List}',
    ] + types + ['use Rattle.model.specs.Store.{bytes}'] + uses
    memory = ['', 'abbrev pub Memory : Type 0', 'Memory = bytes.M', '', 'abbrev pub Step : Type 0', 'Step = Answer.Step bytes', '']
    return '\n'.join(head + memory) + '\n' + text


def opened(file):
    """the file with its line of definitions to open written anew, if it names others than it must"""
    text = open(file).read()
    found = re.search(r'^( *)unfolding\n(?:\1    \S.*\n)+', text, re.M)
    if not found:
        sys.exit('%s has no line of definitions to open' % file)
    indent, names = found.group(1), unfolding() + CASES[file].split()
    if found.group().split()[1:] == names:
        return text
    lines, line = [], indent + '    '
    for name in names:
        if len(line) + len(name) > 148:
            lines.append(line.rstrip())
            line = indent + '    '
        line += name + ' '
    return text[:found.start()] + indent + 'unfolding\n' + '\n'.join(lines + [line.rstrip()]) + '\n' + text[found.end():]


def written():
    return dict([(SPECS + 'Bytes.antt', short_names())] + [(file, opened(file)) for file in CASES])


if '--check' in sys.argv:
    old = [file for file, text in written().items() if open(file).read() != text]
    for file in old:
        print(file + ' is older than the model: run python3 tools/short_names.py')
    sys.exit(1 if old else 0)
for file, text in written().items():
    open(file, 'w').write(text)
