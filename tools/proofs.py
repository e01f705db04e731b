#!/usr/bin/env python3
"""Writes the short proof files of a crate from what `rt check` offers: tools/proofs.py CRATE [RULESET MODULE].

For each function that is not proved the check prints the lines of its Answers.antt, with a hole for each goal that it does not find by itself. This writes that
file, and where a hole stood `search (rules, RULESET)`, the ruleset being one of MODULE (as `calls` of `Rattle.kernel.proofs.Laws`). Without a ruleset the holes
stay, and `rt check --allow-holes` prints their goals. A file that is there is never written over, and where the check offers a file of invariants that is
left to whoever writes it. Run at the root of the repository, then check."""
import os
import re
import subprocess
import sys

OFFER = re.compile(r'^help: write (?:\./)?(proofs/\S+/Answers\.antt) with these lines')


def offers(text):
    """The files that the check offers: each path, relative to the crate, with its lines."""
    lines = text.split('\n')
    i = 0
    while i < len(lines):
        found = OFFER.match(lines[i])
        i += 1
        if found:
            body = []
            while i < len(lines) and (lines[i].startswith('    ') or not lines[i].strip()):
                body.append(lines[i][4:])
                i += 1
            yield found.group(1), body


def short(body, ruleset, module):
    """The offered lines with the ruleset in place of each hole, and without the comments that say whence a goal is."""
    body = [line for line in body if not line.startswith('--')]
    if ruleset:
        body = [re.sub(r' = \?\w*$', ' = search (rules, %s)' % ruleset, line) for line in body]
        body.insert(1, 'use %s.{%s}' % (module, ruleset))
    return re.sub(r'\n{3,}', '\n\n', '\n'.join(body)).strip('\n') + '\n'


def main():
    if len(sys.argv) not in (2, 4):
        sys.exit(__doc__)
    crate, ruleset, module = (sys.argv[1:] + [None, None])[:3]
    folder = os.path.join('crates', crate)
    told = subprocess.run(['rt', 'check'], cwd=folder, capture_output=True, text=True)
    written = 0
    for path, body in offers(told.stdout + told.stderr):
        path = os.path.join(folder, path)
        if os.path.exists(path):
            continue
        os.makedirs(os.path.dirname(path), exist_ok=True)
        with open(path, 'w') as file:
            file.write(short(body, ruleset, module))
        print('wrote', path)
        written += 1
    print('%d written; in %s now: rt fmt, rt check' % (written, folder))


if __name__ == '__main__':
    main()
