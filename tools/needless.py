#!/usr/bin/env python3
"""Takes out of a crate's proofs the answers that the check finds alone.

usage, in a crate's folder, with everything committed: tools/needless.py [--dry]

All answers are set aside and the crate is checked once with open goals allowed. What the check leaves open gets its answer back, the others go.
Goals that the check did not try, since a callee was not proved, keep their answers; so run it again until it says 0.
"""
import os
import re
import subprocess
import sys

dry = '--dry' in sys.argv
old = {}
for root, _, names in os.walk('proofs'):
    for name in names:
        path = os.path.join(root, name)
        if name == 'Answers.antt' and root != 'proofs':
            old[path] = open(path, encoding='utf-8').read()


def blocks(text):
    """The file in pieces: (name of the goal or None, text)."""
    lines = text.split('\n')
    out, current, name = [], [], None
    for line in lines:
        if line and not line[0].isspace():
            m = re.match(r'(?:abbrev )?pub ([^\s:]+) : goal\.', line)
            word = line.split(' ')[0]
            if m:
                out.append((name, current))
                name, current = m.group(1), []
            elif name is not None and word != name:
                out.append((name, current))
                name, current = None, []
        current.append(line)
    out.append((name, current))
    return [(n, b) for n, b in out if b]


for path in old:
    os.remove(path)
log = subprocess.run(['rt', 'check', '--allow-holes'], capture_output=True, text=True)
log = log.stdout + log.stderr
opens, untried = {}, set()
for line in log.split('\n'):
    m = re.match(r'fn (\S+): no proof: (.*)', line)
    if m:
        where = re.search(r'answers in (\./proofs/\S+/Answers\.antt)', line)
        goals = re.search(r'did not prove ((?:`[^`]*`(?:, | and )?)+)', line)
        if where and goals:
            opens.setdefault(where.group(1)[2:].rstrip(';'), set()).update(re.findall(r'`([^`]*)`', goals.group(1)))
        if 'it calls' in line:
            untried.add(m.group(1))
    m = re.search(r"`search` has not tried the goals of (.*?), which wait", line)
    if m:
        untried.update(re.findall(r'`([^`]*)`', m.group(1)))
crate = os.path.basename(os.getcwd())


def path_of(function):
    return 'proofs/' + '/'.join(function.split('::')[1:]) + '/Answers.antt'


waiting = {path_of(f) for f in untried}
gone = kept = 0
for path, text in sorted(old.items()):
    goals = opens.get(path, set())
    pieces = blocks(text)
    left = []
    for name, body in pieces:
        if name is None:
            left.append((name, body))
            continue
        need = path in waiting or any(g == name or g.startswith(name + '-') or name.startswith(g + '-') for g in goals)
        if need:
            kept += 1
            left.append((name, body))
        else:
            gone += 1
            print(f'needless: {path}: {name} ({len([l for l in body if l.strip()])} lines)')
    os.makedirs(os.path.dirname(path), exist_ok=True)
    if dry or len(left) == len(pieces):
        open(path, 'w', encoding='utf-8').write(text)
    elif any(n for n, _ in left):
        open(path, 'w', encoding='utf-8').write('\n'.join('\n'.join(b) for _, b in left).rstrip('\n') + '\n')
print(f'{crate}: {gone} needless, {kept} kept, {len(waiting)} functions not tried')
