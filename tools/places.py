#!/usr/bin/env python3
"""Counts, in src/ of every crate, the places that docs/DESIGN-PASS.md speaks of, by patterns alone.

usage: tools/places.py [--list] [COMMIT]    the working tree, or the tree of a commit

A pattern finds candidates, not faults: the page says of each which were changed and which stay and why. Tests are left out.
"""
import re
import subprocess
import sys
from collections import Counter, defaultdict

args = [a for a in sys.argv[1:] if a != '--list']
show = '--list' in sys.argv
commit = args[0] if args else None


def run(*cmd):
    return subprocess.run(cmd, capture_output=True, text=True, check=True).stdout


def files():
    if commit:
        names = run('git', 'ls-tree', '-r', '--name-only', commit, 'crates').split('\n')
    else:
        names = run('git', 'ls-files', 'crates').split('\n')
    for name in sorted(names):
        if re.fullmatch(r'crates/\w+/src/.*\.rt', name) and not re.search(r'/tests\.rt$|_tests/', name):
            text = run('git', 'show', f'{commit}:{name}') if commit else open(name, encoding='utf-8').read()
            yield name, re.split(r'\n#\[cfg\(test\)\]\nmod \w+ \{', text)[0]


def bare(text):
    """The text without comments and without clauses, line breaks kept."""
    text = re.sub(r'//[^\n]*', '', text)
    return re.sub(r'^( *)(requires|ensures|ghost)\b[^\n]*', '', text, flags=re.M)


def functions(text):
    """Name, head with clauses, and body of each function."""
    for m in re.finditer(r'^( *)(?:pub(?:\(\w+\))? )?(?:final )?fn (\w+)', text, flags=re.M):
        indent = m.group(1)
        rest = text[m.start():]
        opens = re.search(r'(?:^|[ \n])\{\}?\n', rest)
        bodiless = re.search(r';\n', rest)
        if not opens or (bodiless and bodiless.start() < opens.start()):
            chunk = rest[:bodiless.end() if bodiless else len(rest)]
        else:
            end = re.search(rf'\n{indent}\}}\n', rest)
            chunk = rest[:end.end() if end else len(rest)]
        cut = re.search(rf'\n{indent}\{{\n|\) *(?:-> [^\n{{]*)?\{{\n|\{{\}}\n', chunk)
        head = chunk[:cut.end()] if cut else chunk
        yield m.group(2), text[:m.start()].count('\n') + 1, head, chunk[len(head):]


found = defaultdict(list)


def note(kind, name, line, what):
    found[kind].append((name.replace('crates/', '').replace('/src/', '/'), line, what))


sources = list(files())
facts = defaultdict(set)
groups = defaultdict(set)
for name, whole in sources:
    text = bare(whole)
    for m in re.finditer(r'fn (\w+)[^{;]*?-> Option<(?:SlotRefusal|Refusal|Fault)>', text, flags=re.S):
        note('1a an error handed out as an Option', name, text[:m.start()].count('\n') + 1, m.group(1))
    for m in re.finditer(r'fn (\w+)(?:<[^>]*>)?\(([^{;]*?)\) -> bool', text, flags=re.S):
        if '&mut' in m.group(2):
            note('1b a bool from a function that writes', name, text[:m.start()].count('\n') + 1, m.group(1))
    for pattern, what in [
        (r'Err\(\w+\) => (?:return )?Err\(', 'match'),
        (r'Err\(_\) => (?:return )?Err\(', 'match'),
        (r'if let (?:Some|Err)\(\w+\) = [^\n]*\{\n\s*return (?:Some|Err)\(', 'if let'),
        (r'Some\(\w+\) => (?:return )?(?:Some|Err)\(', 'match'),
    ]:
        for m in re.finditer(pattern, text):
            note('1c an error or an option passed on by hand', name, text[:m.start()].count('\n') + 1, what)
    for m in re.finditer(r'enum (\w+)', text):
        before = text[:m.start()].rstrip().split('\n')[-1] if 'derive' in text[max(0, m.start() - 80):m.start()] else ''
        derive = re.findall(r'#\[derive\(([^)]*)\)\]\s*(?:pub(?:\(\w+\))? )?$', text[:m.start()])
        if not derive or 'PartialEq' not in derive[-1]:
            note('1d an enum that cannot be compared', name, text[:m.start()].count('\n') + 1, m.group(1))
    for m in re.finditer(r'(\w+): bool\b|(\w+): \[bool; \w+\]', re.sub(r'fn [^{;]*', '', text)):
        note('1e a flag beside a value', name, 0, m.group(1) or m.group(2))
    for m in re.finditer(r'=> (?:true|false),', text):
        note('1f a match that answers true or false', name, text[:m.start()].count('\n') + 1, '')
    for m in re.finditer(r'\((\w+)(?:\.\w+)*(?: as usize)? \+ \(\w+(?: as usize)? - 1\)\) / \w+|\(\w+(?: as usize)? - 1\)\) / \w+', text):
        note('2a a quotient rounded up by hand', name, text[:m.start()].count('\n') + 1, m.group(0))
    for fname, line, head, body in functions(whole):
        pure = re.sub(r'//[^\n]*', '', body)
        for m in re.finditer(r'for (\w+) in ([^\n]*\.\.[^\n]*) \{\n(.*?)\n( *)\}', pure, flags=re.S):
            if re.search(rf'\[[^\]]*\b{m.group(1)}\b[^\]]*\]|\.number\({m.group(1)}\)', m.group(3)):
                note('3a a loop that counts an index', name, line + head.count('\n') + pure[:m.start()].count('\n'), f'{fname}: for {m.group(1)} in {m.group(2)}')
        for m in re.finditer(r'for (\w+|\([^)]*\)) in ([^\n]*) \{\n\s*if [^\n]*\{\n\s*return [^\n]*\n', pure):
            if '..' not in m.group(2):
                note('3b a search or a test of all by a loop', name, line + head.count('\n') + pure[:m.start()].count('\n'), fname)
        for clause in re.findall(r'^ *requires (?:\w+ )?\{ (.*) \}$', head, flags=re.M):
            for part in re.split(r' × (?![^()]*\))', clause):
                key = re.sub(r'\b(?:self|m|matrix|sums|reader|deal|slot)\.(?:now|old)', '*', part.strip('() '))
                key = re.sub(r'\.(?:now|old|entry)\b', '', key)
                facts[key].add(f'{name}:{fname}')
        params = re.sub(r'\s+', ' ', re.search(r'\((.*?)\)(?: ->|\n|\{|;| \{)', re.sub(r'//[^\n]*', '', head) + '\n', flags=re.S).group(1)) if '(' in head else ''
        names = re.findall(r'(\w+):', params)
        for a, b, c in [('t', 'n', 'rows'), ('store', 't', 'b'), ('m', 'rows', 'width'), ('store', 'b', 'i')]:
            if all(x in names for x in (a, b, c)):
                groups[(a, b, c)].add(f'{name}:{fname}')
    for m in re.finditer(r'\bas (?:u8|u16|u32|usize)\b', text):
        note('4a a number converted by as', name, text[:m.start()].count('\n') + 1, text[text.rfind('\n', 0, m.start()) + 1:text.find('\n', m.start())].strip())
    for m in re.finditer(r'\w+\.number != \w|\w+\.number == \w|a\.t == b\.t', text):
        note('4b an equality by hand', name, text[:m.start()].count('\n') + 1, m.group(0))
    for m in re.finditer(r'let (?:mut )?(\w+) = \[[^\]\n]*; (\w+)\];', text):
        note('6a an array of fixed length in a body', name, text[:m.start()].count('\n') + 1, m.group(1))
    for m in re.finditer(r'(\w+): \[\w+; (\w+)\],', text):
        note('6b an array of fixed length in a type', name, text[:m.start()].count('\n') + 1, m.group(1))
for key, where in facts.items():
    if len(where) >= 3:
        note('5a a fact that three or more functions require', 'crates/', 0, f'{key}  ({len(where)}: {", ".join(sorted(w.split("/")[1] + ":" + w.split(":")[1] for w in where))})')
for key, where in groups.items():
    if len(where) >= 2:
        note('5b parameters that travel together', 'crates/', 0, f'{", ".join(key)}  ({len(where)}: {", ".join(sorted(w.split("/")[1] + ":" + w.split(":")[1] for w in where))})')
for name, whole in sources:
    for m in re.finditer(r'// Stays: [^\n]*', whole):
        note('9 said to stay', name, whole[:m.start()].count('\n') + 1, m.group(0)[10:])

for kind in sorted(found):
    print(f'{len(found[kind]):4}  {kind}')
    if show:
        for name, line, what in found[kind]:
            print(f'        {name}{":" + str(line) if line else ""}  {what}')
