#!/usr/bin/env python3
"""Lists the places of the older style in crates/*/src, by point, for docs/DESIGN-PASS.md.

usage: tools/places.py [-q] [FOLDER]      -q prints the counts alone

A place is a line that a pattern finds; each has to be read, since a pattern finds harmless lines too. A place that is
kept has its reason in the source, in a comment beside it.
"""
import re
import sys
from pathlib import Path

ABSENCE = r'(Absent|Nothing|NoOperation|Other|None|Overflow|WrongType|Fault)'
POINTS = {
    '1 own enums of the shape of Option or Result': None,
    '1 numbers for kinds and refusals': [
        r'fn from_number\(', r'fn number\(self\) -> u(16|32)', r'number\(\) *[=!]= ', r'^\s+[0-9] => Some\((Scalar|Tariff)\w*::',
        r'\bt == [0-9]', r'AbstractInt\(z\), [0-9]\)', r'-> \(u16, u16\)', r'-> Option<u8>'],
    '1 an Option or Result taken apart to be made again': [
        r'None => Err\(', r'None => return Err\(', r'None => None', r'_ => None,$', r'else \{$\n\s+return (None|Err\()',
        r'is_none\(\) \{$\n\s+return Err'],
    '3 loops over numbers': [r'\bfor \w+ in [^{]*\.\.'],
    '3 other loops that count': [r'^\s+(q|at|n|i|k) \+= ', r'\bwhile '],
    '3 reads by index': [r'\w+\[\w+(\.\w+)*( as usize)?( [-+*] \w+)?\]\.?', r'\.get\(\w+ as usize\)'],
    '4 equality, conversion and printing by hand': [
        r'fn (have_same_type|are_equal|counts|measures|symbol|name|name_of|reason_name)\(', r'fn \w+_text\(', r'fn \w+_named\(',
        r'fn (scope_kind|declaration_kind|type_from_letter)\(', r'fn of_(option|result|stepped)\b', r'fn (from_number|number)\(',
        r'if let \w+::\w+ = ', r'matches!\('],
    '5 a fact in many requires': [r'^\s+requires \w* ?\{'],
    '6 tables, buffers and spans': [r'^(pub )?(static|const) \w+: \[', r': \[\w+(<\w+>)?; \d+\]', r'^\s+pub start: usize', r'\[None; \d+\]'],
    '7 a switch on which step to run': [r'\benum (Pass)\b', r'match pass\b'],
}


def sources(folder):
    return sorted(folder.glob('crates/*/src/**/*.rt'))


def enums(text):
    for m in re.finditer(r'enum (\w+)(<[^>]*>)? \{\n(.*?)\n\}', text, re.S):
        body = m.group(3)
        variants = re.findall(r'^    (\w+)( \{|\(|,)', body, re.M)
        payload = any(v[1] != ',' for v in variants)
        absent = [v[0] for v in variants if re.fullmatch(ABSENCE, v[0])]
        if payload and absent:
            yield text.count('\n', 0, m.start()) + 1, 'enum ' + m.group(1) + ': ' + ', '.join(absent)


def found(text, patterns):
    if patterns is None:
        yield from enums(text)
        return
    lines = text.split('\n')
    seen = set()
    for p in patterns:
        for m in re.finditer(p, text, re.M):
            n = text.count('\n', 0, m.start() + (len(m.group(0)) - len(m.group(0).lstrip('\n ')))) + 1
            line = lines[n - 1].strip()
            if n in seen or line.startswith('//') or line.startswith('ghost') or line.startswith('ensures') or line.startswith('#['):
                continue
            if line.startswith('requires') and not p.startswith(r'^\s+requires'):
                continue
            seen.add(n)
            yield n, line


def main():
    quiet = '-q' in sys.argv
    rest = [a for a in sys.argv[1:] if a != '-q']
    folder = Path(rest[0] if rest else '.')
    for name, patterns in POINTS.items():
        rows = [(f, n, s) for f in sources(folder) for n, s in sorted(found(f.read_text(), patterns))]
        print(f'{name}: {len(rows)}')
        if not quiet:
            for f, n, s in rows:
                print(f'    {f.relative_to(folder)}:{n}: {s[:110]}')


if __name__ == '__main__':
    main()
