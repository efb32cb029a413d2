#!/usr/bin/env python3
"""Lists the places in crates/*/src that are written in an older form, point by point, as docs/DESIGN-PASS.md counts them.

    tools/places.py [--list] [FOLDER]

Each point has named patterns over the text of a file. A place is a match of a pattern; a pattern that looks at the whole
crate (code that stands twice) counts each further copy.
"""
import collections
import pathlib
import re
import sys

# point -> name of the pattern -> regular expression
PATTERNS = {
    1: {
        'an enum with a case for nothing': r'enum \w+ \{\s*(?://[^\n]*\n\s*)?(?:Empty|Nothing|Absent|Missing)\b',
        'None or Err handed on by let-else': r'let (?:Some|Ok)\([^)]*\) = [^;{]*? else \{\s*return (?:None|Err\([^;]*\));',
        'an error that is matched and wrapped again': r'Err\(\w+\) => (?:return Err\(|Response::Refused)',
        'Some or None by an if': r'\} else \{\s*None\s*\}',
        'flags kept beside values': r'\b(?:linked|members): (?:\[bool; \d+\]|BitSet<\d+>)',
        'a flag passed with the value that it is for': r'\b(?:stays|wait): bool, \w+: bool',
        'a number for a kind': r'const (?:COMPACT|FULL): u64 = \d;|\bform: (?:COMPACT|FULL)\b|form: u64,\n    pub word: u64,\n\}\n\nimpl PlainEntry',
        'a number that stands for no node': r'(?:>=|<) 256\b|\[320\]',
        'a bool by matching every case': r'=> true,\s*\w[^}]*=> false,|=> false,\s*\w[^}]*=> (?:true|false|own\.number)',
    },
    3: {
        'a range that indexes an array': r'for \w+ in [\w.+ ]+\.\.=?[\w.()]+ \{\s*(?:if )?(?:let \w+ = )?self\.\w+\[|for (\w+) in [\w.+ ]+\.\.[\w.()]+ \{\s*\w+\[\1\]|for \w+ in 0\.\.512usize',
        'an index that is returned from a loop': r'for \(\w+, \w+\) in [^{]*enumerate\(\) \{\s*if [^{]*\{\s*return ',
        'a loop that returns the first that passes': r'for \w+ in [^{]*\{\s*if [^{]*\{\s*return ',
        'a counter beside a loop': r'(?:\n\s*(?:number|lowest|looked|i|hits) \+= 1;|=> hits \+= 1)',
        'a start that moves on after a look-up': r'while let Some\(\w+\) = self\.\w+\.first_from',
        'next called by hand': r'while let Some\(\w+\) = (?:self|lines)\.next\(\)',
    },
    4: {
        'equality of the numbers inside': r'\b[\w.()]*\.number == [\w.()]*\.number\b|blocks\[[^\]]*\] == block\.number',
        'a conversion to or from a number': r'fn (?:number|from_number|of_pair|page_of|entry_of)\b|pub fn new\(number: u64\) -> Option',
        'equality by a function': r'fn same\(',
        'a text by a function': r"-> &'static str",
    },
    6: {
        'an array or list with a length beside': r'\b(?:list|groups): \[\w+; \d+\],\n\s*pub\(crate\) (?:count|used): usize',
        'arrays side by side': r'links: \[u16; 321\],\n\s*pub\(crate\) blocks: \[u64; 256\],\n\s*pub\(crate\) linked: \[bool; 256\],\n\s*pub\(crate\) bodies: \[Body; 256\]|places: \[u16; 256\]',
        'removal by index': r'\.remove\(i\)',
    },
    7: {
        'an enum for which test to make': r'enum (?:Which|Separator) \{',
        'an enum for what the caller does next': r'enum Step \{',
    },
}


def blocks_of(text):
    """The bodies of functions, spelled without spaces, with the name of each."""
    for m in re.finditer(r'fn (\w+)[^{;]*(?:\n    *(?:requires|ensures)[^\n]*)*\s*\{\n(.*?)\n    ?\}', text, re.S):
        body = re.sub(r'\s+', ' ', m.group(2)).strip()
        if len(body) > 20:
            yield m.group(1), body


def main():
    args = [a for a in sys.argv[1:] if a != '--list']
    full = '--list' in sys.argv
    root = pathlib.Path(args[0] if args else '.')
    for point, patterns in PATTERNS.items():
        total = 0
        for name, pattern in patterns.items():
            found = []
            for path in sorted(root.glob('crates/*/src/*.rt')):
                text = path.read_text()
                for m in re.finditer(pattern, text):
                    found.append((path, text.count('\n', 0, m.start()) + 1))
            total += len(found)
            print(f'{point}  {len(found):3}  {name}')
            if full:
                for path, line in found:
                    print(f'          {path.relative_to(root)}:{line}')
        print(f'{point}  {total:3}  in all\n')
    clauses = collections.defaultdict(set)
    for path in sorted(root.glob('crates/*/src/*.rt')):
        for m in re.finditer(r'fn (\w+)|(?:requires|ensures)(?: \w+)? (\{.*\})', path.read_text()):
            if m.group(1):
                name = m.group(1)
            else:
                clauses[(path.parts[-3], m.group(2))].add(name)
    repeated = {c: f for c, f in clauses.items() if len(f) >= 3}
    print(f'5  {len(repeated):3}  clauses in the contracts of three functions or more')
    for (crate, clause), functions in sorted(repeated.items()):
        print(f'          {crate}: {clause}: {", ".join(sorted(functions))}')
    bodies = collections.defaultdict(list)
    for path in sorted(root.glob('crates/*/src/*.rt')):
        for name, body in blocks_of(path.read_text()):
            bodies[body].append(f'{path.relative_to(root)} {name}')
    twins = {b: p for b, p in bodies.items() if len(p) > 1}
    print(f'\n2  {sum(len(p) - 1 for p in twins.values()):3}  functions with the body of another')
    for places in twins.values():
        print('          ' + '; '.join(places))
    answers = list(root.glob('crates/*/proofs/**/Answers.antt'))
    goals = sum(len(re.findall(r'(?m)^pub [^:\n]+ : goal\.', p.read_text())) for p in answers)
    lines = sum(p.read_text().count('\n') for p in root.glob('crates/*/proofs/**/*.antt'))
    print(f'\n8  {goals} answers in {len(answers)} files; {lines} lines in proofs/')


main()
