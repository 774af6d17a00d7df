#!/usr/bin/env python3
"""Lists the places in crates/*/src that docs/DESIGN-PASS.md counts.

usage: python3 tools/places.py [POINT..]      at the top of a checkout; without a point only the counts
"""
import re
import sys
from pathlib import Path

LINES = {
    # Own enums of the shape of Option or Result, flags beside values, numbers for kinds and refusals.
    '1': [
        ('a comment says that 0 or false stands for none',
         r'//.*(\b0 (stands |is )?(for|where|if) (there is |there are )?(no|none|an abort)\b|\b0 for an abort|, none,|; false, and nothing changed|false where)'),
        ('an enum with a case for nothing', r'^\s*(Waiting|Never|More|Passed|NotServed|None),$'),
        ('a kind or a code as a number',
         r'(if|&&) (n [!=<>]=? \d+ \|\| )?(frame|bytes)\[0\] [!=]= |\bif kind == \d|const KIND: u8|^\s*out\[0\] = (\d|KIND)|cause: u8|-> anyhow::Result<\(bool, bool\)>'),
        ('the number of a cause, a layer or a verdict by a function of its own', r'^    pub fn (number|letter|byte)\(self\) -> u8', 'crates/fault/'),
    ],
    # Loops that count an index by hand.
    '3': [('a loop over a range of numbers', r'\bfor [a-z_]+ in (?!&).*\.\.'), ('a loop with a count of its own', r'^\s*(while|loop)\b')],
    # Equality, order, copying, conversion and printing by hand.
    '4': [
        ('bytes of a number by division', r'(/|%) 256\b|% 65536|\* 256 \+'),
        ('fields compared one by one', r'\.(count|cause|layer|chain|place|number\(\)|letter\(\)|as_slice\(\)) [!=]= .*\.(count|cause|layer|chain|place|number\(\)|letter\(\)|as_slice\(\))'),
        ('a conversion as a function of its own', r'fn (number|letter|byte|name|of|find_way|read_digest|read_seal|chosen)\('),
        ('a byte printed in a loop', r'\{byte:02x\}'),
        ('a widening by `as`', r'\b(item|number|key|b|x|board|signer|version|client)\b as (u32|u64|usize)\b'),
    ],
    # Buffers with a length beside them, parallel arrays, lists searched by hand.
    '6': [
        ('an array with a count of what it holds', r'^\s*(pub )?(len|count|used): (u8|usize),$'),
        ('an array of records with a count elsewhere', r'^\s*pub (reads|writes|items): \[[A-Z]\w+; \d+\],$'),
    ],
    # A switch on which step to run.
    '7': [('a match on which way or step', r'match (self\.way|way|\(digest, seal\)|choices\(rt\)\?)')],
}


def sources():
    return sorted(Path('crates').glob('*/src/**/*.rt'))


def contracts(text):
    """The facts of each function's clauses."""
    for m in re.finditer(r'\bfn (\w+)([^{;]*?)\n((?:\s+(?:requires|ensures)\b.*\n)+)', text):
        facts = set()
        for clause in m.group(3).splitlines():
            inner = clause[clause.index('{') + 1:clause.rindex('}')] if '{' in clause and '}' in clause else ''
            for fact in re.split(r' × ', inner):
                facts.add(fact.strip().strip('()').strip())
        yield m.group(1), {f for f in facts if f}


def point_5():
    """Facts that the contracts of three or more functions of a crate repeat, but for the names of what they speak of."""
    rows = []
    for crate in sorted(Path('crates').iterdir()):
        found = {}
        for f in sorted(crate.glob('src/**/*.rt')):
            for name, facts in contracts(f.read_text()):
                for fact in facts:
                    if '→' in fact or 'result' in fact:
                        continue
                    found.setdefault(fact, []).append(f'{f}: {name}')
        rows += [(fact, at) for fact, at in found.items() if len(at) >= 3]
    return rows


def point_5_terms():
    """Terms of more than twenty characters in parentheses that three or more functions' contracts repeat."""
    found = {}
    for f in sources():
        for m in re.finditer(r'\(λ m\. written \(D\.Digest\.of m\)\)', f.read_text()):
            found.setdefault(m.group(0), []).append(str(f))
    return found


def parameters():
    """Three or more parameters, alike in name and type, that three or more functions of a crate take together."""
    rows = []
    for crate in sorted(Path('crates').iterdir()):
        sets = []
        for f in sorted(crate.glob('src/**/*.rt')):
            for m in re.finditer(r'\bfn (\w+)(?:<[^(]*>)?\(([^{;]*?)\)\s*(?:->|\n|\{|;)', f.read_text()):
                ps = frozenset(p.strip() for p in m.group(2).replace('\n', ' ').split(',') if ':' in p)
                sets.append((m.group(1), ps))
        seen = {}
        for i, (a, p) in enumerate(sets):
            for b, q in sets[i + 1:]:
                common = p & q
                if len(common) >= 3:
                    seen.setdefault(common, set()).update((a, b))
        rows += [(crate.name, sorted(c), sorted(fs)) for c, fs in seen.items() if len(fs) >= 3]
    return rows


def main():
    want = sys.argv[1:]
    for point, rules in LINES.items():
        if want and point not in want:
            continue
        total = 0
        for what, pattern, *where in rules:
            hits = [(f, n, line) for f in sources() if str(f).startswith(tuple(where) or 'crates/') for n, line in enumerate(f.read_text().splitlines(), 1) if re.search(pattern, line)]
            total += len(hits)
            print(f'{point}  {what}: {len(hits)}')
            if want:
                for f, n, line in hits:
                    print(f'     {f}:{n}: {line.strip()}')
        print(f'{point}  all: {total}')
    if not want or '5' in want:
        rows = point_5()
        print(f'5  facts that three or more contracts of a crate repeat: {len(rows)}')
        if want:
            for fact, at in rows:
                print(f'     {len(at)}× {fact}   [{at[0]}, ..]')
        rows = parameters()
        print(f'5  three or more parameters that three or more functions of a crate share: {len(rows)}')
        if want:
            for crate, ps, fs in rows:
                print(f'     {crate}: {", ".join(ps)}   [{", ".join(fs)}]')
        for term, at in point_5_terms().items():
            print(f'5  the term {term} in clauses: {len(at)}')


main()
