#!/usr/bin/env python3
"""Counts the places of tools/places.py a second way: by the shape of declarations and bodies in place of words and lines.

usage: python3 tools/again.py [POINT..]
"""
import re
import sys
from pathlib import Path


def sources():
    return sorted(Path('crates').glob('*/src/**/*.rt'))


def bare(text):
    text = re.sub(r'//[^\n]*', '', text)
    return re.sub(r'ghost use [^;]*;', '', text)


def block(text, start):
    depth = 0
    for i in range(start, len(text)):
        if text[i] == '{':
            depth += 1
        elif text[i] == '}':
            depth -= 1
            if depth == 0:
                return text[start:i + 1], i + 1
    return text[start:], len(text)


def declarations(kind):
    for f in sources():
        text = bare(f.read_text())
        for m in re.finditer(rf'\b{kind} (\w+)[^;{{(]*\{{', text):
            body, _ = block(text, m.end() - 1)
            yield f, m.group(1), body


def functions():
    """Each function with a body: file, name, head, body (clauses left out)."""
    for f in sources():
        text = bare(f.read_text())
        for m in re.finditer(r'\bfn (\w+)', text):
            i = m.end()
            while i < len(text) and text[i] not in '{;':
                i += 1
            head = text[m.start():i]
            # clauses are braces too: skip them
            while i < len(text) and text[i] == '{' and re.search(r'\b(requires|ensures)\b[^{}]*$', text[m.start():i]):
                _, i = block(text, i)
                while i < len(text) and text[i] not in '{;':
                    i += 1
            if i < len(text) and text[i] == '{':
                body, _ = block(text, i)
                yield f, m.group(1), head, body


def variants(body):
    inner = body[1:-1]
    out, depth, cur = [], 0, ''
    for c in inner:
        if c in '({[':
            depth += 1
        if c in ')}]':
            depth -= 1
        if c == ',' and depth == 0:
            out.append(cur.strip())
            cur = ''
        else:
            cur += c
    if cur.strip():
        out.append(cur.strip())
    return [re.sub(r'#\[[^\]]*\]', '', v).strip() for v in out]


def shape(body):
    body = re.sub(r'b?"[^"]*"', 'S', body)
    body = re.sub(r"b?'[^']'", 'C', body)
    body = re.sub(r'\b\d[\w.]*', '0', body)
    body = re.sub(r'\b(?!let|mut|if|else|for|in|match|return|Ok|Err|Some|None|as|break|self|Self|true|false)[A-Za-z_]\w*', 'N', body)
    return re.sub(r'\s+', '', body)


def point_1():
    for f, name, body in declarations('enum'):
        vs = variants(body)
        plain = [v for v in vs if re.fullmatch(r'\w+', v)]
        full = [v for v in vs if not re.fullmatch(r'\w+( = .*)?', v)]
        if len(vs) == 2 and len(full) == 1 and len(plain) == 1:
            yield f'{f}: enum {name} has one case with and one without a value'
        if len(vs) == 2 and re.search(r'Err|Refus|Fail|Strange', body):
            yield f'{f}: enum {name} is of the shape of Result'
    for f, name, head, body in functions():
        if re.search(r'&mut self', head) and re.search(r'-> bool\b', head):
            yield f'{f}: {name} changes a value and answers whether it did'
        n = len(re.findall(r'\[0\] [!=]= \w+|\[0\] = \w+|\bkind == \w+', body))
        if n:
            yield f'{f}: {name} compares or writes a kind as a number, {n} times'
    for f, name, body in declarations('struct'):
        if re.search(r'\bverdict: Verdict\b', body) and re.search(r'\bversion: u32\b', body):
            yield f'{f}: struct {name} has a verdict and a version beside it'


def point_2():
    groups = {}
    for f, name, head, body in functions():
        s = shape(body)
        if len(s) >= 60:
            groups.setdefault(s, []).append(f'{f}: {name}')
    for s, at in groups.items():
        if len(at) > 1:
            yield f'{len(at)} bodies of one shape: ' + '; '.join(at)
    structs = {}
    for f, name, body in declarations('struct'):
        s = re.sub(r'\s+', ' ', body)
        structs.setdefault(s, []).append(f'{f}: {name}')
    for s, at in structs.items():
        if len(at) > 1 and len(s) > 12:
            yield f'{len(at)} structs with the same fields: ' + '; '.join(at)


def point_3():
    for f, name, head, body in functions():
        for m in re.finditer(r"\bfor (\w+) in ([^{;]*\.\.[^{;]*)\{", body):
            loop, _ = block(body, m.end() - 1)
            v = m.group(1)
            if re.search(rf'\[[^\]]*\b{v}\b[^\]]*\]|\(\s*{v}\s*(as \w+)?\s*\)', loop):
                yield f'{f}: {name} uses its counter {v} as an index or hands it to a call'


def point_4():
    for f in sources():
        for m in re.finditer(r'impl[^{;]*\b(PartialEq|PartialOrd|Ord|Default|Debug)\b for (\w+)', bare(f.read_text())):
            yield f'{f}: {m.group(1)} for {m.group(2)} by hand'
    for f, name, head, body in functions():
        if re.search(r'-> bool\b', head) and len(re.findall(r'[!=]=', body)) >= 2 and re.search(r'\bother\b|\btheirs\b|\breplay\b', body):
            yield f'{f}: {name} compares two values part by part'
        n = len(re.findall(r'/ 256|% 256|% 65536|\* 256', body))
        if n:
            yield f'{f}: {name} makes or reads bytes of a number by arithmetic, {n} times'
        if re.search(r'-> &\'static str', head):
            yield f'{f}: {name} is a text made by hand for a value'


def point_6():
    for f, name, body in declarations('struct'):
        if re.search(r': \[[^\]]*; *\w+\]', body) and re.search(r'\b(len|count|used|\w*_count): (u8|u16|u32|usize)', body):
            yield f'{f}: struct {name} has an array and a count'
        if len(re.findall(r': \[\w+; \d+\]', body)) >= 2:
            yield f'{f}: struct {name} has arrays side by side'


def point_7():
    for f, name, head, body in functions():
        if re.search(r'match self\.way|match way\b', body):
            yield f'{f}: {name} switches on the way'
        if len(re.findall(r'Node::\w+\(board\) =>', body)) >= 3:
            yield f'{f}: {name} hands a call on to one of three kinds of boards'
        if re.search(r'\((true|false), (true|false)\) =>', body):
            yield f'{f}: {name} switches on two flags'


def main():
    want = sys.argv[1:]
    for point, rows in (('1', point_1), ('2', point_2), ('3', point_3), ('4', point_4), ('6', point_6), ('7', point_7)):
        if want and point not in want:
            continue
        found = list(rows())
        print(f'{point}: {len(found)}')
        if want:
            for row in found:
                print('    ' + row)


main()
