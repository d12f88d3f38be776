#!/usr/bin/env python3
"""Lists the places of src/ that docs/DESIGN-PASS.md counts, point by point.

    tools/places.py [-l]    counts; with -l each place, as file:line
"""
import collections
import pathlib
import re
import sys

TOP = pathlib.Path(__file__).resolve().parent.parent
LISTED = [m.group(1) for m in re.finditer(r'^([a-z_0-9]+)(?: staticlib)?:', (TOP / 'crates.txt').read_text(), re.M)]
FILES = [f for name in LISTED for f in sorted((TOP / 'crates' / name / 'src').glob('*.rt'))]
TEXTS = {f: f.read_text() for f in FILES}


def lines_with(pattern):
    seen = []
    for f in FILES:
        for n, line in enumerate(TEXTS[f].split('\n'), 1):
            if not line.lstrip().startswith('//') and re.search(pattern, line):
                seen.append((f, n, line.strip()))
    return seen


# Items: the text of each function and struct, from its head to the brace that ends it.
ITEM = re.compile(r'^( *)(?:pub(?:\([a-z]+\))? )?(?:extern "C" )?(fn|struct) ([A-Za-z_0-9]+)', re.M)


def items(kind):
    for f in FILES:
        text = TEXTS[f]
        for m in ITEM.finditer(text):
            if m.group(2) != kind:
                continue
            end = re.compile('^' + m.group(1) + r'(?:\}|.*;$)', re.M).search(text, m.end() if kind == 'fn' else m.start())
            yield f, text.count('\n', 0, m.start()) + 1, m.group(3), text[m.start():end.end() if end else len(text)]


STATES = {'filter', 'pid', 'slew', 'notches', 'statistics', 'motor', 'lane', 'bank', 'state', 'terms', 'force', 'command'}
KEPT = {'fn', 'struct', 'let', 'mut', 'if', 'else', 'while', 'for', 'in', 'match', 'return', 'self', 'pub'}


def shape(kind, text):
    """The text without types, names and numbers: what twins have in common. The names of calls and of fields stay."""
    text = re.sub(r'//.*', '', text)
    text = re.sub(r'^ *(requires|ensures)\b.*', '', text, flags=re.M)
    text = re.sub(r'b?"[^"]*"', '"', text)
    words = re.findall(r'[A-Za-z_][A-Za-z_0-9]*|[0-9][0-9a-z_.]*|\S', text)
    out = []
    for k, w in enumerate(words):
        before, after = words[k - 1] if k else '', words[k + 1] if k + 1 < len(words) else ''
        if w[0].isdigit():
            out.append('0')
        elif not re.match(r'[A-Za-z_]', w) or w in KEPT:
            out.append(w)
        elif kind == 'struct' and after == ':' and k > 2:
            out.append('state' if w in STATES else w)
        elif kind == 'fn' and k > 1 and (before == '.' or after == '('):
            out.append('state' if w in STATES else w)
        else:
            out.append('x')
    return ' '.join(out)


def twins(kind, least):
    groups = collections.defaultdict(list)
    for f, n, name, text in items(kind):
        s = shape(kind, text)
        if len(s.split()) >= least:
            groups[s].append((f, n, name))
    return [g for g in groups.values() if len(g) > 1]


def conjuncts():
    """Facts in `requires` that stand in three or more of a crate's functions."""
    facts = collections.defaultdict(list)
    for f in FILES:
        for n, line in enumerate(TEXTS[f].split('\n'), 1):
            m = re.match(r' *requires (?:[a-z_]+ )?\{ (.*) \}$', line)
            if m:
                for part in m.group(1).split(' × '):
                    facts[(f.parent.parent.name, part.strip('()'))].append((f, n, part))
    return [places for places in facts.values() if len(places) > 2]


def travelling():
    """Three or more parameters that three or more of a crate's functions take together."""
    seen = collections.defaultdict(list)
    for f, n, name, text in items('fn'):
        head = re.sub(r'\s+', ' ', text.split('{')[0].split(' requires')[0].split(' ensures')[0])
        params = [p.strip().rstrip(',') for p in re.findall(r'[a-z_]+: [^,()]+', head.split('(', 1)[1].rsplit(')', 1)[0])] if '(' in head else []
        if len(params) >= 3:
            seen[(f.parent.parent.name, tuple(sorted(params)[:]))].append((f, n, name))
    out = []
    for crate in LISTED:
        mine = [(set(k[1]), v) for k, v in seen.items() if k[0] == crate]
        pool = collections.defaultdict(set)
        for a, va in mine:
            for b, vb in mine:
                common = frozenset(a & b)
                if len(common) >= 3:
                    pool[common] |= set(va) | set(vb)
        best = [(len(v), len(k), k, v) for k, v in pool.items() if len(v) >= 3]
        taken = set()
        for count, width, k, v in sorted(best, key=lambda t: (-t[0], -t[1])):
            if v - taken:
                out.append((crate, sorted(k), sorted(v)))
                taken |= v
    return out


def show(title, places, long):
    print(f'{len(places):5} {title}')
    if long:
        for f, n, what in places:
            print(f'          {f.relative_to(TOP)}:{n}: {what}')


def main():
    long = '-l' in sys.argv[1:]
    print('1  Options, Results and error enums of one\'s own')
    show('variants that stand for nothing', lines_with(r'^    (Off|NotOurs|None|Other)( = 0)?,$'), long)
    show('fields `refusal: Refusal`', lines_with(r'^ +(pub )?refusal: Refusal,$'), long)
    show('functions that answer a Refusal for "refused or not"', lines_with(r'-> Refusal$'), long)
    show('flags that are fields', lines_with(r'^    (pub )?[a-z_]+: bool,$'), long)
    print('2  twins')
    for kind, least in (('struct', 8), ('fn', 24)):
        groups = twins(kind, least)
        print(f'{sum(len(g) for g in groups):5} {kind}s in {len(groups)} groups of one shape')
        if long:
            for g in groups:
                print('          ' + ', '.join(f'{f.relative_to(TOP)}:{n} {name}' for f, n, name in g))
    print('3  loops')
    show('`while`', lines_with(r'^ *while '), long)
    print('4  written by hand')
    show('defaults and zeros', lines_with(r'fn (default|zero)\('), long)
    show('conversions', lines_with(r'fn (from|number|digit_value|digit|wide)\('), long)
    show('equality, order and tests of them', lines_with(r'fn (same|begins|holds|least|both|passes|first_refusal|is_f4)\('), long)
    show('`x != x` for NaN', lines_with(r'\b([a-z]+) != \1\b'), long)
    show('text', lines_with(r'fn (put_decimal|put_word|put_half|put|refused_line|four_digits)\('), long)
    print('5  facts and parameters that travel')
    groups = conjuncts()
    print(f'{sum(len(g) for g in groups):5} requires in {len(groups)} facts of three or more functions')
    if long:
        for g in groups:
            print('          ' + g[0][2] + ': ' + ', '.join(f'{f.relative_to(TOP)}:{n}' for f, n, _ in g))
    groups = travelling()
    print(f'{sum(len(v) for _, _, v in groups):5} functions in {len(groups)} groups with three or more parameters in common')
    if long:
        for crate, names, v in groups:
            print(f'          {crate}: ' + '; '.join(names) + ': ' + ', '.join(name for _, _, name in v))
    print('6  buffers with a length, arenas')
    show('places in one run of words', lines_with(r'^pub const [A-Z0-9_]+: usize = '), long)
    show('functions that take a place `at: usize` in a slice', [(f, n, name) for f, n, name, text in items('fn') if re.search(r'\bat: usize', text.split('{')[0]) and '&' in text.split('{')[0]], long)
    print('7  switches and tables of steps')
    show('functions that ask the next part', [(f, n, name) for f, n, name, text in items('fn') if 'CallAnswer::NotOurs => ' in text and 'answer_' in text], long)


main()
