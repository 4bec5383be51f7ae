#!/usr/bin/env python3
"""Tries the grammar of crates/standard/specs on sources, against the executable grammar of shared/standard.

usage: stdtest.py [--rust] [--rows N] < sources      (one source a line, in hex)
       stdtest.py --listing < source                 (document 01's listing of a source by the pure standard)

Each source becomes a row `Resource standard source ≡ marks` (with --rust, `Resource rust`), proved by `refl` in a scratch copy
of the crates; a row that does not hold is an error at its line. With --listing it serves the fixtures' comparison:
shared/oracle/tools/fixtures.py "compare/stdtest.py --listing" shared/fixtures.
"""
import argparse, os, sys

from deftest import DEFINITIONS, ROOT, bytes_list, unfolding, unproved

sys.path.insert(0, os.path.join(ROOT, '../shared/standard'))
import standard

GRAMMAR = ('Dialect', 'Peg', 'Abstract', 'Lexical', 'Grammar')
TEXT = {7, 8, 9, 12, 17, 18, 19, 20, 27}
HEAD = ('use Rattle.std.specs.Prelude.{ℕ, ◌≡◌, refl, List, [], ◌∷◌}\n'
        + ''.join(f'use Rattle.syntax.specs.{m} as {m}Of\n' for m in DEFINITIONS)
        + ''.join(f'use Rattle.standard.specs.{m} as {m}Of\n' for m in GRAMMAR)
        + 'use Rattle.syntax.specs.Marks.{plain, placed}\n\n')


def marks(source, dialect, further):
    """The marks of a source; a further span of a text is a node of the kind `further`."""
    out = []
    for kind, place in standard.parse(source, dialect):
        out += [(further, place[0]), (100 + further, place[1])] if kind == '+' else [(int(kind), int(place))]
    return out


def listing(source):
    ms = marks(source, standard.STANDARD, 12)
    print(0, len(ms), 0)
    for kind, place in ms:
        print(kind, place)


def main():
    args = argparse.ArgumentParser()
    args.add_argument('--rust', action='store_true')
    args.add_argument('--listing', action='store_true')
    args.add_argument('--rows', type=int, default=500)
    args = args.parse_args()
    if args.listing:
        return listing(sys.stdin.buffer.read())
    name, dialect = ('rust', standard.RUST) if args.rust else ('standard', standard.STANDARD)
    unfold = (unfolding(os.path.join(ROOT, 'crates/syntax/specs'), DEFINITIONS)
              + unfolding(os.path.join(ROOT, 'crates/standard/specs'), GRAMMAR)[len('unfolding'):])
    sources = [bytes.fromhex(l) for l in sys.stdin]
    total = wrong = 0
    for start in range(0, len(sources), args.rows):
        text = []
        for i, source in enumerate(sources[start:start + args.rows]):
            ms = [f'placed {k} {p}' if k % 100 in TEXT else f'plain {k}' for k, p in marks(source, dialect, 27)]
            text.append(f'-- {source!r}\nr{i} : GrammarOf.Resource DialectOf.{name} {bytes_list(source)} ≡ {bytes_list(ms)}\n'
                        f'{unfold}\nr{i} = refl\n')
        wrong += unproved(('utf8', 'syntax', 'laws', 'standard'), 'standard', HEAD + '\n'.join(text))
        total += len(text)
        print(f'{total} rows, {wrong} wrong', flush=True)
    sys.exit(1 if wrong else 0)


main()
