#!/usr/bin/env python3
"""Compares the program entries with the Rust: where each entry starts and where its reading stopped.

usage: entries.py [--oracle PATH] [--program PATH] < sources     (one source of at most 4,000 bytes a line, in hex)

The oracle's `entries` must list the same. Of a source that it refuses as not UTF-8 (2) nothing may be listed. Where an entry
nests too deep (5) the entries before it are compared: the opening that is one too many is made an 'x' until the oracle reads
the source, and the entry in which the first such opening stands, with all that follow, is left out. If that is now junk from
an attribute's line on, the entry before it had that attribute, and is left out too.
The oracle is shared/oracle of this project, built by `cargo build --release --offline`; the program by `rt run` in
crates/entries.
"""
import argparse, os, subprocess, sys

ROOT = os.path.dirname(os.path.dirname(os.path.abspath(__file__)))


def run(words, data):
    out = subprocess.run(words, input=data, capture_output=True)
    return out.stdout.decode(), out.stderr.decode()


def wanted(oracle, data):
    """The lines that are right, and what the oracle answered: 0, or the number of a refusal."""
    out, refusal = run([oracle, 'entries'], data)
    if not refusal:
        return out.splitlines(), 0
    number, first = map(int, refusal.split())
    if number != 5:
        return [], number
    changed, value = bytearray(data), first
    while refusal:
        changed[value] = ord('x')
        out, refusal = run([oracle, 'entries'], bytes(changed))
        value = int(refusal.split()[1]) if refusal else 0
    before = [l for l in out.splitlines() if int(l.split()[0]) <= first]
    start = int(before.pop().split()[0])
    if data[start:].lstrip(b' ').startswith(b'.'):
        before.pop()
    return before, 5


def main():
    args = argparse.ArgumentParser()
    args.add_argument('--oracle', default=os.path.join(ROOT, '../shared/oracle/target/release/oracle'))
    args.add_argument('--program', default=os.path.join(ROOT, 'crates/entries/out/entries'))
    args = args.parse_args()
    tally, lines, wrong = {}, 0, 0
    for line in sys.stdin:
        data = bytes.fromhex(line.strip())
        if len(data) > 4000:
            continue
        want, number = wanted(args.oracle, data)
        got, _ = run([args.program], data)
        tally[number] = tally.get(number, 0) + 1
        lines += len(want)
        if got.splitlines() != want:
            wrong += 1
            print(f'{data!r}\n  wanted {want}\n  got    {got.splitlines()}')
    print(f'{sum(tally.values())} sources, {lines} entries, {wrong} wrong; by answer {dict(sorted(tally.items()))}')
    sys.exit(1 if wrong else 0)


if __name__ == '__main__':
    main()
