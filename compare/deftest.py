#!/usr/bin/env python3
"""Tries the definitions of crates/syntax/specs on sources, against the Rust's answers.

usage: deftest.py [--oracle PATH] [--rows N] [--texts 0|1] [--entries 0|1] < sources     (one source a line, in hex)

Each source becomes a row `parse 64 source ≡ read marks errors` and, unless --texts is 0, two rows `serialize source junk
marks ≡ text`, with what the oracle's `batch` answers on the right, and `refl` as the proof. With --entries 1 there is also a
row `parse_extents 64 source ≡ extents` for each source that is read, by the oracle's `entries`. The rows stand in modules of
N readings in a scratch copy of the crate; a row that does not hold is an error at its line. Sources that the oracle refuses
with 1 or 2 are left out: the definitions of reading begin where those refusals end.
The oracle is the unchanged Rust with a listing: shared/oracle of this project, built by `cargo build --release --offline`.
"""
import argparse, os, re, shutil, subprocess, sys, tempfile

ROOT = os.path.dirname(os.path.dirname(os.path.abspath(__file__)))
DEFINITIONS = ('Bytes', 'Marks', 'Reader', 'Helper', 'Comment', 'Pattern', 'Expression', 'Core', 'Serializer', 'Next')
KINDS = [None, 'ExpectedToken', 'ExpectedCharRange', 'ExpectedMessageField', 'ExpectedTermField', 'ForbiddenCallee',
         'MissingDefaultVariant', 'MissingValue', 'MultipleDefaultVariants', 'MessageReferenceAsSelector',
         'TermReferenceAsSelector', 'MessageAttributeAsSelector', 'TermAttributeAsPlaceable', 'UnterminatedStringLiteral',
         'PositionalArgumentFollowsNamed', 'DuplicatedNamedArgument', 'UnknownEscapeSequence',
         'InvalidUnicodeEscapeSequence', 'UnbalancedClosingBrace', 'ExpectedInlineExpression',
         'ExpectedSimpleExpressionAsSelector', 'ExpectedLiteral']
ONE, TWO = {1, 2, 16}, {3, 4, 15, 17}  # how many arguments a kind's case carries
TEXT = {7, 8, 9, 12, 17, 18, 19, 20}  # the T kinds
SPECS = 'Rattle.syntax.specs.'


def bytes_list(xs):
    return '(' + ' ∷ '.join([str(x) for x in xs] + ['[]']) + ')'


def mark(line):
    kind, place = map(int, line.split())
    return f'placed {kind} {place}' if kind % 100 in TEXT else f'plain {kind}'


def error(line):
    kind, start, end, junk, till, x, y = map(int, line.split())
    args = f' {x}' if kind in ONE else f' {x} {y}' if kind in TWO else ''
    return (f'record {{ fault = record {{ start = {start}; end = {end}; kind = Errors.{KINDS[kind]}{args} }};'
            f' junk_from = {junk}; junk_till = {till} }}')


def unfolding(specs, modules):
    """The line that opens every definition of the modules, each named MODULEOf."""
    names = []
    for module in modules:
        text = open(os.path.join(specs, module + '.antt')).read()
        found = re.findall(r'unfoldable pub (\S+)(?: \{[^}]*\})? :', text)
        if 'unfoldable mutual' in text:
            found.append('pattern')
        names += [f'{module}Of.{n}' for n in dict.fromkeys(found)]
    return 'unfolding ' + ' '.join(names)


def extents(oracle, data):
    """The starts and stops of a source's entries."""
    out = subprocess.run([oracle, 'entries'], input=data, capture_output=True, check=True).stdout.decode()
    return bytes_list('record {{ start = {}; stop = {} }}'.format(*l.split()) for l in out.splitlines())


def rows(sources, answers, texts, entries, unfold):
    """The rows of a module: text, and how many."""
    out, count = [], 0
    for i, (source, answer) in enumerate(zip(sources, answers)):
        data, columns = bytes.fromhex(source), answer.split('\t')
        lines = columns[0].rstrip(';').split(';')
        first = lines[0].split()
        if first[0] not in ('0', '5'):
            continue
        marks, errors = [], []
        if first[0] == '5':
            want = f'refused {first[1]}'
        else:
            m, e = int(first[1]), int(first[2])
            marks = [mark(l) for l in lines[1:1 + m]]
            errors = [error(l) for l in lines[1 + m:1 + m + e]]
            want = f'read {bytes_list(marks)} {bytes_list(errors)}'
        out.append(f'-- {data!r}\nr{i} : CoreOf.parse 64 {bytes_list(data)} ≡ {want}\n{unfold}\nr{i} = refl\n')
        count += 1
        if entries and first[0] == '0':
            out.append(f'e{i} : NextOf.parse_extents 64 {bytes_list(data)} ≡ {extents(entries, data)}\n{unfold}\ne{i} = refl\n')
            count += 1
        for column, flag in ((1, 'false'), (2, 'true')):
            if texts and first[0] == '0':
                text = bytes_list(bytes.fromhex(columns[column]))
                out.append(f'w{i}{flag} : SerializerOf.serialize {bytes_list(data)} {flag} {bytes_list(marks)} ≡ {text}\n'
                           f'{unfold}\nw{i}{flag} = refl\n')
                count += 1
    return '\n'.join(out), count


HEAD = '''use Rattle.std.specs.Prelude.{ℕ, true, false, ◌≡◌, refl, List, [], ◌∷◌}
''' + f'use {SPECS}Errors as Errors\n' + ''.join(f'use {SPECS}{m} as {m}Of\n' for m in DEFINITIONS) + (
    f'use {SPECS}Marks.{{plain, placed}}\nuse {SPECS}Core.{{read, refused}}\n\n')


def unproved(crates, crate, text):
    """Checks a module of rows in a scratch copy of the crates, the last of them `crate`; prints and counts what does not hold."""
    with tempfile.TemporaryDirectory() as scratch:
        lines = [l for l in open(os.path.join(ROOT, 'crates.txt')) if l.split(':')[0] in crates]
        open(os.path.join(scratch, 'crates.txt'), 'w').write(''.join(lines))
        for name in crates:
            shutil.copytree(os.path.join(ROOT, 'crates', name), os.path.join(scratch, 'crates', name),
                            ignore=shutil.ignore_patterns('must-fail', 'out'))
        specs = os.path.join(scratch, 'crates', crate, 'specs')
        open(os.path.join(specs, 'Rows.antt'), 'w').write(text)
        open(os.path.join(specs, 'Lib.antt'), 'a').write('pub mod Rows\n')
        run = subprocess.run(['rt', 'check'], cwd=os.path.dirname(specs), capture_output=True, text=True)
        out = run.stdout + run.stderr
        errors = [l for l in out.split('\n') if 'error:' in l]
        for l in errors[:10]:
            at = re.search(r'Rows\.antt:(\d+):', l)
            print(l, *([text.split('\n')[int(at.group(1)) - 4:int(at.group(1))]] if at else []), sep='\n  ')
        if not errors and (re.findall(r'^logic=\S+', out, re.M) or [''])[-1] != 'logic=proved':
            print('\n'.join(out.split('\n')[-15:]))
            return 1
        return len(errors)


def main():
    args = argparse.ArgumentParser()
    args.add_argument('--oracle', default=os.path.join(ROOT, '../shared/oracle/target/release/oracle'))
    args.add_argument('--rows', type=int, default=500)
    args.add_argument('--texts', type=int, default=1)
    args.add_argument('--entries', type=int, default=0)
    args = args.parse_args()
    sources = [l.strip() for l in sys.stdin]
    answers = subprocess.run([args.oracle, 'batch'], input='\n'.join(sources) + '\n', capture_output=True, text=True,
                             check=True).stdout.split('\n')
    unfold = unfolding(os.path.join(ROOT, 'crates/syntax/specs'), DEFINITIONS)
    total = wrong = 0
    for start in range(0, len(sources), args.rows):
        text, count = rows(sources[start:start + args.rows], answers[start:start + args.rows], args.texts,
                           args.entries and args.oracle, unfold)
        wrong += unproved(('utf8', 'syntax'), 'syntax', HEAD + text)
        total += count
        print(f'{total} rows, {wrong} wrong', flush=True)
    sys.exit(1 if wrong else 0)


if __name__ == '__main__':
    main()
