#!/usr/bin/env python3
"""Makes the cases of the writing call that the program vectors replays.

usage: texts.py ORACLE     writes crates/vectors/data/texts-* and adds them to args and stdout

ORACLE is the folder with `oracle` and `gen`, as for vectors.py, which is run first. Every run writes the same bytes:
  texts-read     trees as a reading leaves them, both flags, with the Rust's texts; outputs of the text's length, longer, and a byte short
  texts-models   for each content model, in each place among the children: every kind as the next opening mark, the closing mark, and the end
  texts-lists    well-formed lists that no reading gives; ill-formed ones for each place where refusal 6's value is decided; lists cut
                 short at every mark, and lists with one mark changed; the refusals before 6, and their order
What is expected of hand-made lists comes from `refusal` and `Writer` below, which say document 01's shape and serializer.rs once more; on the
trees of texts-read they must give what the Rust gives.

A case is eleven numbers of four bytes (stored bytes of the source, its length, words of the tree slice, the word at which the second array
starts, bytes of the output, flag, answer, its value, stored words of both parts of the tree, bytes of the text), the stored bytes, which are
repeated to the length, the stored words of four bytes, first those at the slice's start, then those of the second array, and the text.
Other words of the tree are 0. The first byte of a number is its lowest.
"""
import os, struct, subprocess, sys
from vectors import ERRORS, FILES, KINDS, ROOT, Choices, generated, nested

NO_MARK = 2**32 - 1
MOST = float('inf')
T = (7, 8, 9, 12, 17, 18, 19, 20)
INLINE = (13, 19, 20, 21, 22, 23, 24)
LINES = [((8,), 0, MOST)]
KEYED = [((17, 18), 1, 1), ((11,), 1, 1)]
# The children of each kind: groups in a row, each with its least and greatest number.
MODELS = {
    1: [((9,), 1, 1), ((11,), 0, 1), ((10,), 0, MOST)],
    2: [((9,), 1, 1), ((11,), 1, 1), ((10,), 0, MOST)],
    3: LINES, 4: LINES, 5: LINES, 6: LINES,
    10: [((9,), 1, 1), ((11,), 1, 1)],
    11: [((12, 13), 0, MOST)],
    13: [(INLINE + (14,), 1, 1)],
    14: [(INLINE, 1, 1), ((15, 16), 0, MOST)],
    15: KEYED, 16: KEYED,
    21: [((9,), 1, 1)],
    22: [((9,), 1, 1), ((25,), 1, 1)],
    23: [((9,), 1, 1), ((9,), 0, 1)],
    24: [((9,), 1, 1), ((9,), 0, 1), ((25,), 0, 1)],
    25: [(INLINE, 0, MOST), ((26,), 0, MOST)],
    26: [((9,), 1, 1), (INLINE, 1, 1)],
}


def opens(kind): return 1 if kind in (13, 25) else 0


def needs(kind, seen=()):
    """The openings that a node of a kind has at least."""
    if kind in T or kind in seen:
        return 0 if kind in T else MOST
    return opens(kind) + max([min(needs(j, seen + (kind,)) for j in group) for group, least, _ in MODELS[kind] if least] + [0])


NEEDS = {kind: needs(kind) for kind in [*MODELS, *T]}


class Place:
    """Among a node's children: the group, and how many of it there are."""

    def __init__(self, kind):
        self.kind, self.group, self.count = kind, 0, 0

    def may_end(self):
        rest = MODELS[self.kind][self.group:]
        return all(least <= (self.count if i == 0 else 0) for i, (_, least, _) in enumerate(rest))

    def take(self, kind):
        groups = MODELS[self.kind]
        while self.group < len(groups):
            kinds, least, most = groups[self.group]
            if kind in kinds and self.count < most:
                self.count += 1
                return True
            if self.count < least:
                return False
            self.group, self.count = self.group + 1, 0
        return False


class Top:
    """1 to 7, each 6 right before a 1 or 2."""

    def __init__(self):
        self.attached = False

    def may_end(self):
        return not self.attached

    def take(self, kind):
        fits = kind in (1, 2) if self.attached else 1 <= kind <= 7
        self.attached = kind == 6
        return fits


def refusal(source, marks):
    """The value of refusal 6, or None."""
    boundary = lambda p: p <= len(source) and (p == len(source) or source[p] & 0xc0 != 0x80)
    around, start, open_ = [Top()], None, 0
    for i, (kind, place) in enumerate(marks):
        inner = around[-1]
        if start is not None:
            if kind != start[0] + 100 or place < start[1] or not boundary(place):
                return i
            start = None
        elif isinstance(inner, Place) and kind == inner.kind + 100 and place == 0:
            if not inner.may_end():
                return i
            open_ -= opens(inner.kind)
            around.pop()
        elif kind in T:
            if not boundary(place) or not inner.take(kind):
                return i
            start = kind, place
        elif kind in MODELS:
            if place or open_ + NEEDS[kind] > 64 or not inner.take(kind):
                return i
            open_ += opens(kind)
            around.append(Place(kind))
        else:
            return i
    return None if start is None and len(around) == 1 and around[0].may_end() else len(marks)


def tree_of(source, marks):
    """Nodes of a well-formed list: a kind, and a text or children."""
    stack = [[]]
    for kind, place in marks:
        if kind < 100:
            stack[-1].append((kind, place))
            stack.append([])
        else:
            children = stack.pop()
            kind, start = stack[-1].pop()
            stack[-1].append((kind, source[start:place] if kind in T else children))
    return stack[0]


class Writer:
    """serializer.rs."""

    def __init__(self, with_junk):
        self.out, self.level, self.with_junk = bytearray(), 0, with_junk

    def newline(self):
        self.out += b'\r\n' if self.out.endswith(b'\r') else b'\n'

    def literal(self, text):
        if self.out.endswith(b'\n'):
            self.out += b'    ' * self.level
        self.out += text

    def resource(self, nodes):
        wrote = False
        for kind, inside in nodes:
            if kind == 7:
                if self.with_junk:
                    self.literal(inside)
                wrote = False
            elif kind == 6:
                self.comment(inside, b'#')
            else:
                if kind in (1, 2):
                    self.message(kind, inside)
                else:
                    if wrote:
                        self.newline()
                    self.comment(inside, b'#' * (kind - 2))
                    self.newline()
                wrote = True

    def comment(self, lines, prefix):
        for _, line in lines:
            self.literal(prefix)
            if line.strip(b' \r\n'):
                self.literal(b' ')
                self.literal(line)
            self.newline()

    def message(self, kind, children):
        if kind == 2:
            self.literal(b'-')
        attributes = [inside for k, inside in children if k == 10]
        self.named(children)
        if attributes:
            self.level += 1
            for inside in attributes:
                self.newline()
                self.literal(b'.')
                self.named(inside)
            self.level -= 1
        self.newline()

    def named(self, children):
        self.literal(children[0][1])
        self.literal(b' =')
        for kind, inside in children[1:]:
            if kind == 11:
                self.pattern(inside)

    def pattern(self, elements):
        dot = elements and elements[0][0] == 12 and elements[0][1].startswith(b'.')
        lines = not dot and any(b'\n' in inside if kind == 12 else self.selects(inside[0]) for kind, inside in elements)
        if lines:
            self.newline()
        else:
            self.literal(b' ')
        self.level += lines
        for kind, inside in elements:
            if kind == 12:
                self.literal(inside)
            elif inside[0][0] == 13:
                self.around(b'{{ ', inside[0][1][0], b' }}')
            else:
                self.around(b'{ ', inside[0], b'}' if inside[0][0] == 14 else b' }')
        self.level -= lines

    def selects(self, expression):
        return expression[0] == 14 or expression[0] == 13 and self.selects(expression[1][0])

    def around(self, before, expression, after):
        self.literal(before)
        self.expression(*expression)
        self.literal(after)

    def expression(self, kind, inside):
        if kind == 14:
            self.select(inside)
        elif kind == 13:
            self.around(b'{', inside[0], b'}')
        elif kind == 19:
            for piece in (b'"', inside, b'"'):
                self.literal(piece)
        elif kind == 20:
            self.literal(inside)
        else:
            if kind in (21, 24):
                self.literal(b'$' if kind == 21 else b'-')
            for i, (k, part) in enumerate(inside):
                if k == 25:
                    self.arguments(part)
                else:
                    if i:
                        self.literal(b'.')
                    self.literal(part)

    def select(self, children):
        self.expression(*children[0])
        self.literal(b' ->')
        self.newline()
        self.level += 1
        for kind, (key, value) in children[1:]:
            if kind == 16:
                self.literal(b'')
                self.out[-1:] = b'*'
            for piece in (b'[', key[1], b']'):
                self.literal(piece)
            self.pattern(value[1])
            self.newline()
        self.level -= 1

    def arguments(self, children):
        self.literal(b'(')
        for i, (kind, inside) in enumerate(children):
            if i:
                self.literal(b', ')
            if kind == 26:
                self.literal(inside[0][1])
                self.literal(b': ')
                kind, inside = inside[1]
            self.expression(kind, inside)
        self.literal(b')')


def text_of(source, marks, junk):
    writer = Writer(junk)
    writer.resource(tree_of(source, marks))
    return bytes(writer.out)


class Case:
    """A source, that is `stored` repeated to `length`, and a tree: its sizes, marks, and how many words the slice has past the arrays."""

    def __init__(self, stored, marks, junk=0, spare=0, count=None, capacity=None, words=None, room=0, length=None):
        self.stored = stored if isinstance(stored, bytes) else stored.encode()
        self.length = len(self.stored) if length is None else length
        self.marks, self.junk, self.spare = marks, junk, spare
        self.count = len(marks) if count is None else count
        self.capacity = len(marks) if capacity is None else capacity
        self.words = 2 + 2 * self.capacity + room if words is None else words
        self.text = None

    def source(self):
        return (self.stored * (self.length // max(1, len(self.stored)) + 1))[:self.length]

    def answer(self):
        """Number, value, text."""
        source = self.source()
        if self.length > 1000000:
            return 1, self.length, b''
        try:
            source.decode()
        except UnicodeDecodeError as e:
            return 2, e.start, b''
        if self.words < 2 or self.capacity > 8000000 or self.count > self.capacity or 2 + 2 * self.capacity > self.words:
            return 6, NO_MARK, b''
        marks = self.marks[:self.count] + [(0, 0)] * (self.count - len(self.marks))
        value = refusal(source, marks)
        if value is not None:
            return 6, value, b''
        text = text_of(source, marks, self.junk)
        assert self.text in (None, text), (source, self.text, text)
        return (7, len(text), text) if self.spare < 0 and text else (0, len(text), text)

    def pack(self):
        number, value, text = self.answer()
        output = max(0, (len(text) if number in (0, 7) else 6) + self.spare)
        if number != 0:
            text = b''
        first = ([self.count, self.capacity] + [m[0] for m in self.marks])[:self.words]
        middle = min(2 + self.capacity, self.words)
        first, second = first[:middle], [m[1] for m in self.marks][:self.words - middle]
        while second and second[-1] == 0:
            second.pop()
        head = (len(self.stored), self.length, self.words, middle, output, self.junk, number, value, len(first), len(second), len(text))
        return struct.pack('<11I', *head) + self.stored + struct.pack(f'<{len(first) + len(second)}I', *first, *second) + text


def read_cases(oracle):
    files = ['a = b\n' * 3, *KINDS, *FILES, *(a + b for a in KINDS[:8] for b in KINDS[:8] if a < b), *(s for n in (2, 64) for s in nested(n)),
             *(s[0] + '\nb = c\n# d\n' for s in ERRORS.values()), 'x\n# c\n', '# c\nx\n# d\n\n# e\n', 'a = é\n .b = {"日"}\n']
    sources = [s.encode() for s in files] + [c.stored for c in generated(oracle, 'random', '5', '600', most=90, count=90) + generated(oracle, 'mutants', '6', '600', most=90, count=40)]
    run = subprocess.run([os.path.join(oracle, 'oracle'), 'batch'], input=''.join(s.hex() + '\n' for s in sources), capture_output=True, text=True, check=True)
    turn = 0
    for source, line in zip(sources, run.stdout.split('\n')):
        listing, *texts = line.split('\t')
        rows = [tuple(map(int, row.split())) for row in listing.rstrip(';').split(';')]
        if rows[0][0]:
            continue
        for junk, text in enumerate(texts):
            case = Case(source, list(rows[1:1 + rows[0][1]]), junk, (0, 5, -1, 1)[turn % 4], capacity=8 * len(source), room=(0, 0, 3)[turn % 3])
            case.text = bytes.fromhex(text)
            turn += 1
            yield case
        turn += 1


SOURCE = 'ab.é\n \r'


def t(kind, start=0, end=1): return [(kind, start), (kind + 100, end)]


def node(kind, *children): return [(kind, 0), *sum(children, []), (kind + 100, 0)]


NAME, VALUE = t(9), node(11)
# A node of each kind, as short as may be.
LEAST = {**{k: t(k) for k in T}, 1: node(1, NAME), 2: node(2, NAME, VALUE), **{k: node(k) for k in (3, 4, 5, 6, 11, 25)}, 10: node(10, NAME, VALUE),
         13: node(13, t(20)), 14: node(14, t(20)), 15: node(15, t(17), VALUE), 16: node(16, t(18), VALUE), 21: node(21, NAME), 22: node(22, NAME, node(25)),
         23: node(23, NAME), 24: node(24, NAME), 26: node(26, NAME, t(19))}
# The marks before a node of each kind; those after it are never reached where its children are tried.
IN_PATTERN = [(1, 0), *NAME, (11, 0)]
IN_PLACEABLE = IN_PATTERN + [(13, 0)]
IN_CALL = IN_PLACEABLE + [(22, 0), *NAME]
BEFORE = {**{k: [] for k in range(1, 8)}, 10: [(1, 0), *NAME], 11: [(1, 0), *NAME], 13: IN_PATTERN, 14: IN_PLACEABLE, 15: IN_PLACEABLE + [(14, 0), *t(20)],
          16: IN_PLACEABLE + [(14, 0), *t(20)], **{k: IN_PLACEABLE for k in (21, 22, 23, 24)}, 25: IN_CALL, 26: IN_CALL + [(25, 0)]}


def places(kind):
    """Rows of children that lead to each place among a kind's children."""
    row = []
    yield row
    for group, _, _ in MODELS[kind]:
        row = row + LEAST[group[0]]
        yield row


def model_cases():
    turn = 0
    for kind in MODELS:
        for row in places(kind):
            before = BEFORE[kind] + [(kind, 0)] + row
            tried = [(j, 0) for j in range(28) if j != 8] + [(8, 3), (kind + 100, 0), (kind + 100, 1), (kind % 26 + 101, 0)]
            for mark in tried:
                yield Case(SOURCE, before + [mark], turn % 2, room=turn % 3)
                turn += 1
            yield Case(SOURCE, before, turn % 2)
    for before in ([], LEAST[1], LEAST[3], LEAST[7], LEAST[6], LEAST[6] + LEAST[2]):
        yield Case(SOURCE, before)
        yield from (Case(SOURCE, before + [(j, 0)]) for j in [*range(28), *range(100, 128)])
    # a whole child in each place where it may stand
    for kind in MODELS:
        for row in places(kind):
            for j in LEAST:
                marks = BEFORE[kind] + [(kind, 0)] + row + LEAST[j]
                if refusal(SOURCE.encode(), marks) == len(marks):
                    yield Case(SOURCE, closed(marks))


def closed(marks):
    """A list with what is still open closed."""
    stack = []
    for kind, _ in marks:
        stack = stack + [kind] if kind < 100 else stack[:-1]
    return marks + [(k + 100, 0) for k in reversed(stack)]


def message(*elements): return node(1, NAME, node(11, *elements))


def holding(*expression): return message(node(13, *expression))


def deep(n, inside, of=13): return inside if n == 0 else node(of, deep(n - 1, inside, of))


def call(*arguments): return node(22, NAME, node(25, *arguments))


def calls_deep(n, inside=()): return list(inside) if n == 0 else call(calls_deep(n - 1, inside))


def select(*variants): return node(14, t(20), *variants)


def well_formed():
    """Lists that no reading gives."""
    yield from ([], LEAST[1], LEAST[1] * 3, LEAST[2], LEAST[3], LEAST[4] + LEAST[5], LEAST[6] + LEAST[1], LEAST[6] + LEAST[2], LEAST[7] * 2)
    yield node(6, t(8), t(8, 1, 1), t(8, 6, 7)) + node(2, t(9, 0, 0), VALUE)
    yield node(3, t(8, 5, 8), t(8, 3, 5), t(8, 0, 8)) + node(4, t(8, 6, 7)) + LEAST[7] + node(5, t(8)) + LEAST[3]
    yield LEAST[7] + LEAST[3] + t(7, 5, 6) + LEAST[1] + t(7, 8, 8) + LEAST[4]
    yield LEAST[6] + LEAST[1] + LEAST[3] + LEAST[7] + LEAST[6] + LEAST[1] + LEAST[3]
    yield node(1, NAME, node(10, NAME, VALUE), node(10, NAME, node(11, t(12, 5, 6), t(12))))
    yield node(1, t(9, 0, 8), node(11, t(12, 2, 3), t(12, 5, 6), t(12)), node(10, t(9, 3, 5), node(11, t(12, 5, 6))))
    yield node(1, NAME, node(11, t(12, 0, 8), t(12, 5, 8), t(12, 7, 8)))
    yield message(t(12, 7, 8)) + message(t(12, 7, 8), t(12, 5, 6), t(12)) + message(t(12, 8, 8), t(12, 2, 3), t(12, 5, 6))
    for e in (t(19, 0, 8), t(19, 5, 6), t(20, 1, 1), node(21, t(9, 5, 6)), node(23, NAME, t(9, 1, 2)), node(24, NAME, t(9, 1, 2)), node(24, NAME, t(9, 1, 2), node(25, t(20), LEAST[26])),
              node(24, NAME, node(25, LEAST[26], LEAST[26])), call(LEAST[24], deep(2, t(20)), call(call()), LEAST[26]), call(node(26, NAME, deep(1, select(LEAST[15])))),
              node(26, NAME, call())[3:-1], select(), select(LEAST[15], LEAST[16], LEAST[16], LEAST[15]), node(14, deep(1, select(LEAST[16])), LEAST[16]),
              node(14, call(deep(1, select(LEAST[16]))), node(16, t(18, 5, 6), node(11, t(12, 5, 6), t(12)))), select(node(16, t(17, 3, 5), node(11, t(12, 2, 3), t(12, 5, 6)))),
              select(node(15, t(18), node(11, node(13, select(LEAST[16], LEAST[15])), t(12))))):
        yield holding(e)
        yield holding(node(13, e)) + LEAST[3]
        yield message(t(12), node(13, node(13, node(13, e))), t(12, 5, 6))
        yield node(2, NAME, node(11, node(13, e), node(13, e)), node(10, NAME, node(11, t(12, 2, 3), node(13, e))))
    yield message(deep(64, t(20)))
    yield message(deep(64, select(LEAST[16])))
    yield holding(calls_deep(63)) + holding(calls_deep(63, t(19)))
    yield message(deep(63, node(24, NAME, node(25)))) + message(deep(63, call())) + message(deep(64, LEAST[24]))


def ill_formed():
    """Lists for each place where the value is decided."""
    yield from (message(deep(65, t(20))), message(deep(64, call())), holding(calls_deep(64)), holding(calls_deep(63, call())), holding(calls_deep(63, deep(1, t(20)))),
                message(deep(64, node(24, NAME, node(25)))), message(deep(64, select(node(15, t(18), node(11, node(13, t(20))))))))
    yield from (t(7, 3, 2), t(7, 4, 5), t(7, 3, 4), t(7, 0, 4), t(7, 8, 9), t(7, 9, 9), t(7, 9, 0), t(7, NO_MARK, NO_MARK), t(7, 0, NO_MARK), t(7, 8, 7))
    yield from (holding(t(k, *p)) for k in (19, 20) for p in ((2, 1), (4, 4), (0, 4), (9, 9)))
    yield from (node(1, t(9, *p)) for p in ((2, 1), (4, 4), (0, 4), (9, 9)))
    yield from (node(k, t(8, *p)) for k in (3, 4, 5, 6) for p in ((2, 1), (4, 8), (5, 9)))
    yield from (holding(select(node(15, t(k, 2, 1), VALUE))) for k in (17, 18))
    yield from (message(t(12), t(12, *p)) for p in ((2, 1), (4, 4), (3, 4), (9, 9)))
    yield from (LEAST[6], LEAST[1] + LEAST[6], LEAST[6] * 2 + LEAST[1], LEAST[6] + LEAST[7], LEAST[6] + LEAST[3], LEAST[6] + LEAST[4] + LEAST[1])
    yield from ([(1, 1), *NAME, (101, 0)], [(1, 0), *NAME, (101, 1)], [(3, 0), (103, 2)], [(3, NO_MARK), (103, 0)], [(11, 0), (111, 0)], [(101, 0)], [(100, 0)], [(0, 0)], [(27, 0)], [(127, 0)])
    yield from ([(NO_MARK, 0)], [(7, 0), (7, 0)], [(7, 0), (109, 1)], [(7, 0), (3, 0)], [(7, 0), (0, 1)], [(1, 0), *NAME, (102, 0)], [(257, 0)], [(1, 0), (265, 0)], [(65543, 0), (107, 0)])
    yield from (LEAST[1] + [m] for m in ((101, 0), (109, 1), (9, 0), (200, 0), (0, 0)))


def list_cases():
    wells = list(well_formed())
    for turn, marks in enumerate(wells):
        assert refusal(SOURCE.encode(), marks) is None, marks
        yield from (Case(SOURCE, marks, junk, (0, 3, -1)[(turn + junk) % 3], room=turn % 2, capacity=len(marks) + turn % 5) for junk in (0, 1))
    for marks in ill_formed():
        assert refusal(SOURCE.encode(), marks) is not None, marks
        yield Case(SOURCE, marks, 1, 20)
    short = [marks for marks in wells if 6 < len(marks) < 24][::4]
    yield from (Case(SOURCE, marks, count=n) for marks in short for n in range(len(marks)))
    choices = Choices(7)
    for marks in short * 12:
        at, changed = choices.below(len(marks)), list(marks)
        kind, place = changed[at]
        changed[at] = choices.of([(choices.below(27), place), (100 + choices.below(27), place), (kind, choices.below(10)), (kind, 4), (kind ^ 128, place)])
        yield Case(SOURCE, changed, choices.below(2), 4)
    yield from sizes_cases()


def sizes_cases():
    one = LEAST[1]
    yield from (Case(SOURCE, one, words=n) for n in range(12))
    yield from (Case(SOURCE, [], count=c, capacity=n, words=w) for c, n, w in ((0, 0, 2), (0, 0, 1), (1, 0, 2), (1, 0, 9), (0, 1, 3), (0, 1, 4), (0, 9, 20), (0, 9, 19), (0, 8000000, 65600),
                                                                              (0, 8000001, 65600), (0, NO_MARK, 9), (NO_MARK, NO_MARK, 9), (NO_MARK, 3, 9), (0, 2**31, 2), (0, 2**31 - 1, 2)))
    yield from (Case(SOURCE, one, count=c, capacity=n, room=3) for c, n in ((4, 4), (4, 20), (5, 4), (3, 4), (5, 5), (0, 4)))
    yield from (Case(SOURCE, t(7), 1, spare, capacity=9) for spare in (0, -1, 1, 60))
    yield from (Case(s, one, length=n) for s, n in (('a', 1000001), ('a', 1000000), (b'\xff', 1000001), (b'a\xff', 9), (b'ab\xc3', 3)))
    yield from (Case(s, NAME, count=9) for s in ('ab', b'\xff'))
    yield from (Case('a', t(7, 0, 40000), 1, spare, length=50000) for spare in (0, 9, -1))
    yield Case('a', t(7, 49999, 50001), 1, 4, length=50000)


def main():
    oracle = sys.argv[1]
    files = {'texts-read': list(read_cases(oracle)), 'texts-models': list(model_cases()), 'texts-lists': list(list_cases())}
    crate = os.path.join(ROOT, 'crates/vectors')
    numbers = set()
    for name, cases in files.items():
        numbers.update(case.answer()[0] for case in cases)
        with open(os.path.join(crate, 'data', name), 'wb') as f:
            f.write(b''.join(case.pack() for case in cases))
    assert numbers == {0, 1, 2, 6, 7}, numbers
    for path, line in (('args', '{}\n'), ('stdout', '{}: {} cases, 0 different\n')):
        with open(os.path.join(crate, path)) as f:
            lines = [x for x in f if not x.startswith('texts-')]
        with open(os.path.join(crate, path), 'w') as f:
            f.write(''.join(lines + [line.format(name, len(cases)) for name, cases in files.items()]))
    print(sum(map(len, files.values())), 'cases')


if __name__ == '__main__':
    main()
