#!/usr/bin/env python3
"""Checks the answers of the program `language_cases` against Python's own `ast`.

    python3 tools/script_answers.py crates/language_cases          prints each answer that differs
    python3 tools/script_answers.py --write crates/language_cases  puts Python's answers into `stdout`

It knows the sections `tree`, `delete`, `thin`, `cut` (the statements, not the text that is left) and `owners`. All other answers
were worked out by hand and stay as they are. It wants Python 3.11.
"""
import ast, io, sys, tokenize

BIN = {ast.Add: '+', ast.Sub: '-', ast.Mult: '*', ast.FloorDiv: '//', ast.Mod: '%'}
UN = {ast.UAdd: '+', ast.USub: '-', ast.Not: 'not'}
CMP = {ast.Eq: '==', ast.NotEq: '!=', ast.Lt: '<', ast.LtE: '<=', ast.Gt: '>', ast.GtE: '>=', ast.In: 'in',
       ast.NotIn: 'not in', ast.Is: 'is', ast.IsNot: 'is not'}


def text(s):
    return "'" + s.replace('\n', '~') + "'"


def expr(e):
    t = type(e)
    row = lambda word, parts: '(' + ' '.join([word] + [expr(p) for p in parts]) + ')'
    limit = lambda x: '-' if x is None else expr(x)
    if t is ast.Constant:
        return text(e.value) if isinstance(e.value, str) else str(e.value)
    if t is ast.Name:
        return e.id
    if t is ast.UnaryOp:
        return row(UN[type(e.op)], [e.operand])
    if t is ast.BinOp:
        return row(BIN[type(e.op)], [e.left, e.right])
    if t is ast.Compare:
        [op], [right] = e.ops, e.comparators
        return row(CMP[type(op)], [e.left, right])
    if t is ast.BoolOp:
        word = 'and' if isinstance(e.op, ast.And) else 'or'
        s = expr(e.values[0])
        for v in e.values[1:]:
            s = f'({word} {s} {expr(v)})'
        return s
    if t is ast.IfExp:
        return row('if', [e.test, e.body, e.orelse])
    if t is ast.Call:
        assert not e.keywords
        return row('call', [e.func] + e.args)
    if t is ast.Attribute:
        return row('.' + e.attr, [e.value])
    if t is ast.Subscript:
        if isinstance(e.slice, ast.Slice):
            assert e.slice.step is None
            return f'(range {expr(e.value)} {limit(e.slice.lower)} {limit(e.slice.upper)})'
        return row('part', [e.value, e.slice])
    if t is ast.List:
        return row('list', e.elts)
    if t is ast.Tuple:
        return row('tuple', e.elts)
    if t is ast.Dict:
        return row('dict', [x for pair in zip(e.keys, e.values) for x in pair])
    raise ValueError(t)


def target(e):
    if isinstance(e, ast.Tuple):
        return '(' + ' '.join(['many'] + [target(x) for x in e.elts]) + ')'
    return expr(e)


def names(e):
    if isinstance(e, ast.Tuple):
        return {n for x in e.elts for n in names(x)}
    return {e.id} if isinstance(e, ast.Name) else set()


class Node:
    """A statement: its number, place, bytes, words, the names it binds, and its suites, each behind its own words."""

    def __init__(self, no, line, col, start, end, words='', binds=(), suites=()):
        self.no, self.line, self.col, self.start, self.end = no, line, col, start, end
        self.words, self.binds, self.suites = words, set(binds), list(suites)


class Reader:
    def __init__(self, raw):
        self.raw, self.count = raw, 0
        self.starts = [0] + [i + 1 for i, b in enumerate(raw) if b == 10]
        self.rows = raw.decode().split('\n')
        self.last_line = {}
        first = None
        skipped = (tokenize.NL, tokenize.COMMENT, tokenize.INDENT, tokenize.DEDENT, tokenize.ENDMARKER)
        for token in tokenize.generate_tokens(io.StringIO(raw.decode(), newline='').readline):
            if token.type == tokenize.NEWLINE:
                for line in range(first, token.start[0] + 1):
                    self.last_line[line] = token.start[0]
                first = None
            elif token.type not in skipped and first is None:
                first = token.start[0]
        self.body = self.suite(ast.parse(raw.decode()).body)

    def line_end(self, line):
        end = self.starts[line] - 1 if line < len(self.starts) else len(self.raw)
        return end - 1 if self.raw[end - 1:end] == b'\r' else end

    def suite(self, body):
        return [self.stmt(s) for s in body if not isinstance(s, ast.Global)]

    def stmt(self, s):
        node = Node(self.count, s.lineno, s.col_offset + 1, self.starts[s.lineno - 1] + s.col_offset,
                    self.line_end(self.last_line[s.end_lineno]))
        self.count += 1
        self.form(node, s)
        return node

    def form(self, node, s):
        t = type(s)
        one = lambda value: '' if value is None else ' ' + expr(value)
        suite = lambda words, body: node.suites.append((words, self.suite(body)))
        if t is ast.Expr:
            node.words = 'do ' + expr(s.value)
        elif t is ast.Assign:
            [only] = s.targets
            node.words, node.binds = f'= {target(only)} {expr(s.value)}', names(only)
        elif t is ast.AugAssign:
            node.words, node.binds = f'{BIN[type(s.op)]}= {target(s.target)} {expr(s.value)}', names(s.target)
        elif t is ast.Delete:
            [only] = s.targets
            node.words, node.binds = 'del ' + target(only), names(only)
        elif t in (ast.Pass, ast.Break, ast.Continue):
            node.words = t.__name__.lower()
        elif t is ast.Return:
            node.words = 'return' + one(s.value)
        elif t is ast.Raise:
            assert s.cause is None
            node.words = 'raise' + one(s.exc)
        elif t is ast.Assert:
            node.words = 'assert ' + expr(s.test) + one(s.msg)
        elif t is ast.Import:
            [only] = s.names
            assert only.asname is None
            node.words, node.binds = 'import ' + only.name, {only.name}
        elif t is ast.If:
            node.words = 'if ' + expr(s.test)
            suite(None, s.body)
            rest = s.orelse
            while len(rest) == 1 and isinstance(rest[0], ast.If) \
                    and self.rows[rest[0].lineno - 1].lstrip().startswith('elif'):
                suite('elif ' + expr(rest[0].test), rest[0].body)
                rest = rest[0].orelse
            if rest:
                suite('else', rest)
        elif t is ast.While:
            assert not s.orelse
            node.words = 'while ' + expr(s.test)
            suite(None, s.body)
        elif t is ast.For:
            assert not s.orelse
            node.words, node.binds = f'for {target(s.target)} {expr(s.iter)}', names(s.target)
            suite(None, s.body)
        elif t is ast.Try:
            assert not s.orelse and not s.finalbody
            node.words = 'try'
            suite(None, s.body)
            for h in s.handlers:
                suite('except' + one(h.type) + (' as ' + h.name if h.name else ''), h.body)
                node.binds |= {h.name} if h.name else set()
        elif t is ast.With:
            [only] = s.items
            bound = only.optional_vars
            node.words = 'with ' + expr(only.context_expr) + ('' if bound is None else ' as ' + bound.id)
            node.binds = names(bound) if bound else set()
            suite(None, s.body)
        elif t is ast.FunctionDef:
            declared = [n for x in s.body if isinstance(x, ast.Global) for n in x.names]
            node.words = ' '.join(['def', s.name] + [a.arg for a in s.args.args]
                                  + (['global'] + declared if declared else []))
            node.binds = {s.name}
            suite(None, s.body)
        elif t is ast.ClassDef:
            node.words = ' '.join(['class', s.name] + [expr(b) for b in s.bases])
            node.binds = {s.name}
            suite(None, s.body)
        else:
            raise ValueError(t)


def rows_of(body, depth):
    for n in body:
        yield f"{'  ' * depth}{n.no} {n.line}:{n.col} {n.start}-{n.end} {n.words}"
        for words, suite in n.suites:
            if words is not None:
                yield '  ' * depth + words
            yield from rows_of(suite, depth + 1)


def tree(raw):
    reader = Reader(raw)
    return '\n'.join([f'{reader.count} statements'] + list(rows_of(reader.body, 0)))


def deleted(raw, keep):
    """The statements that are left where those of `keep` stay."""
    count = 0

    def rest(body, inside):
        nonlocal count
        kept = []
        for n in body:
            if n.no in keep:
                new = Node(count, n.line, n.col, n.start, n.end, n.words)
                count += 1
                new.suites = [(words, rest(suite, True)) for words, suite in n.suites]
                kept.append(new)
        if inside and not kept:
            n = body[0]
            kept.append(Node(count, n.line, n.col, n.start, n.end, 'pass'))
            count += 1
        return kept

    body = rest(Reader(raw).body, False)
    return '\n'.join([f'{count} statements'] + list(rows_of(body, 0)))


def thinned(raw, step):
    """How many are left where the multiples of `step` stay, and the first and the last that stand in no other."""
    rows = deleted(raw, set(range(0, Reader(raw).count, step)) if step else set()).split('\n')
    ends = [row.split(' ')[:2] for row in rows[1:] if row[:1].isdigit()]
    return rows[0] + ''.join(f', {no} at {place}' for no, place in ends[:1] + ends[-1:])


def standings(raw):
    """Of each statement: its parent, its function, and the names that it binds."""
    found = {}

    def walk(body, parent, function, in_class):
        for n in body:
            kind = n.words.split(' ')[0]
            found[n.no] = (parent, function, set() if kind == 'def' and in_class else n.binds)
            for _, suite in n.suites:
                walk(suite, n.no, n.no if kind == 'def' else function, kind == 'class')

    walk(Reader(raw).body, None, None, False)
    found[len(found)] = (None, None, set())
    return found


def owners(raw):
    found = standings(raw)
    shown = lambda x: '-' if x is None else x
    return '\n'.join([f'{len(found) - 1} statements']
                     + [f'{s} {shown(found[s][0])} {shown(found[s][1])}' for s in sorted(found)])


def bindings(raw, wanted):
    found = standings(raw)
    shown = [f'{s}' + ''.join(' ' + n for n in wanted if n in found[s][2]) for s in sorted(found)]
    return '\n'.join([f'{len(found) - 1} statements'] + shown)


def bytes_of(shown):
    """The bytes that a text of a row stands for."""
    out, raw, i = bytearray(), shown.encode(), 0
    while i < len(raw):
        if raw[i:i + 1] == b'\\' and raw[i + 1:i + 2] == b'x':
            out.append(int(raw[i + 2:i + 4], 16))
            i += 4
        elif raw[i:i + 1] == b'\\' and i + 1 < len(raw):
            out += {b'n': b'\n', b'r': b'\r', b't': b'\t', b's': b' ', b'0': b'\0'}.get(raw[i + 1:i + 2], raw[i + 1:i + 2])
            i += 2
        else:
            out.append(raw[i])
            i += 1
    return bytes(out)


class Asked:
    """The texts of the rows of `stdin`, and Python's answers."""

    def __init__(self):
        self.section, self.raw, self.whole = [''], b'', False

    def add(self, piece):
        self.raw = (b'' if self.whole else self.raw) + piece
        self.whole = False

    def answer(self, row, was):
        """Whether the row asks something, and Python's answer, or else the one that was there."""
        mark, rest = row[:1], row[1:]
        if row.startswith('== '):
            self.section = row[3:].split(' ')
        elif mark == '+':
            self.add(bytes_of(rest) + b'\n')
        elif mark in ('*', '>') and mark:
            times, piece = rest.split(' ', 1)
            for depth in range(int(times)):
                self.add((b' ' * depth if mark == '>' else b'') + bytes_of(piece))
            self.add(b' ' * int(times) if mark == '>' else b'')
        elif mark == '|':
            self.add(bytes_of(rest))
            self.whole = True
            if self.section in (['tree'], ['delete'], ['cut']):
                return tree(self.raw)
            if self.section == ['thin']:
                return f'{Reader(self.raw).count} statements'
            return owners(self.raw) if self.section == ['owners'] else was
        elif mark == '=':
            words = rest.split()
            if self.section == ['delete']:
                return deleted(self.raw, {int(w) for w in words})
            if self.section == ['thin']:
                return thinned(self.raw, int(words[0]))
            if self.section == ['owners']:
                return bindings(self.raw, words)
            if self.section == ['cut'] and was:
                left = was.split('\n')[0]
                return left + '\n' + tree(bytes_of(left[:-1]))
        return was


def answers(asked_rows, told):
    """The rows of `stdin`, each with its answer in `stdout`."""
    lines, i, found = told.split('\n'), 0, []
    for row, after in zip(asked_rows, asked_rows[1:] + [None]):
        line = lines[i] if i < len(lines) else ''
        was = line[len(row) + 4:] if line.startswith(row + ' => ') else None
        i += 1
        while was is not None and i < len(lines) and lines[i] != '' \
                and not (after is not None and (lines[i] == after or lines[i].startswith(after + ' => '))):
            was += '\n' + lines[i]
            i += 1
        found.append((row, was))
    return found


def main():
    folder = sys.argv[-1]
    asked_rows = open(folder + '/stdin', newline='').read().split('\n')[:-1]
    told = open(folder + '/stdout', newline='').read()
    asked, out, differs = Asked(), [], 0
    for row, was in answers(asked_rows, told):
        now = asked.answer(row, was)
        if now != was:
            differs += 1
            print(f'{row}\n  here: {was!r}\n  ast:  {now!r}')
        out.append(row if now is None else f'{row} => {now}')
    if '--write' in sys.argv:
        open(folder + '/stdout', 'w', newline='').write(''.join(line + '\n' for line in out))
    print(f'{differs} answers differ')


if __name__ == '__main__':
    main()
