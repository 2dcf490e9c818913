#!/usr/bin/env python3
"""Writes runs of scripts as theorems that hold by computation: crates/model_runs/proofs.

    python3 tools/run_vectors.py VECTORS tools/own_runs.json crates/model_runs/proofs

VECTORS is a file of scripts with what is expected of them, worked out apart from this program: a list `scripts`, each with `name`,
`script`, `path`, `arguments`, `budget`, `files`, `clock`, `words`, `lines`, and `closing`, `output`, `steps`, `finals` and `pages1`,
the rows of its moments, and `evaluations`, some of them with the graph text of
the value, the steps up to and with each, and its slice, and what the slice gives, run
again, in how many steps (`value`, `value_steps`, `slice`, `replay`, `replay_steps`);
and which statement depends on which (`dataflow`).
In `own_runs.json` the moments are not written down, but which statements ended how (`endings`), or evaluations with their slices. The syntax trees are those of Python's own `ast`. It wants Python 3.11.
"""
import ast, io, json, sys, tokenize

BIN = {ast.Add: 'Add', ast.Sub: 'Sub', ast.Mult: 'Mul', ast.FloorDiv: 'FloorDiv', ast.Mod: 'Mod'}
UN = {ast.UAdd: 'Plus', ast.USub: 'Minus', ast.Not: 'Negation'}
CMP = {ast.Eq: 'Eq', ast.NotEq: 'Ne', ast.Lt: 'Lt', ast.LtE: 'Le', ast.Gt: 'Gt', ast.GtE: 'Ge', ast.In: 'In',
       ast.NotIn: 'NotIn', ast.Is: 'Is', ast.IsNot: 'IsNot'}


def codes(data):
    """The bytes as a list of numbers in antt."""
    if isinstance(data, str):
        data = data.encode()
    if not data:
        return '[]'
    parts, run = [], b''
    def flush():
        nonlocal run
        if run:
            parts.append('codes "%s"' % run.decode())
            run = b''
    for byte in data:
        if 32 <= byte < 127 and byte not in (34, 92):
            run += bytes([byte])
        else:
            flush()
            parts.append('(%d ∷ [])' % byte)
    flush()
    return '(' + ' ++ '.join(parts) + ')'


def row(items, end='[]'):
    return '(' + ''.join(i + ' ∷ ' for i in items) + end + ')'


def integer(i):
    return '(pos %d)' % i if i >= 0 else '(negsuc %d)' % (-i - 1)


class Tree:
    """The pure tree of a script."""

    def __init__(self, source):
        self.source = source
        self.tokens = [t for t in tokenize.generate_tokens(io.StringIO(source).readline)
                       if t.type not in (tokenize.NL, tokenize.COMMENT)]
        self.count = 0
        self.starts = []
        self.module = ast.parse(source)

    def at(self, line, col):
        text = self.source.split('\n')[line - 1]
        return '(place %d %d)' % (line, len(text[:col].encode()) + 1)

    def start(self, node):
        line = self.source.split('\n')[node.lineno - 1].encode()
        return '(place %d %d)' % (node.lineno, node.col_offset + 1)

    def after(self, node, words):
        """The place of the first of these tokens behind a node, brackets around it passed over."""
        line = self.source.split('\n')[node.end_lineno - 1].encode()[:node.end_col_offset].decode()
        end = (node.end_lineno, len(line))
        for t in self.tokens:
            if t.start >= end:
                if t.string in words:
                    return self.at(*t.start)
                assert t.string == ')', (t, words)
        raise Exception(words)

    def expr(self, e):
        t = type(e)
        if t is ast.Constant:
            v = e.value
            atom = 'none_atom' if v is None else '(truth_atom %s)' % str(v).lower() if isinstance(v, bool) \
                else '(int_atom (pos %d))' % v if isinstance(v, int) else '(text_atom %s)' % codes(v)
            return '(const_expr %s %s)' % (self.start(e), atom)
        if t is ast.Name:
            return '(var_expr %s %s)' % (self.start(e), codes(e.id))
        if t is ast.UnaryOp:
            return '(unary_expr %s %s %s)' % (self.start(e), UN[type(e.op)], self.expr(e.operand))
        if t is ast.BinOp:
            return '(binary_expr %s %s %s %s)' % (self.after(e.left, ['+', '-', '*', '//', '%']), BIN[type(e.op)], self.expr(e.left), self.expr(e.right))
        if t is ast.Compare:
            [op], [right] = e.ops, e.comparators
            return '(compare_expr %s %s %s %s)' % (self.after(e.left, ['==', '!=', '<', '<=', '>', '>=', 'in', 'not', 'is']), CMP[type(op)], self.expr(e.left), self.expr(right))
        if t is ast.BoolOp:
            word, name = ('and', 'Both') if isinstance(e.op, ast.And) else ('or', 'Either')
            s = self.expr(e.values[0])
            for before, v in zip(e.values, e.values[1:]):
                s = '(logic_expr %s %s %s %s)' % (self.after(before, [word]), name, s, self.expr(v))
            return s
        if t is ast.IfExp:
            return '(choose_expr %s %s %s %s)' % (self.after(e.body, ['if']), self.expr(e.test), self.expr(e.body), self.expr(e.orelse))
        if t is ast.Call:
            return '(call_expr %s %s %s)' % (self.after(e.func, ['(']), self.expr(e.func), self.exprs(e.args))
        if t is ast.Attribute:
            return '(attr_expr %s %s %s)' % (self.after(e.value, ['.']), self.expr(e.value), codes(e.attr))
        if t is ast.Subscript:
            at = self.after(e.value, ['['])
            if isinstance(e.slice, ast.Slice):
                limit = lambda x: 'no_expr' if x is None else '(some_expr %s)' % self.expr(x)
                return '(range_expr %s %s %s %s)' % (at, self.expr(e.value), limit(e.slice.lower), limit(e.slice.upper))
            return '(part_expr %s %s %s)' % (at, self.expr(e.value), self.expr(e.slice))
        if t is ast.List:
            return '(list_expr %s %s)' % (self.start(e), self.exprs(e.elts))
        if t is ast.Dict:
            s = 'end_pairs'
            for k, v in reversed(list(zip(e.keys, e.values))):
                s = '(more_pairs %s %s %s)' % (self.expr(k), self.expr(v), s)
            return '(dict_expr %s %s)' % (self.start(e), s)
        if t is ast.Tuple:
            at = self.after(e.elts[0], [',']) if e.elts else self.start(e)
            return '(tuple_expr %s %s)' % (at, self.exprs(e.elts))
        raise Exception(t)

    def exprs(self, es):
        s = 'end_exprs'
        for e in reversed(es):
            s = '(more_exprs %s %s)' % (self.expr(e), s)
        return s

    def target(self, e):
        t = type(e)
        if t is ast.Name:
            return '(var_target %s %s)' % (self.start(e), codes(e.id))
        if t is ast.Subscript:
            return '(part_target %s %s %s)' % (self.after(e.value, ['[']), self.expr(e.value), self.expr(e.slice))
        if t is ast.Attribute:
            return '(field_target %s %s %s)' % (self.after(e.value, ['.']), self.expr(e.value), codes(e.attr))
        s = 'end_targets'
        for x in reversed(e.elts):
            s = '(more_targets %s %s)' % (self.target(x), s)
        return '(many_target %s)' % s

    def option(self, e):
        return 'None' if e is None else '(Some %s)' % self.expr(e)

    def bound(self, name, before):
        if name is None:
            return 'None'
        i = [k for k, t in enumerate(self.tokens) if t.start >= before and t.string == 'as'][0] + 1
        return '(Some (record { at = %s; name = %s }))' % (self.at(*self.tokens[i].start), codes(name))

    def suite(self, body):
        parts = [self.stmt(s) for s in body if not isinstance(s, ast.Global)]
        s = 'end_suite'
        for p in reversed(parts):
            s = '(more_suite %s %s)' % (p, s)
        return s

    def kept_in(self, text):
        """Which statements stand in a slice: its text has their first byte, which is no `pass` put there."""
        old, new = self.source.split('\n'), text.split('\n')
        marks = []
        for line, col in self.starts:
            before, after = old[line - 1].encode()[col:], new[line - 1].encode()[col:]
            marks.append(after[:1] != b' ' and after != b'' and not (after[:4] == b'pass' and before[:4] != b'pass'))
        return marks

    def stmt(self, s):
        number = self.count
        self.count += 1
        self.starts.append((s.lineno, s.col_offset))
        return '(one_stmt %d %s no_span %s)' % (number, self.start(s), self.form(s))

    def form(self, s):
        t = type(s)
        if t is ast.Expr:
            return '(do_form %s)' % self.expr(s.value)
        if t is ast.Assign:
            [target] = s.targets
            return '(assign_form %s %s)' % (self.target(target), self.expr(s.value))
        if t is ast.AugAssign:
            return '(aug_form %s %s %s %s)' % (self.target(s.target), BIN[type(s.op)], self.after(s.target, ['+=', '-=', '*=', '//=', '%=']), self.expr(s.value))
        if t is ast.Delete:
            return '(del_form %s)' % self.target(s.targets[0])
        if t in (ast.Pass, ast.Break, ast.Continue):
            return t.__name__.lower() + '_form'
        if t is ast.Return:
            return '(return_form %s)' % self.option(s.value)
        if t is ast.Raise:
            return '(raise_form %s)' % self.option(s.exc)
        if t is ast.Assert:
            return '(assert_form %s %s)' % (self.expr(s.test), self.option(s.msg))
        if t is ast.Import:
            return '(import_form %s)' % codes(s.names[0].name)
        if t is ast.If:
            branches = []
            while True:
                branches.append((self.expr(s.test), self.suite(s.body)))
                if len(s.orelse) == 1 and isinstance(s.orelse[0], ast.If) and self.source.split('\n')[s.orelse[0].lineno - 1][s.orelse[0].col_offset:].startswith('elif'):
                    s = s.orelse[0]
                    continue
                other = '(else_suite %s)' % self.suite(s.orelse) if s.orelse else 'no_else'
                break
            rest = 'end_branches'
            for test, body in reversed(branches):
                rest = '(more_branches %s %s %s)' % (test, body, rest)
            return '(if_form %s %s)' % (rest, other)
        if t is ast.While:
            assert not s.orelse
            return '(while_form %s %s)' % (self.expr(s.test), self.suite(s.body))
        if t is ast.For:
            assert not s.orelse
            return '(for_form %s %s %s)' % (self.target(s.target), self.expr(s.iter), self.suite(s.body))
        if t is ast.Try:
            assert not s.orelse and not s.finalbody
            body, handlers = self.suite(s.body), []
            for h in s.handlers:
                handlers.append('%s %s %s' % (self.option(h.type), self.bound(h.name, (h.lineno, h.col_offset)), self.suite(h.body)))
            rest = 'end_handlers'
            for h in reversed(handlers):
                rest = '(more_handlers %s %s)' % (h, rest)
            return '(try_form %s %s)' % (body, rest)
        if t is ast.With:
            [item] = s.items
            bound = self.bound(item.optional_vars.id if item.optional_vars else None, (s.lineno, s.col_offset))
            return '(with_form %s %s %s)' % (self.expr(item.context_expr), bound, self.suite(s.body))
        if t is ast.FunctionDef:
            names = [n for x in s.body if isinstance(x, ast.Global) for n in x.names]
            return '(def_form %s %s %s %s)' % (codes(s.name), row([codes(a.arg) for a in s.args.args]), row([codes(n) for n in names]), self.suite(s.body))
        if t is ast.ClassDef:
            base = s.bases[0] if s.bases else None
            return '(class_form %s %s %s)' % (codes(s.name), self.option(base), self.suite(s.body))
        raise Exception(t)

    def text(self):
        body = self.suite(self.module.body)
        return 'record { body = %s; count = %d }' % (body, self.count)


class Rows:
    """The moments that pages hold."""

    def __init__(self, pages):
        self.texts, self.tuples, self.moments = [], [], []
        for page in pages:
            self.b, self.i = bytes.fromhex(page), 0
            while self.i < len(self.b):
                self.one()

    def byte(self):
        self.i += 1
        return self.b[self.i - 1]

    def num(self):
        r = shift = 0
        while True:
            x = self.byte()
            r |= (x & 127) << shift
            shift += 7
            if x < 128:
                return r

    def int(self):
        n = self.num()
        return (n >> 1) ^ -(n & 1)

    def place(self):
        line = self.num()
        return '(place %d %d)' % (line, self.num())

    def value(self):
        t = self.byte()
        if t < 3:
            return ['nothing', '(truth false)', '(truth true)'][t]
        if t == 3:
            return '(int %s)' % integer(self.int())
        if t == 4:
            return '(text %s)' % codes(self.texts[self.num()])
        if t == 5:
            return self.tuples[self.num()]
        if t == 6:
            return '(range %s %s %s)' % (integer(self.int()), integer(self.int()), integer(self.int()))
        if t == 7:
            return '(function %s)' % self.place()
        if t == 8:
            return '(class %s)' % self.place()
        return '(%s %d)' % ({9: 'exception_class', 10: 'builtin', 11: 'object'}[t], self.num())

    def values(self):
        return [self.value() for _ in range(self.num())]

    def location(self):
        t = self.byte()
        if t == 0:
            scope = self.num()
            return t, '(var_at %d %s)' % (scope, codes(self.texts[self.num()]))
        if t == 2:
            o = self.num()
            return t, '(item_at %d %d)' % (o, self.num())
        if t == 3:
            o = self.num()
            return t, '(entry_at %d %s)' % (o, self.value())
        if t == 5:
            return t, '(file_at %s)' % codes(self.texts[self.num()])
        if t == 8:
            p = self.place()
            return t, '(method_at %s %s)' % (p, codes(self.texts[self.num()]))
        if t == 9:
            return t, '(base_at %s)' % self.place()
        return t, '(%s %d)' % ({1: 'len_at', 4: 'order_at', 6: 'offset_at', 7: 'closed_at'}[t], self.num())

    def content(self, t):
        if t in (0, 9):
            word = {0: 'var_is', 9: 'base_is'}[t]
            return '(%s None)' % word if self.byte() == 0 else '(%s (Some %s))' % (word, self.value())
        if t == 1 or t == 6:
            return '(%s %d)' % ({1: 'len_is', 6: 'offset_is'}[t], self.num())
        if t == 2:
            return '(item_is %s)' % self.value()
        if t == 3:
            if self.byte() == 0:
                return '(entry_is None)'
            key = self.value()
            return '(entry_is (Some (%s, %s)))' % (key, self.value())
        if t == 4:
            return '(order_is %s)' % row(self.values())
        if t == 5:
            return '(file_is %s)' % codes(self.texts[self.num()])
        if t == 7:
            return '(closed_is %s)' % ['false', 'true'][self.byte()]
        return '(method_is %s)' % self.place()

    def access(self):
        kind = self.byte()
        t, location = self.location()
        if kind == 0:
            return '(reads %s)' % location
        if kind == 1:
            return '(sets %s %s)' % (location, self.content(t))
        if t == 4:
            word = ['key_inserted', 'key_deleted'][self.byte()]
            return '(updates %s (%s %s))' % (location, word, self.value())
        return '(updates %s (bytes_appended %s))' % (location, codes(self.texts[self.num()]))

    def accesses(self):
        return row([self.access() for _ in range(self.num())])

    def one(self):
        t = self.byte()
        if t == 1:
            n = self.num()
            self.texts.append(self.b[self.i:self.i + n])
            self.i += n
        elif t == 2:
            s = 'no_parts'
            for v in reversed(self.values()):
                s = '(part %s %s)' % (v, s)
            self.tuples.append('(tuple %s)' % s)
        elif t == 3:
            self.moments.append('begins %d' % self.num())
        elif t == 4:
            place, op, values, a = self.place(), self.byte(), row(self.values()), self.byte()
            answer = '(value %s)' % self.value() if a == 0 else '(raised %d)' % self.num() if a == 1 else 'at_end'
            m = self.byte()
            if m == 0:
                made = 'None'
            elif m < 3:
                made = '(Some %s)' % ['a_list', 'a_dict'][m - 1]
            elif m == 3:
                made = '(Some (an_instance %s))' % self.value()
            else:
                path = codes(self.texts[self.num()])
                made = '(Some (a_file %s %s))' % (path, ['Read', 'Write', 'Append'][self.byte()])
            accesses = self.accesses()
            self.moments.append('does %s %d %s %s %s %s %d' % (place, op, values, answer, made, accesses, self.num()))
        elif t == 5:
            place, function, values = self.place(), self.place(), row(self.values())
            self.moments.append('enters %s %s %s %s' % (place, function, values, self.accesses()))
        elif t == 6:
            self.moments.append('leaves %s' % self.value())
        elif t == 7:
            self.moments.append('ends %d %s' % (self.ended(), ['normal_end', 'break_end', 'continue_end', 'return_end', 'raise_end'][self.byte()]))

    def ended(self):
        """The statement that ends is the innermost that began and did not end; an activation brackets those in it."""
        open_ = []
        for m in self.moments:
            word = m.split(' ')
            if word[0] == 'begins':
                open_.append(int(word[1]))
            elif word[0] == 'ends':
                open_.pop()
        return open_[-1]


HEAD = '''-- Runs of scripts, as theorems that hold by computation: their ends, steps, output and files, and all of their moments.
-- Written by tools/run_vectors.py from scripts with what is expected of them.
use Rattle.std.proofs.Common.{◌≡◌, ℕ, List, [], ◌∷◌, ◌++◌, Option, Some, None, codes, refl}
use Rattle.std.specs.Prelude.{pos, negsuc, true, false, reverse}
use Rattle.std.specs.Str.{chars, is_utf8}
use Rattle.std.specs.Char.{encode_utf8}
use Rattle.prov_base.specs.declared.place.Pos.{Pos}
use Rattle.prov_base.specs.declared.place.Span.{Span}
use Rattle.py_tree.specs.declared.expr.Atom.TheVariants.{None as none_atom, Bool as truth_atom, Int as int_atom, Text as text_atom}
use Rattle.py_tree.specs.declared.expr.UnOp.TheVariants.{Minus, Plus, Not as Negation}
use Rattle.py_tree.specs.declared.expr.LogicOp.TheVariants.{And as Both, Or as Either}
use Rattle.py_tree.specs.declared.expr.BinOp.TheVariants.{Add, Sub, Mul, FloorDiv, Mod}
use Rattle.py_tree.specs.declared.expr.CmpOp.TheVariants.{Eq, Ne, Lt, Le, Gt, Ge, In, NotIn, Is, IsNot}
use Rattle.py_tree.specs.Tree.{const_expr, var_expr, unary_expr, binary_expr, compare_expr, logic_expr, choose_expr, call_expr, attr_expr, part_expr, range_expr, list_expr, dict_expr, tuple_expr, no_expr, some_expr, end_exprs, more_exprs, end_pairs, more_pairs, var_target, part_target, field_target, many_target, end_targets, more_targets, one_stmt, do_form, assign_form, aug_form, del_form, pass_form, break_form, continue_form, return_form, raise_form, assert_form, import_form, if_form, while_form, for_form, try_form, with_form, def_form, class_form, end_suite, more_suite, end_branches, more_branches, no_else, else_suite, end_handlers, more_handlers, ScriptTree}
use Rattle.py_value.specs.declared.access.Mode.TheVariants.{Read, Write, Append}
use Rattle.py_value.specs.Contents.{nothing, truth, int, text, tuple, range, function, class, exception_class, builtin, object, no_parts, part}
use Rattle.py_value.specs.Seen.{a_list, a_dict, an_instance, a_file, var_at, len_at, item_at, entry_at, order_at, file_at, offset_at, closed_at, method_at, base_at, var_is, len_is, item_is, entry_is, order_is, file_is, offset_is, closed_is, method_is, base_is, key_inserted, key_deleted, bytes_appended, reads, sets, updates}
use Rattle.py_model.specs.Capture.{Capture, opening_in}
use Rattle.py_model.specs.Meaning.{Run, run, level, finished, uncaught, out_of_steps}
use Rattle.py_model.specs.Moment.{Moment, begins, does, enters, leaves, ends, normal_end, break_end, continue_end, return_end, raise_end}
use Rattle.py_model.specs.Plan.{value, raised, at_end, time, word, line, number, random_word, a_line, no_line, failed, found_bytes, absent, too_large, found_failed}
use Rattle.model_runs.specs.Words.{place, no_span, silent, summary, endings, evaluated, kept, depends, replayed}
use Rattle.slice_law.specs.Edges.{edge, by_data, by_name, by_control, by_jump}
'''


def captured(v):
    """The capture as a list of answers and a list of files: the record of the vector, taken apart."""
    b, i = bytes.fromhex(v['capture']), 0
    r = Rows([])
    r.b, r.i = b, 0
    answers, files = [], []
    string = lambda: (lambda n: (r.b[r.i:r.i + n], setattr(r, 'i', r.i + n))[0])(r.num())
    for _ in range(r.num()):
        at, k, t = r.place(), r.num(), r.byte()
        if t == 0:
            what, given = 'time', '(number %s)' % integer(r.int())
        elif t == 1:
            what, given = 'word', '(random_word %d)' % r.num()
        elif t == 2:
            what, given = 'line', '(a_line %s)' % codes(string())
        elif t == 3:
            what, given = 'line', 'no_line'
        else:
            what, given = ['time', 'word', 'line'][r.byte()], 'failed'
        answers.append((at, k, what, given))
    found = {p: f for p, f in v['files'].items()} if isinstance(v['files'], dict) else dict(v['files'])
    for _ in range(r.num()):
        path, t = string(), r.byte()
        if t == 0:
            r.i += 20
            files.append((codes(path), '(found_bytes %s)' % codes(bytes.fromhex(found[path.decode()]))))
        else:
            files.append((codes(path), ['', 'absent', 'too_large', 'found_failed'][t]))
    assert r.i == len(b)
    return answers, files


def theorem(v, name, with_moments):
    tree = Tree(v['script'])
    rows = Rows(v.get('pages1', []))
    answers, files = captured(v)
    capture = 'record { answers = %s; files = %s; ends = silent }' % (
        row(['record { at = %s; k = %d; what = %s; given = %s }' % a for a in answers]), row(['(%s, %s)' % f for f in files]))
    closing = v.get('closing') or ''
    if 'out of steps' in closing:
        end = 'out_of_steps'
    elif 'uncaught' in closing:
        raised = v.get('raised') or int([m for m in rows.moments if '(raised ' in m][-1].split('(raised ')[1].split(')')[0])
        end = 'uncaught %d %d' % (raised, int(closing.split(' at line ')[1].split(':')[0]))
    else:
        end = 'finished'
    finals = v['finals'].items() if isinstance(v['finals'], dict) else v['finals']
    out = ['abbrev pub %s_tree : ScriptTree' % name, '%s_tree = %s' % (name, tree.text()), '']
    words = row([codes(a) for a in v['arguments']])
    out += ['abbrev pub %s_capture : Capture' % name, '%s_capture = %s' % (name, capture), '']
    out += ['abbrev pub %s_run : Run' % name, '%s_run = run %s_tree %s %s %s_capture %d' % (name, name, codes(v['path']), words, name, v['budget']), '']
    out += ['%s : summary %s_run ≡ record { end = %s; steps = %d; output = %s; finals = %s }' % (
        name, name, end, v['steps'], codes(bytes.fromhex(v['output'])), row(['(%s, %s)' % (codes(p), codes(bytes.fromhex(f))) for p, f in finals])),
        'unfolding is_utf8 chars encode_utf8 level', '%s = refl' % name, '']
    if 'endings' in v:
        out += ['%s_endings : endings %s_run.moments ≡ %s' % (name, name, row(['(%d, %s_end)' % (n, how) for n, how in v['endings']])),
                'unfolding is_utf8 chars encode_utf8 level', '%s_endings = refl' % name, '']
    if with_moments:
        out += ['%s_moments : %s_run.moments ≡' % (name, name), '      ' + '\n    ∷ '.join(rows.moments) + '\n    ∷ []' if rows.moments else '    []',
                'unfolding is_utf8 chars encode_utf8 level', '%s_moments = refl' % name, '']
    if v['evaluations']:
        out += ['%s_values : evaluated %s_tree (opening_in %s_capture %s %s) (reverse %s_run.moments) %s ≡ %s' % (
                    name, name, name, codes(v['path']), words, name, row(['(place %d %d, %d)' % (e['line'], e['col'], e['k']) for e in v['evaluations']]),
                    row(['Some (%s, %d)' % (codes(e['value']), e['value_steps']) for e in v['evaluations']])),
                'unfolding is_utf8 chars encode_utf8 level', '%s_values = refl' % name, '']
        if v['steps'] <= 330 and 'pass' not in v['script']:  # a `pass` that goes may be put there again
            out += ['%s_slices : kept %s_tree (opening_in %s_capture %s %s) (reverse %s_run.moments) %s ≡ %s' % (
                        name, name, name, codes(v['path']), words, name, row(['(place %d %d, %d)' % (e['line'], e['col'], e['k']) for e in v['evaluations']]),
                        row(['Some (true, %s)' % row([str(k).lower() for k in tree.kept_in(e['slice'])]) for e in v['evaluations']])),
                    'unfolding is_utf8 chars encode_utf8 level', '%s_slices = refl' % name, '']
    if v['evaluations'] and v['steps'] <= 330:
        out += ['%s_replays : replayed %s_tree %s_capture %s %s %d (reverse %s_run.moments) %s ≡ %s' % (
                    name, name, name, codes(v['path']), words, v['steps'], name, row(['(place %d %d, %d)' % (e['line'], e['col'], e['k']) for e in v['evaluations']]),
                    row(['Some (%s, %d)' % (codes(e['replay']), e['replay_steps']) for e in v['evaluations']])),
                'unfolding is_utf8 chars encode_utf8 level', '%s_replays = refl' % name, '']
    if v.get('dataflow') and v['steps'] <= 330:
        numbers = {'%d:%d' % (line, col + 1): n for n, (line, col) in enumerate(tree.starts)}
        lines = [l.split(' ') for l in v['dataflow'].splitlines()]
        out += ['%s_dataflow : depends %s_tree (reverse %s_run.moments) %s ≡ (true, true)' % (
                    name, name, name, row(['edge by_%s %d %d' % (l[3], numbers[l[0]], numbers[l[2]]) for l in lines])),
                'unfolding is_utf8 chars encode_utf8 level', '%s_dataflow = refl' % name, '']
    return '\n'.join(out)


def main():
    *files, folder = sys.argv[1:]
    scripts = [v for f in files for v in json.load(open(f))['scripts']]
    for v in scripts:
        try:
            name = v['name'].replace(' ', '_').replace('-', '_')
            short = 'r_' + name
            body = theorem(v, short, 'pages1' in v)
        except AssertionError as e:
            print('left out, not in this language:', v['name'], e, file=sys.stderr)
            continue
        module = ''.join(w.capitalize() for w in name.split('_')) + 'Run'
        open('%s/%s.antt' % (folder, module), 'w').write(HEAD + '\n' + body)
        print(module)


main()
