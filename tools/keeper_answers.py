#!/usr/bin/env python3
"""Works out the answers of the program `keeper_cases` by a model of its own.

    python3 tools/keeper_answers.py crates/keeper_cases          says whether `stdout` has them
    python3 tools/keeper_answers.py --write crates/keeper_cases  puts them there

A store here is four dictionaries, and an open batch is a copy of them. Digests are those of `hashlib`.
"""
import ast, copy, hashlib, io, sys, tokenize


class Failed(Exception):
    pass


class Head(str):
    """A head, shown by its path, with all its fields as a text."""
    full = None

    def __deepcopy__(self, memo):
        return self


def plain_head(path):
    head = Head(path)
    head.full = ' '.join(['1', '2', path] + [('%02x' % n) * 20 for n in (3, 4, 5, 6, 7)] + ['8', '9', '10', '11', '13', '-12', '-'])
    return head


class Store:
    def __init__(self, entries, failing):
        self.listed = {'h': [], 'p': [], 'c': [], 'u': []}   # the committed entries, as they were given or committed
        for entry in entries.split(' '):
            kind, _, rest = entry.partition(':')
            if kind in self.listed:
                self.listed[kind].append(rest)
        self.heads, self.pages, self.contents, self.current = [], {}, {}, {}
        for kind in 'hpcu':
            for rest in self.listed[kind]:
                self.put_entry(kind, rest)
        self.seen = None      # the tables with the batch over them, where one is open
        self.new = []         # the batch's entries
        self.failing, self.made = failing, 0
        self.hashed = set()   # the pages of runs: other pages have a digest that is none of theirs

    def put_entry(self, kind, rest):
        if kind == 'h':
            self.heads.append(plain_head(rest))
        elif kind == 'p':
            trial, number, text = rest.split(':', 2)
            self.pages[int(trial), int(number)] = text
        elif kind == 'c':
            digest, text = rest.split(':', 1)
            self.contents[digest] = text
        else:
            path, trial = rest.split(':', 1)
            self.current[path] = int(trial)

    def whole(self):
        return all(1 <= trial <= len(self.heads) for trial, _ in self.pages)

    def tables(self):
        return self.seen if self.seen is not None else (self.heads, self.pages, self.contents, self.current)

    def count_call(self):
        self.made += 1
        if self.made in self.failing:
            raise Failed

    def begin(self):
        self.seen, self.new = None, []
        self.count_call()
        self.seen = copy.deepcopy((self.heads, self.pages, self.contents, self.current))
        return 'ok'

    def undo(self):
        self.seen, self.new = None, []
        self.count_call()
        return 'ok'

    def commit(self):
        self.count_call()
        self.heads, self.pages, self.contents, self.current = self.seen
        for kind, rest in self.new:
            self.listed[kind].append(rest)
        self.seen, self.new = None, []
        return 'ok'

    def add(self, kind, rest):
        self.count_call()
        self.new.append((kind, rest))
        heads, pages, contents, current = self.seen
        if kind == 'h':
            heads.append(rest)
            return str(len(heads))
        if kind == 'p':
            trial, number, text = rest.split(':', 2)
            pages[int(trial), int(number)] = text
        elif kind == 'c':
            digest, text = rest.split(':', 1)
            contents[digest] = text
        else:
            path, trial = rest.rsplit(':', 1)
            current[path] = int(trial)
        return 'ok'

    def read(self, table, key):
        self.count_call()
        return self.tables()[table].get(key)


def quoted(text):
    return 'none' if text is None else '[' + text + ']'


def shown(store):
    return '{' + ''.join(kind + ':' + rest + ' ' for kind in 'hpcu' for rest in store.listed[kind]) + '}'


def digits(store):
    out = ''
    for kind in 'hpcu':
        for rest in store.listed[kind]:
            if kind == 'p':
                trial, number, text = rest.split(':', 2)
                data = text.encode('latin-1')
                digest = digest_of(data).hex() if (trial, number) in store.hashed else '0e' * 20
                rest = '%s:%s:%s:%s' % (trial, number, digest, data.hex())
            elif kind == 'c':
                digest, text = rest.split(':', 1)
                rest = digest + ':' + text.encode('latin-1').hex()
            out += kind + ':' + rest + ' '
    return '{' + out + '}'


def put(store, text):
    digest = hashlib.sha1(text.encode('latin-1')).hexdigest()
    kept = store.read(2, digest)
    if kept is None:
        store.add('c', digest + ':' + text)
    elif kept != text:
        return 'collision %s %d %d' % (digest, len(kept.encode('latin-1')), len(text.encode('latin-1')))
    return digest


def num(n):
    """Unsigned LEB128."""
    out = b''
    while n > 127:
        out += bytes([n % 128 + 128])
        n //= 128
    return out + bytes([n])


def string(text):
    return num(len(text.encode('latin-1'))) + text.encode('latin-1')


def listed(items):
    return num(len(items)) + b''.join(items)


def parts(word):
    return [] if word == '-' else word.split(';')


def digest_of(data):
    return hashlib.sha1(data).digest()


def answer_record(item):
    place, _, word = item.partition('=')
    line, col, k = map(int, place.split(':'))
    kind, given = word[0], word[2:]
    if word[1:] == '!':
        tail = b'\x04' + bytes(['twl'.index(kind)])
    elif word[1:] == '.':
        tail = b'\x03'
    elif kind == 't':
        time = int(given)
        tail = b'\x00' + num(2 * time if time >= 0 else -2 * time - 1)
    elif kind == 'w':
        tail = b'\x01' + num(int(given))
    else:
        tail = b'\x02' + string(given)
    return num(line) + num(col) + num(k) + tail


def file_record(path, found):
    if isinstance(found, bytes):
        return string(path) + b'\x00' + digest_of(found)
    return string(path) + bytes([{'a': 1, 'l': 2}.get(found, 3)])


def put_bytes(store, data):
    """Puts a content as the program shows it, with its bytes as characters."""
    text = data.decode('latin-1')
    digest = hashlib.sha1(data).hexdigest()
    kept = store.read(2, digest)
    if kept is None:
        store.add('c', digest + ':' + text)
    elif kept != text:
        return 'collision %s %d %d' % (digest, len(kept.encode('latin-1')), len(data))
    return None


def run(store, words):
    path, end, arguments, answers, files, finals, pages, output, text = words.split(' ', 8)
    found = {}
    for item in parts(files):
        name, mark, rest = item.partition('=')
        if mark:
            found.setdefault(name, rest.encode('latin-1'))
        else:
            name, _, kind = item.partition('!')
            found.setdefault(name, kind)
    left = [item.partition('=')[::2] for item in parts(finals)]
    arguments = listed([string(word) for word in parts(arguments)])
    capture = listed([answer_record(item) for item in parts(answers)]) + listed([file_record(name, found[name]) for name in sorted(found, key=lambda name: name.encode('latin-1'))])
    final = listed([string(name) + digest_of(data.encode('latin-1')) for name, data in left])
    pages = [bytes.fromhex(page[2:]) if page.startswith('0x') else page.encode('latin-1') for page in parts(pages)]
    try:
        store.count_call()
        if len(store.heads) >= 1000000:
            return 'full'
        parent = store.read(3, path) or 0
    except Failed:
        return 'failed'
    try:
        store.begin()
    except Failed:
        return 'failed'
    try:
        contents = [text.encode('latin-1'), arguments, capture]
        contents += [found[name] for name in sorted(found, key=lambda name: name.encode('latin-1')) if isinstance(found[name], bytes)]
        contents += [data.encode('latin-1') for _, data in left] + [output.encode('latin-1'), final]
        for data in contents:
            clash = put_bytes(store, data)
            if clash:
                raise ValueError(clash)
        head = Head(path)
        fields = ['1', '1', path] + [digest_of(data).hex() for data in (text.encode('latin-1'), arguments, capture, output.encode('latin-1'), final)]
        head.full = ' '.join(fields + ['1000', '42', end, str(len(pages)), str(parent), '-7', '-'])
        number = int(store.add('h', head))
        for place, page in enumerate(pages):
            store.hashed.add((str(number), str(place)))
            store.add('p', '%d:%d:%s' % (number, place, page.decode('latin-1')))
        store.add('u', '%s:%d' % (path, number))
        store.commit()
        return str(number)
    except (Failed, ValueError) as fault:
        try:
            store.undo()
        except Failed:
            pass
        return 'failed' if isinstance(fault, Failed) else str(fault)


class Bad(Exception):
    """What is amiss of a trial."""


class Reader:
    """Reads a record, and remembers where its present item begins."""

    def __init__(self, data):
        self.data, self.at, self.item = data, 0, 0

    def begin(self):
        self.item = self.at

    def take(self, count):
        if self.at + count > len(self.data):
            raise IndexError
        self.at += count
        return self.data[self.at - count:self.at]

    def num(self, bound=1 << 64):
        n = shift = 0
        while True:
            byte = self.take(1)[0]
            n += (byte & 127) << shift
            shift += 7
            if byte < 128:
                break
        if n >= bound or (byte == 0 and shift > 7):
            raise ValueError
        return n

    def string(self):
        return self.take(self.num())

    def listed(self, item):
        self.begin()
        items = []
        for _ in range(self.num()):
            self.begin()
            items.append(item(items))
        self.begin()
        return items


def is_path(data):
    text = data.decode()
    pieces = text.split('/')
    return 1 <= len(data) <= 255 and all(piece not in ('', '.', '..') for piece in pieces) and pieces[0] != '.noworkflow' and '\0' not in text


def read_answer(reader, items):
    line, col, k = (reader.num(1 << 32) for _ in range(3))
    kind = reader.take(1)[0]
    if kind == 0:
        n = reader.num()
        given = 't+%d' % (n // 2 if n % 2 == 0 else -(n // 2) - 1)
    elif kind == 1:
        given = 'w+%d' % reader.num()
    elif kind == 2:
        given = 'l+' + reader.string().decode('latin-1')
    elif kind == 3:
        given = 'l.'
    elif kind == 4 and reader.take(1)[0] <= 2:
        given = '!'
    else:
        raise ValueError
    if k < 1 or items and not items[-1][0] < (line, col, k):
        raise ValueError
    return (line, col, k), given


def read_file(reader, items):
    path = reader.string()
    kind = reader.take(1)[0]
    found = reader.take(20).hex() if kind == 0 else {1: '!a', 2: '!l', 3: '!f'}[kind]
    if not is_path(path) or items and not items[-1][0] < path:
        raise ValueError
    return path, found, kind == 0


def read_final(reader, items):
    path, digest = reader.string(), reader.take(20).hex()
    if not is_path(path) or any(path == other for other, _ in items):
        raise ValueError
    return path, digest


def read_argument(reader, items):
    text = reader.string()
    text.decode()
    return text


def content(store, digest):
    text = store.read(2, digest)
    if text is None:
        raise Bad('content %s absent' % digest)
    found = hashlib.sha1(text.encode('latin-1')).hexdigest()
    if found != digest:
        raise Bad('content %s found %s' % (digest, found))
    return text.encode('latin-1')


def record(store, digest, read):
    reader = Reader(content(store, digest))
    try:
        value = read(reader)
        if reader.at < len(reader.data):
            raise ValueError
        return value
    except (IndexError, ValueError, KeyError, UnicodeDecodeError):
        raise Bad('record %s byte %d' % (digest, reader.item))


def load_script(store, fields):
    if not is_path(fields[2].encode('latin-1')):
        raise Bad('path')
    return content(store, fields[3]).decode('latin-1')


def load_rest(store, fields):
    arguments = record(store, fields[4], lambda reader: reader.listed(lambda items: read_argument(reader, items)))
    answers, files = record(store, fields[5], lambda reader: (reader.listed(lambda items: read_answer(reader, items)), reader.listed(lambda items: read_file(reader, items))))
    finals = record(store, fields[7], lambda reader: reader.listed(lambda items: read_final(reader, items)))
    output = content(store, fields[6])
    found = [(path, '=' + content(store, what).decode('latin-1') if has_bytes else what) for path, what, has_bytes in files]
    left = [(path, content(store, digest)) for path, digest in finals]
    text = lambda data: data.decode('latin-1')
    return (''.join(text(a) + ';' for a in arguments) + ' ' + ''.join('%d:%d:%d=%s;' % (place + (given,)) for place, given in answers) + ' '
            + ''.join(text(path) + what + ';' for path, what in found) + ' ' + ''.join(text(path) + '=' + text(data) + ';' for path, data in left)
            + ' ' + text(output))


def rows_in(data):
    """How many rows a page of Begins and Ends alone has: other rows are for `row_cases`."""
    at, rows = 0, []
    while at < len(data):
        if data[at] == 3 and at + 1 < len(data) and data[at + 1] < 128:
            rows.append((at, 'begin', data[at + 1]))
        elif data[at] == 7 and at + 1 < len(data) and data[at + 1] <= 4:
            rows.append((at, 'end', 0))
        else:
            raise ValueError(at)
        at += 2
    return rows


def load_rows(store, number, pages, statements):
    gathered, amiss = [], None
    try:
        for page in range(pages):
            text = store.read(1, (number, page))
            if text is None:
                raise Bad('page %d absent' % page)
            data = text.encode('latin-1')
            kept = digest_of(data).hex() if (str(number), str(page)) in store.hashed else '0e' * 20
            if kept != digest_of(data).hex():
                raise Bad('page %d kept %s found %s' % (page, kept, digest_of(data).hex()))
            try:
                gathered.append(rows_in(data))
            except ValueError as bad:
                raise Bad('row at page %d byte %d' % (page, bad.args[0]))
    except Bad as bad:
        amiss = bad
    depth = 0
    for page, rows in enumerate(gathered):
        for at, kind, statement in rows:
            depth += 1 if kind == 'begin' else -1
            if depth < 0 or kind == 'begin' and statement >= statements:
                raise Bad('row at page %d byte %d' % (page, at))
    if amiss:
        raise amiss
    return ' '.join(map(str, [sum(map(len, gathered))] + [len(rows) for rows in gathered]))


def refused_place(text):
    """The first token of a line that cannot stand where it is, for the scripts of the rows: one that the language never has, an `=` with no
    expression before it, or a `)` that closes nothing."""
    before, opened = None, 0
    for token in tokenize.generate_tokens(io.StringIO(text).readline):
        opened += (token.string == '(') - (token.string == ')')
        if token.string in ('lambda', ';') or token.string == before == '=' or opened < 0:
            return '%d:%d' % (token.start[0], token.start[1] + 1)
        before = token.string
    return None


def statements_of(text):
    """How many statements a script has. One that has no such token is a script of the language where it is one of Python."""
    place = refused_place(text)
    if place:
        raise Bad('script at ' + place)
    return sum(isinstance(node, ast.stmt) for node in ast.walk(ast.parse(text)))


def loaded(store, number):
    """The trial with this number, or what is amiss of it first."""
    store.count_call()
    heads = store.tables()[0]
    if not 1 <= number <= len(heads):
        return 'no trial %d' % number
    fields = heads[number - 1].full.split(' ')
    try:
        text = load_script(store, fields)
        statements = statements_of(text)
        rest = load_rest(store, fields)
        rows = load_rows(store, number, int(fields[11]), statements)
    except Bad as bad:
        return 'damaged %d: %s' % (number, bad)
    return '%d %s %s %d / %s / %s' % (number, fields[2], text, statements, rest, rows)


def listed_heads(store):
    store.count_call()
    heads, said = store.tables()[0], ''
    for head in list(heads):
        store.count_call()
        fields = head.full.split(' ')
        said += ' '.join([fields[2], fields[11], fields[12]]) + ';'
    return said


def again(store, number, words):
    """Adds a head once more, with so many pages, and with a digest that names nothing in one place."""
    store.count_call()
    heads = store.tables()[0]
    if not 1 <= number <= len(heads):
        return 'no trial'
    fields = heads[number - 1].full.split(' ')
    pages, _, what = words.partition(' ')
    fields[11] = pages
    if what:
        fields[['script', 'arguments', 'capture', 'output', 'finals'].index(what) + 3] = '0f' * 20
    head = Head(fields[2])
    head.full = ' '.join(fields)
    return store.add('h', head)


def load(store, words):
    number, _, statements = words.partition(' ')
    store.count_call()
    heads, trial = store.tables()[0], int(number)
    if not 1 <= trial <= len(heads):
        return 'none'
    fields = heads[trial - 1].full.split(' ')
    said = []
    for part in (lambda: load_script(store, fields), lambda: load_rest(store, fields), lambda: load_rows(store, trial, int(fields[11]), int(statements or 0))):
        try:
            said.append(part())
        except Bad as bad:
            said.append(str(bad))
        except Failed:
            said.append('failed')
    return ' / '.join(said)


def call(store, step):
    name, _, words = step.partition(' ')
    first, _, second = words.partition(' ')
    if name == 'begin':
        return store.begin()
    if name == 'undo':
        return store.undo()
    if name == 'run':
        return 'open' if store.seen is not None else run(store, words)
    if name == 'load':
        return load(store, words)
    if name == 'trial_whole':
        return loaded(store, int(first))
    if name == 'heads':
        return listed_heads(store)
    if name == 'trial_head':
        store.count_call()
        heads, trial = store.tables()[0], int(first)
        return heads[trial - 1].full if 1 <= trial <= len(heads) else 'no trial %d' % trial
    if name == 'whole':
        store.count_call()
        heads, trial = store.tables()[0], int(first)
        return heads[trial - 1].full if 1 <= trial <= len(heads) else 'none'
    if name == 'open':
        return 'closed' if store.seen is None else 'open'
    if name == 'tables':
        return shown(store)
    if name == 'digits':
        return digits(store)
    if name in ('trial', 'again', 'add', 'keep', 'set', 'put', 'commit') and store.seen is None:
        return 'no batch'
    if name == 'again':
        return again(store, int(first), second)
    if name == 'trial':
        return store.add('h', plain_head(first))
    if name == 'add':
        number, _, text = second.partition(' ')
        if not 1 <= int(first) <= len(store.tables()[0]):
            return 'no trial'
        added = store.add('p', '%d:%d:%s' % (int(first), int(number), text))
        store.hashed.discard((str(int(first)), str(int(number))))
        return added
    if name == 'keep':
        return store.add('c', first + ':' + second)
    if name == 'set':
        return store.add('u', first + ':' + second)
    if name == 'put':
        return put(store, words)
    if name == 'commit':
        return store.commit()
    if name == 'trials':
        store.count_call()
        return str(len(store.tables()[0]))
    if name == 'head':
        store.count_call()
        heads, trial = store.tables()[0], int(first)
        return heads[trial - 1] if 1 <= trial <= len(heads) else 'none'
    if name == 'page':
        return quoted(store.read(1, (int(first), int(second))))
    if name in ('content', 'get'):
        return quoted(store.read(2, first))
    found = store.read(3, first)
    return 'none' if found is None else str(found)


def answers(row):
    entries, failing, calls = row.split('|')
    store = Store(entries, {int(n) for n in failing.split(' ') if n})
    if not store.whole():
        return 'not whole'
    out = ''
    for step in calls.split(','):
        try:
            out += call(store, step) + ','
        except Failed:
            out += 'failed,'
    return out


def main():
    folder = sys.argv[-1]
    rows = open(folder + '/stdin', encoding='latin-1', newline='').read().split('\n')
    text = ''.join('%s\n    %s\n' % (row, answers(row)) for row in rows if row and not row.startswith('#'))
    if '--write' in sys.argv:
        open(folder + '/stdout', 'w', encoding='latin-1', newline='').write(text)
    same = open(folder + '/stdout', encoding='latin-1', newline='').read() == text
    print('the same answers' if same else 'other answers')
    sys.exit(0 if same else 1)


main()
