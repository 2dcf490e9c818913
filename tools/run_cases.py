#!/usr/bin/env python3
"""Writes the rows and the answers of crates/run_cases: scripts that are run over devices in memory.

    python3 tools/run_cases.py VECTORS tools/own_runs.json crates/run_cases

VECTORS and own_runs.json are files of scripts with what is expected of them, worked out apart from this program: a list `scripts`, each with
`name`, `script`, `path`, `arguments`, `budget`, `files` (bytes in hexadecimal digits, null where getting it fails, `too large`), `clock`, `words` and `lines`, and
`closing` (the closing line), `steps`, `output`, `finals` and `capture` (what was given, as it is stored). Behind them stand the scripts of
crates/run_cases/scripts, whose output, files and end are those that Python 3.11 gives, and the rows of crates/run_cases/own.rows with their answers, which
are written by hand: a row that begins with `>` is a line of the answer of the `run` above it.
"""
import glob, json, os, re, subprocess, sys, tempfile

# what the scripts find, by name: arguments, files, and lines to read
FOUND = {'files': (['p', 'q'], {'in.csv': b'a,1\nb,2\n'}, [b'Ada', b'last'])}

# the number of the call that fails, by name of the script, where a file is got that fails
REFUSED_GETS = {'files at length': 5}

# the scripts with `finally` or with `else` of a loop, which are not in the language yet, and where these words stand
REFUSED_FORMS = {'finally': '6:5', 'loops and jumps': '9:5'}


def text_rows(data):
    """The lines of a text behind `|`, and a last one without a line end behind `/`."""
    parts = data.split(b'\n')
    rows = [b'|' + part for part in parts[:-1]]
    return rows + ([b'/' + parts[-1]] if parts[-1] else [])


class Record:
    """A stored capture, read from its first byte on."""

    def __init__(self, data):
        self.data, self.at = data, 0

    def byte(self):
        self.at += 1
        return self.data[self.at - 1]

    def num(self):
        value, shift = 0, 0
        while True:
            b = self.byte()
            value |= (b & 127) << shift
            shift += 7
            if b < 128:
                return value

    def bytes(self):
        size = self.num()
        self.at += size
        return self.data[self.at - size:self.at]


def capture_rows(record, files):
    """What was given, in the order in which it is stored."""
    rows = []
    for _ in range(record.num()):
        line, col, k, kind = record.num(), record.num(), record.num(), record.byte()
        if kind == 0:
            n = record.num()
            what, given = 'time', b'%d' % ((n >> 1) ^ -(n & 1))
        elif kind == 1:
            what, given = 'word', b'%d' % record.num()
        elif kind == 2:
            what, given = 'line', b'|' + record.bytes()
        elif kind == 3:
            what, given = 'line', b'end'
        else:
            what, given = ('time', 'word', 'line')[record.byte()], b'failed'
        rows.append(b'%s at %d:%d %d = %s' % (what.encode(), line, col, k, given))
    for _ in range(record.num()):
        path, kind = record.bytes(), record.byte()
        if kind == 0:
            record.at += 20
            rows += [b'fetched ' + path] + text_rows(bytes.fromhex(files[path.decode()]))
        else:
            rows.append(b'fetched ' + path + (b'', b' absent', b' too large', b' failed')[kind])
    return rows


def end_row(closing):
    if closing is None:
        return b'finished'
    return closing.strip().removeprefix('now: ').encode()


def case_rows(one):
    files = dict(one['files'])
    rows = [b'case ' + one['name'].encode(), b'path ' + one['path'].encode(), b'steps %d' % one['budget']]
    rows += [b'argument ' + word.encode() for word in one['arguments']]
    rows += [b'input ' + line.encode() for line in one.get('lines', [])]
    rows += [b'time %d' % int(time) for time in one.get('clock', [])]
    rows += [b'word %d' % int(word) for word in one.get('words', [])]
    for path, found in files.items():
        if found == 'too large':
            rows.append(b'large ' + path.encode())
        elif found is None:
            rows.append(b'refuse folder %d' % REFUSED_GETS[one['name']])
        else:
            rows.append(b'file ' + path.encode() + b' ' + found.encode())
    return rows + [b'|' + line for line in one['script'].encode().split(b'\n')[:-1]] + [b'run']


def answer_rows(one):
    rows = [b'== ' + one['name'].encode()]
    if one['name'] in REFUSED_FORMS:
        return rows + [b'refused at ' + REFUSED_FORMS[one['name']].encode()]
    rows += [end_row(one['closing']), b'%d steps' % one['steps']]
    rows += text_rows(bytes.fromhex(one['output']))
    for path, found in one['finals']:
        rows += [b'file ' + path.encode()] + text_rows(bytes.fromhex(found))
    return rows + capture_rows(Record(bytes.fromhex(one['capture'])), dict(one['files']))


def python_rows(path):
    """What Python gives of a script: how it ends, what it prints, and the files that it writes, in order of first opening."""
    arguments, files, lines = FOUND.get(os.path.basename(path)[:-3], ([], {}, []))
    with tempfile.TemporaryDirectory() as folder:
        script = open(path, 'rb').read()
        for name, data in list(files.items()) + [('s.py', script)]:
            open(os.path.join(folder, name), 'wb').write(data)
        ran = subprocess.run([sys.executable, '-W', 'ignore', 's.py'] + arguments, cwd=folder, capture_output=True,
                             input=b''.join(line + b'\n' for line in lines), env={'PYTHONUTF8': '1'})
        end = b'finished'
        if ran.returncode:
            line = re.findall(rb'File ".*s.py", line (\d+)', ran.stderr)[-1]
            end = b'uncaught %s at line %s' % (re.split(rb'[:\n]', ran.stderr.strip().split(b'\n')[-1])[0], line)
        rows = [end] + text_rows(ran.stdout)
        for name in dict.fromkeys(re.findall(rb"open\('([^']*)', '[wa]'", script)):
            rows += [b'file ' + name] + text_rows(open(os.path.join(folder, name.decode()), 'rb').read())
        return rows


def python_case(path):
    name = os.path.basename(path)[:-3]
    arguments, files, lines = FOUND.get(name, ([], {}, []))
    rows = [b'case Python: ' + name.encode()] + [b'argument ' + word.encode() for word in arguments]
    rows += [b'file ' + there.encode() + b' ' + data.hex().encode() for there, data in files.items()]
    rows += [b'input ' + line.hex().encode() for line in lines]
    rows += [b'|' + line for line in open(path, 'rb').read().split(b'\n')[:-1]] + [b'show']
    return rows, [b'== Python: ' + name.encode()] + python_rows(path)


def main():
    rows, answers = [], []
    for path in sys.argv[1:-1]:
        for one in json.load(open(path))['scripts']:
            rows += case_rows(one)
            answers += answer_rows(one)
    folder = sys.argv[-1]
    for path in sorted(glob.glob(folder + '/scripts/*.py')):
        case, answer = python_case(path)
        rows += case
        answers += answer
    for row in open(folder + '/own.rows', 'rb').read().split(b'\n')[:-1]:
        (answers if row.startswith(b'>') else rows).append(row.removeprefix(b'>'))
    open(folder + '/stdin', 'wb').write(b''.join(row + b'\n' for row in rows))
    open(folder + '/stdout', 'wb').write(b''.join(row + b'\n' for row in answers))


main()
