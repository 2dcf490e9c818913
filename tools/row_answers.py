#!/usr/bin/env python3
"""Works out the answers of the program `row_cases` about pages by a reading of its own of the grammar of rows. Rows that say how many statements a
script has, before their page, keep their answers, which are worked out by hand.

    python3 tools/row_answers.py crates/row_cases          says whether `stdout` has them
    python3 tools/row_answers.py --write crates/row_cases  puts them there

A page is read byte by byte. Rows have one form, so the page that they make again is the page itself.
"""
import pathlib
import sys


class Bad(Exception):
    pass


class Reader:
    def __init__(self, page, at):
        self.page, self.at = page, at

    def byte(self, limit=256):
        if self.at >= len(self.page) or self.page[self.at] >= limit:
            raise Bad
        self.at += 1
        return self.page[self.at - 1]

    def number(self, limit=1 << 64):
        number, bits = 0, 0
        while True:
            byte = self.byte()
            number |= (byte & 127) << bits
            bits += 7
            if byte < 128:
                break
            if bits > 63:
                raise Bad
        if (byte == 0 and bits > 7) or number >= limit:
            raise Bad
        return number

    def short(self):
        return self.number(1 << 32)

    def place(self):
        self.short()
        self.short()

    def value(self):
        form = self.byte(12)
        if form == 3 or form in (9, 10):
            self.number()
        elif form in (4, 5, 11):
            self.short()
        elif form == 6:
            for _ in range(3):
                self.number()
        elif form in (7, 8):
            self.place()

    def optional(self):
        if self.byte(2):
            self.value()

    def items(self, read):
        for _ in range(self.number()):
            read()

    def answer(self):
        form = self.byte(3)
        if form == 0:
            self.value()
        elif form == 1:
            self.short()

    def made(self):
        form = self.byte(5)
        if form == 3:
            self.value()
        elif form == 4:
            self.short()
            self.byte(3)

    def location(self):
        form = self.byte(10)
        if form in (8, 9):
            self.place()
        if form != 9:
            self.short()
        if form == 0:
            self.short()
        elif form == 2:
            self.number()
        elif form == 3:
            self.value()
        return form

    def content(self, form):
        if form in (0, 9):
            self.optional()
        elif form in (1, 6):
            self.number()
        elif form == 2:
            self.value()
        elif form == 3:
            if self.byte(2):
                self.value()
                self.value()
        elif form == 4:
            self.items(self.value)
        elif form == 5:
            self.short()
        elif form == 7:
            self.byte(2)
        else:
            self.place()

    def change(self, form):
        if form == 4:
            self.byte(2)
            self.value()
        elif form == 5:
            self.short()
        else:
            raise Bad

    def access(self):
        way = self.byte(3)
        form = self.location()
        if way == 1:
            self.content(form)
        elif way == 2:
            self.change(form)

    def text(self):
        count = self.number()
        if count > len(self.page) - self.at:
            raise Bad
        try:
            self.page[self.at:self.at + count].decode('utf-8')
        except UnicodeDecodeError:
            raise Bad
        self.at += count

    def row(self):
        form = self.byte(8)
        if form == 0:
            raise Bad
        if form == 1:
            self.text()
        elif form == 2:
            self.items(self.value)
        elif form == 3:
            self.short()
        elif form == 4:
            self.place()
            operation = self.byte(112)
            if 48 <= operation < 50 or 72 <= operation < 80:
                raise Bad
            self.items(self.value)
            self.answer()
            self.made()
            self.items(self.access)
            self.short()
        elif form == 5:
            self.place()
            self.place()
            self.items(self.value)
            self.items(self.access)
        elif form == 6:
            self.value()
        else:
            self.byte(5)
        return ['text', 'tuple', 'begin', 'do', 'enter', 'leave', 'end'][form - 1]


def answer(page):
    kinds, at = '', 0
    while at < len(page):
        reader = Reader(page, at)
        try:
            kinds += reader.row() + ' '
        except Bad:
            return f'bad row at {at}'
        at = reader.at
    return kinds + page.hex()


def answers(rows, kept):
    return ''.join(f'{row}\n    {kept.get(row) if " " in row else answer(bytes.fromhex(row))}\n' for row in rows if not row.startswith('#'))


def main(words):
    is_writing = words[:1] == ['--write']
    folder = pathlib.Path(words[-1])
    written = (folder / 'stdout').read_text().splitlines()
    kept = {row: told.strip() for row, told in zip(written[::2], written[1::2]) if ' ' in row}
    found = answers((folder / 'stdin').read_text().splitlines(), kept)
    if is_writing:
        (folder / 'stdout').write_text(found)
        return 0
    is_same = found == (folder / 'stdout').read_text()
    print('the same' if is_same else 'different')
    return 0 if is_same else 1


sys.exit(main(sys.argv[1:]))
