"""Reads the files of crates/PROGRAM/cases: what a program must do.

A file *.txt reads as a transcript:

  # Two runs in one folder.
  case a filter is asked
  file keys.txt
  | ann
  $ build --bits 64 < keys.txt > a.json
  $ ask a.json
  < ann
  < eve\\
  > ann

Before a run:
  case NAME     begins a case, in an empty folder of its own, the path of which isn't UTF-8. No two
                of a file have one name
  file NAME     makes a file of the | lines that follow. 'MODE UID GID' behind the name, with the
                mode in octal, are its mode, its owner and its group
  files NAME N  makes empty files, one for each number of 'A to B', which stands for the * in NAME
  link NAME TO  makes a link, which no run may change
A run, and what is wanted of it:
  $ WORDS       the program's arguments, quoted as in a shell. At the end of the line may stand
                '< FILE', '> FILE' and, of standard error, '2> FILE': a file of the folder, a
                device, for '< .' a folder, and for '-' a stream that is closed. '>> FILE' and
                '2>> FILE' append
  memory N      the program has N MiB of addresses
  stack N       its stack has N KiB
  limit N       no file that it writes may have more than N bytes: a write past them fails. Of the
                text of each file that it leaves the first N bytes are wanted
  cut NAME N    it finds the first N bytes of a file, which is whole again after it
  pieces N      standard input comes N bytes at a time, each piece once the last one was read
  unread N      it ends before it has read all of its input: N bytes or more are never sent
  talk          each group of < lines is sent at once, when all > lines above it have come
  terminal      standard error is a terminal
  user UID GID  it runs as this user with these groups, one or more, and all may write the folder
  < TEXT        a line of standard input
  > TEXT        a line of standard output
  ! TEXT        a line of standard error
  >~ TEXT       standard output has this text somewhere, and may have more; !~ likewise
  status N      the exit status, if it isn't 0
  left NAME     there is this file behind the run; of the | lines that follow, where there are any,
                and with the mode, the owner and the group that stand behind the name
No run may leave another file than those that its case names. Where 'A to B' stands for N behind
limit, cut or pieces, the run is made for each number from A to B. Only root runs a case that has
owners or users.

A line's text stands behind its mark and one space, and has its end unless it ends in a backslash.
'<* N TEXT' is a line of N times the text, and so are '>*', '!*' and '|*'. In texts and arguments
\\n \\r \\t \\0 \\xHH \\\\ stand for one byte. Empty lines, and lines with # at first, say nothing.

A file *.jsonl has a case a line, a JSON list: a name, the arguments, standard input, standard
output, standard error and the status.
"""

import json
import pathlib
import re
import shlex

ESCAPES = {b'n': b'\n', b'r': b'\r', b't': b'\t', b'0': b'\0', b'\\': b'\\', b'': b''}


class Mistake(Exception):
    """What is wrong with a file of cases."""


class Run:
    """One run of the program, and what is wanted of it. A part that is None is anything."""

    def __init__(self, number, words):
        self.number, self.words = number, words
        # By the marks of the standard streams: their files, and those that are appended to.
        self.streams, self.appends = {}, set()
        # The lines of the streams in their order, and pieces that they have, each with its mark.
        self.script, self.pieces = [], []
        self.memory = self.stack = self.unread = self.user = self.cut = None
        self.talk, self.terminal, self.status = False, False, 0
        # The numbers that a limit, a cut or pieces take in turn.
        self.numbers = {}
        # The files that are made before it, and those that it leaves: mode, owner and group, if
        # these are said, and the text. And the links that are made.
        self.files, self.left, self.links = {}, {}, {}

    def text(self, mark):
        return b''.join(text for it, text in self.script if it == mark)

    def check(self):
        is_fed = self.unread is not None or 'pieces' in self.numbers
        if not all(self.numbers.values()) or 0 in self.numbers.get('pieces', []):
            raise Mistake('no such numbers')
        if is_fed and (self.talk or '<' in self.streams):
            raise Mistake('standard input comes by pieces, by talk or from a file')
        if self.terminal and '!' in self.streams:
            raise Mistake('standard error is a terminal or a file')
        if any(mark in self.streams for mark, _ in self.script + self.pieces):
            raise Mistake('it goes by a file')


class Case:
    """A case: its runs, one or more."""

    def __init__(self, program, place, name):
        self.program, self.place, self.name, self.runs = program, place, name, []

    def needs_root(self):
        files = (it for run in self.runs for it in (*run.files.values(), *run.left.values()))
        return any(run.user for run in self.runs) or any(owner for owner, _ in files)


def bytes_of(text):
    def byte(found):
        if len(found[1]) < 3 and found[1] not in ESCAPES:
            raise Mistake(f'no such escape: {found[0]}')
        return ESCAPES[found[1]] if found[1] in ESCAPES else bytes([int(found[1][1:], 16)])

    return re.sub(rb'\\(x[0-9A-Fa-f]{2}|.|$)', byte, text.encode())


def line_of(rest):
    """The bytes of a line, of which this stands behind the mark."""
    found = re.fullmatch(r'(?:\* ([0-9]+) | |$)(.*)', rest)
    if not found:
        raise Mistake('a space stands behind the mark')
    is_open = (len(rest) - len(rest.rstrip('\\'))) % 2
    return bytes_of(found[2]) * int(found[1] or 1) + (b'' if is_open else b'\n')


def run_of(number, text):
    """The run with these arguments, and the files that stand behind '<', '>' and '2>'."""
    run = Run(number, None)
    while found := re.fullmatch(r'(.*?)(?:^|\s)(?:(<)|(2?)>(>?)) ([\w./-]+)', text):
        mark = found[2] or ('!' if found[3] else '>')
        text, run.streams[mark] = found[1], found[5]
        run.appends |= {mark} if found[4] else set()
    split = shlex.shlex(text, posix=True)
    split.whitespace_split, split.escape, split.commenters = True, '', ''
    try:
        run.words = [bytes_of(word) for word in split]
    except ValueError as why:
        raise Mistake(str(why))
    return run


class Reader:
    """Takes the lines of a transcript."""

    def __init__(self, program, place):
        self.program, self.place, self.cases = program, place, []
        # The files and links that the next run finds, and the file that | lines go to.
        self.files, self.links, self.block = {}, {}, None

    @property
    def run(self):
        if not self.cases[-1].runs or self.files or self.links:
            raise Mistake("a run begins by '$'")
        return self.cases[-1].runs[-1]

    def end(self):
        if self.cases:
            self.run.check()

    def take(self, number, line):
        word, _, rest = line.partition(' ')
        if word == 'case':
            self.end()
            if rest in ['', *(case.name for case in self.cases)]:
                raise Mistake('a name of its own stands behind case')
            self.cases.append(Case(self.program, f'{self.place}:{number}', rest))
        elif not self.cases:
            raise Mistake("a case begins by 'case NAME'")
        elif line[0] == '|':
            if not self.block:
                raise Mistake('a | line belongs to a file')
            self.block[1] = (self.block[1] or b'') + line_of(line[1:])
            return
        elif found := re.fullmatch(r'(file|left) (.+?)(?: ([0-7]{3,4}) (\d+) (\d+))?', line):
            owner = (int(found[3], 8), int(found[4]), int(found[5])) if found[3] else None
            files, text = (self.files, b'') if word == 'file' else (self.run.left, None)
            self.block = files[found[2]] = [owner, text]
            return
        elif found := re.fullmatch(r'files ([^*]*)\*([^*]*) ([0-9]+) to ([0-9]+)', line):
            for it in range(int(found[3]), int(found[4]) + 1):
                self.files[f'{found[1]}{it}{found[2]}'] = [None, b'']
        elif found := re.fullmatch(r'link (\S+) (.+)', line):
            self.links[found[1]] = found[2]
        elif word == '$':
            if self.cases[-1].runs:
                self.cases[-1].runs[-1].check()
            run = run_of(number, rest)
            run.files, run.links, self.files, self.links = self.files, self.links, {}, {}
            self.cases[-1].runs.append(run)
        else:
            self.take_mark(line)
        self.block = None

    def take_mark(self, line):
        run = self.run
        if found := re.fullmatch(r'([<>!])(~?)(.*)', line):
            text = line_of(found[3])
            if found[2] and found[1] == '<':
                raise Mistake('no such line')
            (run.pieces if found[2] else run.script).append(
                (found[1], text.removesuffix(b'\n') if found[2] else text)
            )
        elif line in ('talk', 'terminal'):
            setattr(run, line, True)
        elif found := re.fullmatch(r'(memory|stack|status|unread) ([0-9]+)', line):
            setattr(run, found[1], int(found[2]))
        elif re.fullmatch(r'user( [0-9]+){2,}', line):
            run.user = [int(it) for it in line.split()[1:]]
        elif found := re.fullmatch(r'(limit|pieces|cut)(?: (\S+))? (\d+)(?: to (\d+))?', line):
            if (found[1] == 'cut') != bool(found[2]):
                raise Mistake('a file stands behind cut')
            run.numbers[found[1]] = range(int(found[3]), int(found[4] or found[3]) + 1)
            run.cut = found[2] or run.cut
        else:
            raise Mistake('no such line')


def read_transcript(program, place, text):
    reader, number = Reader(program, place), 0
    try:
        for number, line in enumerate(text.split('\n'), 1):
            if line != line.rstrip():
                raise Mistake('a blank ends the line: write \\x20')
            if line and not line.startswith('#'):
                reader.take(number, line)
        reader.end()
    except Mistake as why:
        raise Mistake(f'{place}:{number}: {why}')
    return reader.cases


def read_rows(program, place, text):
    cases = {}
    for number, line in enumerate(text.split('\n'), 1):
        if not line or line.startswith('#'):
            continue
        try:
            name, words, source, output, errors, status = json.loads(line)
            run = Run(number, [word.encode() for word in words])
            run.script = [*zip('<>!', map(str.encode, (source, output, errors)))]
            run.status = int(status)
        except (ValueError, TypeError, AttributeError) as why:
            raise Mistake(f'{place}:{number}: {why}')
        if name in cases:
            raise Mistake(f'{place}:{number}: two cases have this name')
        cases[name] = Case(program, f'{place}:{number}', name)
        cases[name].runs.append(run)
    return [*cases.values()]


READERS = {'.txt': read_transcript, '.jsonl': read_rows}


def read_all(top):
    """The cases of each program, of which none is left unread."""
    cases = []
    for path in sorted(pathlib.Path(top).glob('crates/*/cases/*')):
        place = str(path.relative_to(top))
        if path.suffix not in READERS:
            raise Mistake(f'{place}: a file of cases is named by .txt or .jsonl')
        text = path.read_bytes().decode()
        cases += READERS[path.suffix](path.parent.parent.name, place, text)
    return cases
