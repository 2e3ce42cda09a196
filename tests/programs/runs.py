"""Runs cases, and tells in what each run differs from what is wanted."""

import contextlib
import difflib
import fcntl
import itertools
import os
import resource
import select
import shutil
import signal
import subprocess
import tempfile
import termios
import threading
import tty

ENVIRONMENT = {'LANG': 'C.UTF-8', 'PATH': '/usr/local/bin:/usr/bin:/bin'}
NAMES = {'>': 'standard output', '!': 'standard error'}


def write_file(name, text):
    with open(name, 'wb') as file:
        file.write(text)


def read_file(name):
    with open(name, 'rb') as file:
        return file.read()


class Feeder(threading.Thread):
    """Writes texts into a pipe, each once it is due, and ends where nobody reads."""

    def __init__(self, texts, is_due):
        super().__init__(daemon=True)
        self.texts, self.is_due, self.sent = texts, is_due, 0
        self.source, self.pipe = os.pipe()

    def run(self):
        reader = select.poll()
        reader.register(self.pipe, 0)
        # (a run that took too long is ended, and its output closed)
        with contextlib.suppress(BrokenPipeError, ValueError):
            for at, text in enumerate(self.texts):
                while not self.is_due(at):
                    if reader.poll(1):
                        raise BrokenPipeError
                self.sent += os.write(self.pipe, text)
        os.close(self.pipe)


def waiting_in(pipe):
    """How many bytes of a pipe aren't read yet."""
    return int.from_bytes(fcntl.ioctl(pipe, termios.FIONREAD, bytes(4)), 'little')


def feeder_of(run, piece, outputs):
    """What feeds a run: all at once, in pieces of this size, or as a talk goes on."""
    text = run.text('<')
    if run.talk:
        groups, awaited = [], 0
        for mark, lines in itertools.groupby([*run.script, ('<', b'')], lambda it: it[0]):
            text = b''.join(line for _, line in lines)
            awaited += len(text) if mark == '>' else 0
            groups += [(text, awaited)] if mark == '<' else []
        # (what has come is read later)
        is_due = lambda at: waiting_in(outputs[0]) >= groups[at][1]
        return Feeder([text for text, _ in groups], is_due)
    texts = [text[at : at + piece] for at in range(0, len(text), piece)] if piece else [text]
    feeder = Feeder(texts, lambda at: not piece or not waiting_in(feeder.pipe))
    return feeder


def prepare(run, limit):
    """What the program's process does before it begins."""
    for which, most in (
        (resource.RLIMIT_AS, run.memory and run.memory << 20),
        (resource.RLIMIT_STACK, run.stack and run.stack << 10),
        (resource.RLIMIT_FSIZE, limit),
    ):
        if most is not None:
            resource.setrlimit(which, (most, most))
    signal.signal(signal.SIGXFSZ, signal.SIG_IGN)
    for stream, mark in enumerate('<>!'):
        if run.streams.get(mark) == '-':
            os.close(stream)


def opened(run, mark):
    """The file that a stream writes, or a pipe. One that is closed later is opened, too."""
    if mark not in run.streams:
        return subprocess.PIPE
    name = os.devnull if run.streams[mark] == '-' else run.streams[mark]
    if mark == '<':
        return os.open(name, os.O_RDONLY)
    start = os.O_APPEND if mark in run.appends else os.O_TRUNC
    return os.open(name, os.O_WRONLY | os.O_CREAT | start, 0o666)


def shown_on(terminal):
    """What was written to a terminal that nobody writes to any more."""
    text = b''
    with contextlib.suppress(OSError):
        while True:
            text += os.read(terminal, 65536)
    os.close(terminal)
    return text


def outcome(program, run, chosen, seconds):
    """The status of a run, or what went wrong; what it wrote; and how much input wasn't sent."""
    limit, outputs, terminal = chosen.get('limit'), [], None
    source, target, trouble = (opened(run, mark) for mark in '<>!')
    feeder = feeder_of(run, chosen.get('pieces'), outputs) if '<' not in run.streams else None
    source = feeder.source if feeder else source
    if run.terminal:
        terminal, trouble = os.openpty()
        tty.setraw(trouble)
    # A process is begun at a tenth of the cost where nothing is to be done in it before.
    prepares = '-' in run.streams.values() or {run.memory, run.stack, limit} != {None}
    user, *groups = run.user or [None]
    process = subprocess.Popen(
        [program.encode(), *run.words],
        env=ENVIRONMENT,
        stdin=source,
        stdout=target,
        stderr=trouble,
        start_new_session=True,
        preexec_fn=(lambda: prepare(run, limit)) if prepares else None,
        user=user,
        group=groups[0] if groups else None,
        extra_groups=groups or None,
    )
    for file in (source, target, trouble):
        if file != subprocess.PIPE:
            os.close(file)
    if feeder:
        outputs.append(process.stdout)
        feeder.start()
    try:
        if run.talk:
            feeder.join(seconds)
        output, errors = process.communicate(timeout=seconds)
        status = process.returncode
    except subprocess.TimeoutExpired:
        os.killpg(process.pid, signal.SIGKILL)
        output, errors = process.communicate()
        status = f'none after {seconds} s'
    if feeder:
        feeder.join()
    errors = shown_on(terminal) if run.terminal else errors
    unsent = len(run.text('<')) - feeder.sent if feeder else 0
    return status, {'>': output or b'', '!': errors or b''}, unsent


def difference(what, wanted, found):
    """In what two texts differ, if they do: the first lines of it."""
    if wanted != found:
        texts = (it.decode('ascii', 'backslashreplace').split('\n') for it in (wanted, found))
        lines = itertools.islice(difflib.unified_diff(*texts, 'wanted', 'got', n=2), 30)
        yield '\n'.join([f'{what}: wanted isn\'t what came', *(it.rstrip()[:300] for it in lines)])


def differences(run, limit, status, texts, unsent):
    """In what a run differs."""
    if status != run.status:
        yield f'status: wanted {run.status}, got {status}'
    if run.unread is not None and unsent < run.unread:
        yield f'unread bytes: wanted {run.unread} or more, got {unsent}'
    for mark, text in texts.items():
        pieces = [piece for it, piece in run.pieces if it == mark]
        for piece in pieces:
            if piece not in text:
                yield f'{NAMES[mark]}: wanted somewhere {piece!r}, got {text[:999]!r}'
        if not pieces:
            yield from difference(NAMES[mark], run.text(mark), text)
    for name, (owner, text) in run.left.items():
        if not os.path.isfile(name):
            yield f'file {name}: there is none'
            continue
        if text is not None:
            yield from difference(f'file {name}', text[:limit], read_file(name))
        it = os.stat(name)
        if owner and owner != (it.st_mode & 0o7777, it.st_uid, it.st_gid):
            got = f'{it.st_mode & 0o7777:03o} {it.st_uid} {it.st_gid}'
            yield f'file {name}: its mode, owner and group: got {got}'


def differences_of_run(program, run, seconds):
    """In what a run differs, at the first of its numbers at which it does."""
    whole, differs = read_file(run.cut) if run.cut else b'', []
    for numbers in itertools.product(*run.numbers.values()):
        chosen = dict(zip(run.numbers, numbers))
        if run.cut:
            write_file(run.cut, whole[: chosen['cut']])
        limit = chosen.get('limit')
        differs = [*differences(run, limit, *outcome(program, run, chosen, seconds))]
        if differs:
            differs += [f'with {word} {number}' for word, number in chosen.items()]
            break
    if run.cut:
        write_file(run.cut, whole)
    return differs


def differences_of_case(program, case, seconds):
    """In what the runs of a case differ, made in the folder that this process is in."""
    named, links = set(), {}
    for run in case.runs:
        for name, (owner, text) in run.files.items():
            write_file(name, text)
            if owner:
                os.chmod(name, owner[0])
                os.chown(name, *owner[1:])
        for name, leads_to in run.links.items():
            os.symlink(leads_to, name)
        links.update(run.links)
        named |= {*run.files, *run.left, *run.links, *run.streams.values()}
        differs = differences_of_run(program, run, seconds)
        for name, leads_to in links.items():
            if not os.path.islink(name) or os.readlink(name) != leads_to:
                differs.append(f'link {name}: it leads to {leads_to} no more')
        extra = sorted({*os.listdir('.')} - named)
        differs += [f'file {name}: no line of the case names it' for name in extra]
        named |= {*extra}
        if differs:
            words = b' '.join(run.words).decode('ascii', 'backslashreplace')
            yield '\n'.join([f'line {run.number}: $ {words}', *differs])


def carry_out(program, case, seconds=60):
    """In what a case differs, as a text."""
    back = os.getcwd()
    with contextlib.ExitStack() as folders:
        folders.callback(os.umask, os.umask(0o022))
        folder = folders.enter_context(tempfile.TemporaryDirectory(prefix=b'cases-\xff-'))
        if any(run.user for run in case.runs):
            # Others may not see the program where it lies.
            seen = folders.enter_context(tempfile.TemporaryDirectory(prefix='cases-'))
            program = shutil.copy(program, seen)
            os.chmod(seen, 0o755)
            os.chmod(folder, 0o777)
        folders.callback(os.chdir, back)
        os.chdir(folder)
        try:
            return '\n'.join(differences_of_case(program, case, seconds))
        except OSError as why:
            return f'it could not be run: {why}'
