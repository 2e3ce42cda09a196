"""That each kind of difference fails a case, and that mistakes in files of cases are told.

That the marks are obeyed is also seen by the cases of the programs.
"""

import os

import pytest

import runs
import transcripts

FAKE = r"""#!/bin/sh
case $1 in
  copy) cat ;;
  say) printf '%s\n' "$2"; printf '%s\n' "$3" >&2; exit "$4" ;;
  make) echo text > "$2" ;;
  shows) test -t 2 && echo a >&2 ;;
  count) exec python3 -uc 'import os
while text := os.read(0, 99): print(len(text))' ;;
  wait) sleep 60 ;;
  room) head -c 20000000 /dev/zero | sort | wc -c ;;
  stack) ulimit -s ;;
  reads) dd bs=9 of=/dev/null 2>&1 | head -n 1 ;;
  first) head -c 9 > /dev/null ;;
  short) test "$(wc -c < "$3")" -lt "$2" ;;
  has) test -e "/proc/self/fd/$2" && echo yes ;;
  replace) rm "$2"; echo text > "$2" ;;
  path) pwd ;;
  user) echo "$(id -u) $(id -G)"; echo text > "$2" ;;
  owner) stat -c '%a %u %g' "$2" ;;
esac
"""
# Runs of the fake, and what the difference tells, which is nothing where the case is to pass.
TRIED = [
    ('$ copy\n< a\\\n<* 3 b\n< \\xff\\\n> abbb\n> \\xff\\', ''),
    ('$ copy\n< a\n> b', 'standard output: wanted'),
    ('$ copy\n< a\n> a\\', 'standard output: wanted'),
    ('$ copy\n< a', 'standard output: wanted'),
    ('$ copy\n<* 9999 a\n>* 9998 a', 'standard output: wanted'),
    ('$ copy\n< more\n>~ ro', 'standard output: wanted somewhere'),
    ("$ say \\xff '' 0\n> \\xff\n!", ''),
    ('$ say a b 3\n> a\n! c\nstatus 3', 'standard error: wanted'),
    ('$ say a b 3\n> a\nstatus 3', 'standard error: wanted'),
    ('$ say a bcd 3\n> a\n!~ d\\n\n!~ c\\\nstatus 3', ''),
    ('$ say a bcd 3\n> a\n!~ bd\nstatus 3', 'standard error: wanted somewhere'),
    ('$ say a b 3\n> a\n! b', 'status: wanted 0, got 3'),
    ('$ say a b 0\n> a\n! b\nstatus 3', 'status: wanted 3, got 0'),
    ('$ make f\nleft f\n| tex', 'file f: wanted'),
    ('$ make f\nleft g', 'file g: there is none'),
    ('$ make f', 'file f: no line of the case names it'),
    ('$ count\ntalk\n< a\n> 2\n< b\n< c\n> 2\n> 2', 'standard output: wanted'),
    ('$ copy\ntalk\n< a\n> b\n< c', 'standard output: wanted'),
    ('$ copy\ntalk\n< a\n> aa\n< c', 'none after 2 s'),
    ('$ copy\ntalk\n< a\n> aa', 'none after 2 s'),
    ('$ wait', 'none after 2 s'),
    ('$ shows\nterminal\n! b', 'standard error: wanted'),
    ('$ shows\n! a', 'status: wanted 0, got 1'),
    ('$ room\nmemory 12\n> 20000001', 'standard output: wanted'),
    ('$ stack\nstack 512\n> 512', ''),
    ('$ stack\n> 512', 'standard output: wanted'),
    ('$ reads\npieces 2\n< abc\n> 0+2 records in', ''),
    ('$ reads\npieces 1\n< abc\n> 0+2 records in', 'standard output: wanted'),
    ('$ reads\npieces 3 to 8\n< abc\n> 0+1 records in', 'with pieces 3'),
    ('$ first\n<* 1000000 a\nunread 900000', ''),
    ('$ first\n<* 1000000 a\nunread 1000000', 'unread bytes: wanted 1000000 or more, got'),
    ('$ copy\n<* 9 a\n>* 9 a\nunread 1', 'unread bytes: wanted 1 or more, got 0'),
    ('$ copy > f\n< abc\nlimit 0 to 4\n!~ File too large\nstatus 1\nleft f\n| abc', 'with limit 4'),
    ('$ copy > f\n< abc\nlimit 2\n!~ File too large\nstatus 1\nleft f\n| axc', 'file f: wanted'),
    ('file f\n| abc\n$ short 4 f\ncut f 0 to 3\n$ copy < f\n> abc', ''),
    ('file f\n| abc\n$ short 4 f\ncut f 0 to 4', 'with cut 4'),
    ('$ copy\ncut f 1', 'it could not be run'),
    ('$ has 2\nstatus 1', 'standard output: wanted'),
    ('$ has 2 2> -\nstatus 1', ''),
    ('$ say a b 0 2> f\n> a\nleft f\n| a', 'file f: wanted'),
    ('file f\n| c\n$ say a b 0 >> f 2>> f\nleft f\n| c\n| a\n| b', ''),
    ('file f\n| c\n$ say a b 0 > f\n! b\nleft f\n| c\n| a', 'file f: wanted'),
    ('file f\nlink l f\n$ replace l', 'link l: it leads to f no more'),
    ('$ path\n>~ \\xff', ''),
    ('$ user f\nuser 4321 5678 9\n> 4321 5678 9\nleft f 644 4321 5678', ''),
    ('file f 640 7 8\n$ owner f\n> 640 7 8\nleft f 640 7 9', 'got 640 7 8'),
]
MISTAKES = (
    '$ copy\n? a // $ copy\n<a // $ copy\n< a  // $ copy\n< \\y // < a // | a //  // status 1'
    ' // $ copy\nlimit x // $ copy\nlimit 2 to 1 // $ copy\ncut 1 // $ copy\npieces 0 // file f'
    " // $ copy < f\npieces 1 // $ copy\ntalk\nunread 1 // $ 'copy // $ copy > f\n> a // link l f"
    ' // $ copy\nleft f\n\n> a\n| b // $ copy\ncase 1\n$ copy // $ say a b 0 2> f\n! b'
    ' // $ copy 2> f\nterminal // files f 1 to 2\n$ copy // $ copy\nuser 1'
).split(' // ')
# The same for a case that is a JSON list.
TRIED_ROWS = [
    ('["1", ["say", "a", "b", "3"], "", "a\\n", "b\\n", 3]', ''),
    ('["1", ["copy"], "a", "a\\n", "", 0]', 'standard output: wanted'),
    ('["1", ["say", "a", "b", "3"], "", "a\\n", "", 3]', 'standard error: wanted'),
    ('["1", ["say", "a", "b", "3"], "", "a\\n", "b\\n", 2]', 'status: wanted 2, got 3'),
]
MISTAKEN_ROWS = [
    '["1", ["copy"], "", "", ""]',
    '["1", ["copy"], "", "", "", 0',
    '["1", [1], "", "", "", 0]',
    '["1", ["copy"], "", "", "", 0]\n["1", ["copy"], "", "", "", 0]',
]


def read(text):
    if text.startswith('["'):
        return transcripts.read_rows('fake', 'tried', text)
    return transcripts.read_transcript('fake', 'tried', f'case 1\n{text}')


@pytest.mark.parametrize('text, told', TRIED + TRIED_ROWS)
def test_difference(tmp_path, text, told):
    (case,) = read(text)
    if case.needs_root() and os.geteuid():
        pytest.skip('only root can run it')
    fake = tmp_path / 'fake'
    fake.write_text(FAKE)
    fake.chmod(0o755)
    differs = runs.carry_out(str(fake), case, 2)
    assert bool(differs) == bool(told) and told in differs


@pytest.mark.parametrize('text', MISTAKES + MISTAKEN_ROWS)
def test_mistake(text):
    with pytest.raises(transcripts.Mistake):
        read(text)


def test_file_that_is_not_read(tmp_path):
    (tmp_path / 'crates/fake/cases').mkdir(parents=True)
    (tmp_path / 'crates/fake/cases/more.text').touch()
    with pytest.raises(transcripts.Mistake):
        transcripts.read_all(tmp_path)
