"""Files that are written, read and refused. The form is that of docs/FILE.md."""

import array
import ctypes
import errno
import functools
import os
import signal
import socket
import stat
import struct
import subprocess
import sys
import tempfile
import threading
import unittest
from pathlib import Path
from unittest import mock

import storm
from fastbloom import Refusal
from kinds import COUNTING_KEY, changed, for_each_kind
from peak import peak_of

# Entries of access control lists, as the file acl_ea.h of Linux numbers them: a tag, rights, and a
# number for named ones alone.
NOBODY = 2**32 - 1
USER, GROUP, OTHER = 2, 4, 32
OWNER, MASK = (1, 6, NOBODY), (16, 4, NOBODY)


def refused_files(file):
    """Files that differ from a good one, by the number of the refusal that a reader tells."""
    return {
        2: [changed(file, 16, 0), changed(file, 16, 0)[:24]],
        3: [changed(file, 23, 4), changed(file, 23, 4)[:24]],
        7: [changed(file, 8, 0), changed(file, 12, 1), changed(file, 8, 0)[:16]],
        9: [b"", file[:7], changed(file, 0, 70), changed(changed(file, 6, 1), 7, 50)],
        10: [changed(file, 7, 50), changed(changed(file, 7, 50), 8, 0)[:8]],
        11: [
            file[:8],
            changed(file, 8, 0)[:15],
            file[:63],
            file[:64],
            file[:-1],
            changed(file, 48, 1)[:60],
            changed(file, 23, 3),
        ],
        12: [file + b"\0", changed(file, 63, 1) + b"\0"],
        13: [changed(file, 48, 2), changed(file, 63, 128)],
        14: [changed(file, place, 1) for place in (8, 24, 39, 40, 64, len(file) - 1)],
    }


@for_each_kind
class Files:
    def setUp(self):
        self.folder = tempfile.TemporaryDirectory()
        self.addCleanup(self.folder.cleanup)
        self.path = Path(self.folder.name) / "seen.bloom"

    def readers(self, file):
        """The calls that read these bytes."""
        self.path.write_bytes(file)
        yield lambda **options: self.filters.from_bytes(file, **options)
        yield lambda **options: self.filters.load(self.path, **options)
        yield lambda **options: self.filters.load(self.path, mapped=True, **options)

    def test_a_worked_file_is_read_and_written(self):
        for read in self.readers(self.worked):
            seen = read()
            self.assertEqual((seen.num_hashes, seen.key), (3, COUNTING_KEY))
            self.assertEqual(getattr(seen, "num_lines", 1), 1)
            self.assertEqual(seen.words(), list(array.array("Q", self.worked[64:])))
            memory = ctypes.c_char.from_buffer(seen._view)
            self.assertEqual(ctypes.addressof(memory) % self.aligned, 0)
            self.assertEqual(seen.contains_many(["crab", "lobster", "whale"]), [True, True, False])
            self.assertEqual(seen.to_bytes(), self.worked)
            seen.clear()
            self.assertEqual([seen.add("crab"), seen.add("lobster")], [False, False])
            self.assertEqual(seen.to_bytes(), self.worked)
            # (what is added to a mapped filter stays its own)
            self.assertEqual(self.path.read_bytes(), self.worked)
            other = Path(self.folder.name) / "other.bloom"
            seen.save(str(other))
            self.assertEqual(other.read_bytes(), self.worked)
            self.assertEqual(read(), seen)

    def test_a_file_without_a_seal(self):
        seen = self.filters.from_bytes(self.worked)
        plain = seen.to_bytes(sealed=False)
        self.assertEqual(plain, self.worked[:40] + bytes(8) + self.worked[48:])
        for read in self.readers(plain):
            self.assertEqual(read(), seen)
        seen.save(self.path, sealed=False)
        self.assertEqual(self.path.read_bytes(), plain)
        self.assertEqual(os.listdir(self.folder.name), [self.path.name])

    def test_files_of_many_words(self):
        seen = self.small("crab", "eel")
        for read in self.readers(seen.to_bytes()):
            self.assertEqual(read(), seen)

    def test_refused_files(self):
        rows = [*refused_files(self.worked).items(), *self.refused_files().items()]
        for code, files in rows:
            for file in files:
                for read in self.readers(file):
                    with self.assertRaises(Refusal) as told:
                        read()
                    self.assertEqual(told.exception.code, code, file.hex())
                    self.assertIsInstance(told.exception, ValueError)

    def test_the_files_of_the_other_kind_are_refused(self):
        self.other[0](1000, "1/1000").save(self.path, sealed=False)
        for read in (
            *self.readers(self.path.read_bytes()),
            lambda: self.shared.map(self.path),
        ):
            with self.assertRaises(Refusal) as told:
                read()
            self.assertEqual((told.exception.code, str(told.exception)), self.refusal_of_other)

    def test_a_file_with_many_hashes_is_refused(self):
        few = changed(self.filters.from_bytes(self.worked).to_bytes(sealed=False), 8, 64)
        many = few[:8] + b"\xff\xff\xff\xff" + few[12:]
        for read in self.readers(changed(few, 8, 65)):
            with self.assertRaisesRegex(ValueError, "65 hashes, and max_hashes is 64"):
                read()
            self.assertEqual(read(max_hashes=65).num_hashes, 65)
        for read in self.readers(few):
            self.assertEqual(read().num_hashes, 64)
            with self.assertRaises(ValueError) as told:
                read(max_hashes=63)
            self.assertEqual(str(told.exception), "the file has 64 hashes, and max_hashes is 63")
        for read in self.readers(many):
            self.assertRaises(ValueError, read)
            for most in (2**32 - 1, None):
                self.assertEqual(read(max_hashes=most).num_hashes, 2**32 - 1)

    def test_a_file_with_many_words_is_refused(self):
        """The head is enough for it: a sparse file of a terabyte takes no memory."""
        one = self.filters.from_bytes(self.worked)
        two = bytearray(one.to_bytes(sealed=False) + self.worked[64:])
        two[16] *= 2
        for read in self.readers(bytes(two)):
            self.assertEqual(read(max_words=two[16]).num_words, 2 * one.num_words)
            with self.assertRaises(ValueError) as told:
                read(max_words=two[16] - 1)
            wanted = f"the file has {two[16]} words, and max_words is {two[16] - 1}"
            self.assertEqual(str(told.exception), wanted)
        two[16:24] = (2**37).to_bytes(8, "little")
        self.path.write_bytes(two[:64])
        os.truncate(self.path, 64 + 2**40)
        mapped = functools.partial(self.filters.load, mapped=True)
        for call in (self.filters.load, mapped, self.shared.map):
            with self.assertRaisesRegex(ValueError, f"{2**37} words, and max_words is 1000"):
                call(self.path, max_words=1000)

    def test_a_file_that_becomes_shorter_is_refused(self):
        self.path.write_bytes(self.worked)
        size = os.stat_result([0o100644] + [0] * 5 + [len(self.worked)] + [0] * 3)
        self.path.write_bytes(self.worked[:-1])
        with mock.patch.object(os, "fstat", lambda _: size):
            with self.assertRaises(Refusal) as told:
                self.filters.load(self.path)
        self.assertEqual(told.exception.code, 11)

    def test_a_file_that_is_shared(self):
        seen = self.small("crab")
        seen.save(self.path)
        self.assertRaisesRegex(ValueError, "seal", self.shared.map, self.path)
        seen.save(self.path, sealed=False)
        one, other = self.shared.map(self.path), self.shared.map(self.path)
        self.assertTrue("crab" in one and not one.add("eel") and other.add("eel"))
        self.assertEqual((other.num_words, other.num_hashes), (seen.num_words, seen.num_hashes))
        self.assertEqual((other.key, other.load()), (bytes(16), self.small("crab", "eel")))
        one.release()
        del other
        self.assertEqual(self.filters.load(self.path), self.small("crab", "eel"))
        few = seen.num_hashes - 1
        self.assertRaises(ValueError, self.shared.map, self.path, max_hashes=few)

    def test_what_is_added_to_a_loaded_filter_stays_its_own(self):
        for mapped in (False, True):
            self.path.write_bytes(self.worked)
            seen = self.filters.load(self.path, mapped=mapped)
            seen.add("whale")
            self.assertEqual(self.path.read_bytes(), self.worked)
            self.assertNotEqual(seen, self.filters.load(self.path))
            self.path.unlink()
            self.assertIn("whale", seen)

    def test_a_loaded_file_may_be_written_and_cut(self):
        """A process that touches a mapping of a file that was truncated ends by a signal."""
        self.path.write_bytes(self.worked)
        code = (
            f"import sys; from fastbloom import {self.filters.__name__}\n"
            f"seen = {self.filters.__name__}.load(sys.argv[1])\n"
            f"with open(sys.argv[1], 'r+b') as file: file.write(bytes({len(self.worked)}))\n"
            "print(seen.contains_many(['crab', 'lobster']))\n"
            "with open(sys.argv[1], 'wb'): pass\n"
            "print('crab' in seen, seen.count_ones(), seen.to_bytes().hex())\n"
        )
        run = subprocess.run(
            [sys.executable, "-c", code, str(self.path)],
            timeout=60,
            check=False,
            stdout=subprocess.PIPE,
        )
        ones = int.from_bytes(self.worked[64:], "little").bit_count()
        wanted = f"[True, True]\nTrue {ones} {self.worked.hex()}\n"
        self.assertEqual((run.returncode, run.stdout.decode()), (0, wanted))

    def test_a_mapped_file_is_a_mapping_of_it(self):
        self.path.write_bytes(self.worked)
        for mapped in (False, True):
            seen = self.filters.load(self.path, mapped=mapped)
            maps = Path("/proc/self/maps").read_text()
            self.assertEqual(os.path.realpath(self.path) in maps, mapped)
            self.assertIn("crab", seen)
            del seen

    def test_a_loaded_filter_keeps_no_descriptor(self):
        self.path.write_bytes(self.worked)
        plain = Path(self.folder.name) / "plain"
        self.filters.from_bytes(self.worked).save(plain, sealed=False)
        before = len(os.listdir("/proc/self/fd"))
        loaded = [self.filters.load(self.path) for _ in range(10)]
        if sys.version_info >= (3, 13):
            loaded += [self.filters.load(self.path, mapped=True) for _ in range(10)]
            loaded.append(self.shared.map(plain))
        self.assertEqual(len(os.listdir("/proc/self/fd")), before)
        self.assertTrue(all("crab" in seen for seen in loaded))

    def test_a_path_may_be_bytes(self):
        path = os.fsencode(self.path)
        seen = self.filters.from_bytes(self.worked)
        seen.save(path)
        self.assertEqual(os.listdir(self.folder.name), [self.path.name])
        self.assertEqual(self.filters.load(path), seen)
        here = os.getcwd()
        self.addCleanup(os.chdir, here)
        os.chdir(self.folder.name)
        seen.save(b"other.bloom")
        self.assertEqual(sorted(os.listdir()), ["other.bloom", self.path.name])

    def test_a_file_keeps_its_rights(self):
        seen = self.filters.from_bytes(self.worked)
        self.addCleanup(os.umask, os.umask(0o027))
        seen.save(self.path)
        self.assertEqual(stat.S_IMODE(self.path.stat().st_mode), 0o640)
        for mode in (0o600, 0o444, 0o666):
            self.path.chmod(mode)
            seen.save(self.path)
            self.assertEqual(stat.S_IMODE(self.path.stat().st_mode), mode)
        if os.geteuid() == 0:
            os.chown(self.path, 12345, 23456)
            seen.save(self.path)
            found = self.path.stat()
            self.assertEqual(
                (found.st_uid, found.st_gid, stat.S_IMODE(found.st_mode)),
                (12345, 23456, 0o666),
            )

    def lists(self, path, default=False):
        """The access control list of a file, or the default of a folder."""
        name = "system.posix_acl_default" if default else "system.posix_acl_access"
        try:
            return os.getxattr(path, name)
        except OSError as error:
            if error.errno == errno.ENODATA:
                return None
            raise

    def set_list(self, path, *entries, default=False):
        """Gives a file a list, or a folder a default: entries are a tag, rights and a number."""
        name = "system.posix_acl_default" if default else "system.posix_acl_access"
        data = struct.pack("<I", 2) + b"".join(struct.pack("<HHI", *entry) for entry in entries)
        try:
            os.setxattr(path, name, data)
        except OSError as error:
            if error.errno == errno.ENOTSUP:
                self.skipTest("the file system has no access control lists")
            raise

    def test_a_file_keeps_its_access_control_list(self):
        """The user 12345 may read, and the group may not: its bits of the mode are the mask."""
        seen = self.filters.from_bytes(self.worked)
        seen.save(self.path)
        self.path.chmod(0o600)
        self.set_list(
            self.path,
            OWNER,
            (USER, 4, 12345),
            (GROUP, 0, NOBODY),
            MASK,
            (OTHER, 0, NOBODY),
        )
        before = self.path.stat().st_mode, self.lists(self.path)
        self.assertEqual(stat.S_IMODE(before[0]), 0o640)
        seen.save(self.path)
        self.assertEqual((self.path.stat().st_mode, self.lists(self.path)), before)

    def test_a_list_that_cannot_be_kept_leaves_the_owner_alone(self):
        seen = self.filters.from_bytes(self.worked)
        for name in ("setxattr", "fchown"):
            seen.save(self.path)
            self.set_list(
                self.path,
                OWNER,
                (USER, 4, 12345),
                (GROUP, 4, NOBODY),
                MASK,
                (OTHER, 4, NOBODY),
            )
            with mock.patch.object(os, name, side_effect=PermissionError):
                seen.save(self.path)
            self.assertEqual(stat.S_IMODE(self.path.stat().st_mode), 0o600)
            self.path.unlink()

    def test_the_default_list_of_a_folder_neither_opens_a_file_nor_shuts_it(self):
        seen = self.filters.from_bytes(self.worked)
        seen.save(self.path)
        folder = self.folder.name
        self.set_list(
            folder,
            OWNER,
            (USER, 7, 12345),
            (GROUP, 0, NOBODY),
            (MASK[0], 7, NOBODY),
            (OTHER, 0, NOBODY),
            default=True,
        )
        for mode in (0o640, 0o604, 0o666):
            self.path.chmod(mode)
            seen.save(self.path)
            self.assertEqual(stat.S_IMODE(self.path.stat().st_mode), mode)
            self.assertIsNone(self.lists(self.path))
        with mock.patch.object(os, "removexattr", side_effect=PermissionError):
            seen.save(self.path)
        self.assertEqual(stat.S_IMODE(self.path.stat().st_mode), 0o600)

    def test_a_group_that_cannot_be_kept_is_among_the_others(self):
        seen = self.filters.from_bytes(self.worked)
        for mode, wanted in (
            (0o604, 0o600),
            (0o664, 0o604),
            (0o640, 0o600),
            (0o666, 0o606),
        ):
            seen.save(self.path)
            self.path.chmod(mode)
            with mock.patch.object(os, "fchown", side_effect=PermissionError):
                seen.save(self.path)
            self.assertEqual(stat.S_IMODE(self.path.stat().st_mode), wanted)

    def test_a_name_may_have_255_bytes(self):
        seen = self.filters.from_bytes(self.worked)
        for name in ("a" * 233, "a" * 234, "\u00e9" * 127, "a" * 255):
            path = Path(self.folder.name) / name
            for _ in range(2):
                seen.save(path)
            self.assertEqual(os.listdir(self.folder.name), [name])
            self.assertEqual(self.filters.load(path), seen)
            path.unlink()

    def test_a_descriptor_is_no_path(self):
        with open(os.devnull, "rb") as file:
            number = file.fileno()
            self.assertRaises(TypeError, self.filters.load, number)
            self.assertRaises(TypeError, self.filters(10, "1/2").save, number)
            self.assertRaises(TypeError, self.shared.map, number)
            self.assertEqual(file.read(), b"")
        for number in (True, None, 1.0):
            self.assertRaises(TypeError, self.filters.load, number)

    def test_a_file_that_another_process_has_leased_is_waited_for(self):
        self.path.write_bytes(self.worked)
        code = (
            "import fcntl, os, signal, sys\n"
            "signal.pthread_sigmask(signal.SIG_BLOCK, [signal.SIGIO])\n"
            "file = os.open(sys.argv[1], os.O_RDONLY)\n"
            "fcntl.fcntl(file, fcntl.F_SETLEASE, fcntl.F_WRLCK)\n"
            "print('leased', flush=True)\n"
            "signal.sigwait([signal.SIGIO])\n"
            "fcntl.fcntl(file, fcntl.F_SETLEASE, fcntl.F_UNLCK)\n"
        )
        words = [sys.executable, "-c", code, str(self.path)]
        with subprocess.Popen(words, stdout=subprocess.PIPE) as holder:
            self.assertEqual(holder.stdout.readline(), b"leased\n")
            self.assertIn("crab", self.filters.load(self.path))
            self.assertEqual(holder.wait(60), 0)

    def test_nobody_else_reads_a_secret_file_while_it_is_written(self):
        self.path.write_bytes(self.worked)
        self.path.chmod(0o600)
        modes, fsync = [], os.fsync

        def told(descriptor):
            found = os.fstat(descriptor).st_mode
            if stat.S_ISREG(found):
                modes.append(stat.S_IMODE(found))
            fsync(descriptor)

        opened, plain_open = [], os.open

        def told_open(path, flags, mode=0o777, **options):
            if flags & os.O_CREAT:
                opened.append(mode)
            return plain_open(path, flags, mode, **options)

        with mock.patch.object(os, "fsync", told), mock.patch.object(os, "open", told_open):
            self.filters.from_bytes(self.worked).save(self.path)
        self.assertEqual((opened, modes), ([0o600], [0o600]))

    def test_the_folder_is_flushed_once_the_file_has_its_name(self):
        flushed, fsync = [], os.fsync

        def told(descriptor):
            found = os.fstat(descriptor)
            flushed.append((stat.S_ISDIR(found.st_mode) and found.st_ino, os.listdir(folder)))
            fsync(descriptor)

        folder, here = self.folder.name, os.getcwd()
        self.addCleanup(os.chdir, here)
        os.chdir(folder)
        for path in (self.path, "seen.bloom", b"seen.bloom"):
            flushed.clear()
            with mock.patch.object(os, "fsync", told):
                self.filters.from_bytes(self.worked).save(path)
            self.assertEqual(len(flushed), 2)
            self.assertFalse(flushed[0][0])
            self.assertEqual(flushed[1], (os.stat(folder).st_ino, ["seen.bloom"]))
            os.remove(self.path)

    def test_a_folder_that_cannot_be_flushed(self):
        fsync = os.fsync

        def failing(descriptor):
            if stat.S_ISDIR(os.fstat(descriptor).st_mode):
                raise OSError(why, os.strerror(why))
            fsync(descriptor)

        seen = self.filters.from_bytes(self.worked)
        with mock.patch.object(os, "fsync", failing):
            why = errno.EINVAL  # what a file system says that has no such call
            seen.save(self.path)
            why = errno.EIO
            seen.add("whale")
            with self.assertRaises(OSError) as raised:
                seen.save(self.path)
        self.assertEqual(raised.exception.errno, errno.EIO)
        self.assertEqual(self.filters.load(self.path), seen)
        self.assertEqual(os.listdir(self.folder.name), [self.path.name])

    def test_what_is_no_regular_file_is_neither_read_nor_replaced(self):
        folder = Path(self.folder.name)
        os.mkfifo(folder / "pipe")
        os.symlink("pipe", folder / "link")
        os.symlink("/dev/null", folder / "null")
        os.symlink("ring", folder / "ring")
        with socket.socket(socket.AF_UNIX) as bound:
            bound.bind(str(folder / "socket"))
        os.mkdir(folder / "folder")
        names = sorted(os.listdir(folder))
        kinds = [(folder / name).lstat().st_mode for name in names]
        refused = {"folder": errno.EISDIR, "socket": errno.ENXIO, "ring": errno.ELOOP}
        seen = self.filters(10, "1/1000")
        for name, wanted in refused.items():
            with self.assertRaises(OSError) as raised:
                seen.save(folder / name)
            self.assertEqual(raised.exception.errno, wanted)
        seen.save(folder / "null")
        for name in names:
            self.assertRaises(OSError, self.filters.load, folder / name)
            self.assertRaises(OSError, self.filters.load, folder / name, mapped=True)
            self.assertRaises(OSError, self.shared.map, folder / name)
        self.assertEqual(sorted(os.listdir(folder)), names)
        self.assertEqual([(folder / name).lstat().st_mode for name in names], kinds)

    def test_a_pipe_is_written_as_a_stream(self):
        seen = self.filters.from_bytes(self.worked)
        os.mkfifo(self.path)
        link = Path(self.folder.name) / "link"
        os.symlink(self.path.name, link)
        reader = os.open(self.path, os.O_RDONLY | os.O_NONBLOCK)
        self.addCleanup(os.close, reader)
        for path in (self.path, link):
            seen.save(path)
            self.assertEqual(os.read(reader, 1000), self.worked)
        self.assertTrue(stat.S_ISFIFO(self.path.stat().st_mode) and link.is_symlink())
        # A thread of this process may read what it saves, also more than a pipe has room for.
        large, (end, start), read = self.filters(1_000_000, "1/1000"), os.pipe(), []
        with open(end, "rb") as file:
            thread = threading.Thread(target=lambda: read.append(file.read()))
            thread.start()
            large.save(f"/dev/fd/{start}")
            os.close(start)
            thread.join()
        self.assertEqual(read, [large.to_bytes()])

    def test_a_descriptor_goes_on_at_its_place(self):
        seen = self.filters.from_bytes(self.worked)
        link = Path(self.folder.name) / "link"
        with open(self.path, "w+b", buffering=0) as file:
            number = file.fileno()
            os.symlink(f"/dev/fd/{number}", link)
            paths = [f"/dev/fd/{number}", f"/proc/self/fd/{number}", link]
            for path in [*paths, f"/proc/{os.getpid()}/fd/{number}"]:
                file.truncate(0)
                file.seek(0)
                file.write(b"before..after")
                file.seek(6)
                seen.save(path)
                file.write(b"|")
                self.assertEqual(self.path.read_bytes(), b"before" + self.worked + b"|")
            self.assertTrue(link.is_symlink())
        self.assertEqual(sorted(os.listdir(self.folder.name)), ["link", self.path.name])
        with self.assertRaises(OSError) as raised:  # it is closed
            seen.save(link)
        self.assertEqual(raised.exception.errno, errno.ENOENT)
        with open(os.devnull, "rb") as file, self.assertRaises(OSError) as raised:
            seen.save(f"/dev/fd/{file.fileno()}")
        self.assertEqual(raised.exception.errno, errno.EBADF)

    def test_the_standard_output_is_written(self):
        """By a link as /dev/stdout is one, which a fault might replace."""
        code = (
            f"import sys; from fastbloom import {self.filters.__name__}\n"
            "sys.stdout.write('before'); sys.stdout.flush()\n"
            f"{self.filters.__name__}.from_bytes(bytes.fromhex(sys.argv[1])).save(sys.argv[2])\n"
            "sys.stdout.write('after')\n"
        )
        link = Path(self.folder.name) / "stdout"
        os.symlink("/proc/self/fd/1", link)
        words = [sys.executable, "-c", code, self.worked.hex(), str(link)]
        with open(self.path, "wb") as file:
            subprocess.run(words, stdout=file, timeout=60, check=True)
        self.assertEqual(self.path.read_bytes(), b"before" + self.worked + b"after")
        self.assertEqual(os.readlink(link), "/proc/self/fd/1")

    def test_a_link_stays_and_what_it_leads_to_is_replaced(self):
        seen, folder = self.filters.from_bytes(self.worked), Path(self.folder.name)
        os.mkdir(folder / "folder")
        os.symlink("folder/first", folder / "link")
        os.symlink("second", folder / "folder" / "first")
        end = folder / "folder" / "second"
        for number in range(2):
            if number:
                end.write_bytes(b"other")
                end.chmod(0o604)
            seen.save(folder / "link")
            self.assertTrue((folder / "link").is_symlink() and not end.is_symlink())
            self.assertTrue((folder / "folder" / "first").is_symlink())
            self.assertEqual(end.read_bytes(), self.worked)
        self.assertEqual(stat.S_IMODE(end.stat().st_mode), 0o604)
        self.assertEqual(sorted(os.listdir(folder / "folder")), ["first", "second"])

    def saved_by_another(self, path):
        """Saves a file as another user, where this one is root: the number of the error, or 0."""
        child = os.fork()
        if child == 0:
            try:
                os.chdir(path.parent)  # to which other folders may bar the way
                if os.geteuid() == 0:
                    try:
                        os.setresgid(1235, 1235, 1235)
                        os.setresuid(1235, 1235, 1235)
                    except OSError:
                        os._exit(255)
                self.filters.from_bytes(self.worked).save(path.name)
            except OSError as error:
                os._exit(error.errno)
            os._exit(0)
        number = os.waitstatus_to_exitcode(os.waitpid(child, 0)[1])
        if number == 255:
            self.skipTest("this process can't become another user")
        return number

    def test_a_folder_that_may_not_be_read(self):
        folder = Path(self.folder.name)
        folder.chmod(0o1733 if os.geteuid() == 0 else 0o300)
        try:
            self.assertEqual(self.saved_by_another(self.path), 0)
        finally:
            folder.chmod(0o700)
        self.assertEqual(os.listdir(folder), [self.path.name])
        self.assertEqual(self.path.read_bytes(), self.worked)

    @unittest.skipUnless(os.geteuid() == 0, "only root has files of other users")
    def test_a_link_of_another_user_in_a_folder_of_all_is_not_followed(self):
        folder, link = Path(self.folder.name), Path(self.folder.name) / "link"
        folder.chmod(0o1777)
        os.symlink(self.path.name, link)
        os.chown(folder, 1236, 1236)
        for owner, wanted in (
            (1237, errno.EACCES),
            (1236, 0),
            (1235, 0),
            (0, errno.EACCES),
        ):
            os.lchown(link, owner, owner)
            self.assertEqual(self.saved_by_another(link), wanted)
            self.assertEqual(self.path.exists(), wanted == 0)
            if not wanted:
                self.path.unlink()

    def test_a_file_is_written_with_no_copy_of_its_words(self):
        seen = self.filters(1_000_000, "1/1000")
        seen.add("crab")
        size = 8 * seen.num_words
        for sealed in (False, True):
            self.assertLess(peak_of(lambda: seen.save(self.path, sealed)), size // 2)
            self.assertLess(peak_of(lambda: seen.to_bytes(sealed)), size * 3 // 2)
            self.assertEqual(self.path.read_bytes(), seen.to_bytes(sealed))
        self.assertEqual(self.filters.load(self.path), seen)

    def test_a_file_that_is_saved_while_threads_add_has_a_right_seal(self):
        seen = self.filters(1_000_000, "1/1000")
        seen.update(f"item{number}" for number in range(1000))
        going = True

        def add():
            number = 0
            while going:
                seen.add(f"more{number}")
                number += 1

        threads = [threading.Thread(target=add) for _ in range(2)]
        for thread in threads:
            thread.start()
        try:
            for _ in range(20):
                seen.save(self.path)
                read = self.filters.load(self.path)
                self.assertTrue(all(f"item{number}" in read for number in range(1000)))
        finally:
            going = False
            for thread in threads:
                thread.join()

    def test_a_signal_may_save_the_file_that_is_being_saved(self):
        first, second = self.filters.from_bytes(self.worked), self.filters.from_bytes(self.worked)
        second.add("whale")
        fsync = os.fsync

        def interrupted(descriptor):
            if not told:
                signal.raise_signal(signal.SIGALRM)
            fsync(descriptor)

        told = []

        def save(*_):
            told.append(True)
            second.save(self.path)

        self.addCleanup(signal.signal, signal.SIGALRM, signal.signal(signal.SIGALRM, save))
        with mock.patch.object(os, "fsync", interrupted):
            first.save(self.path)
        self.assertEqual((told, self.filters.load(self.path)), ([True], first))
        self.assertEqual(os.listdir(self.folder.name), [self.path.name])

    def test_bytes_like_objects_are_read(self):
        for data in (bytearray(self.worked), memoryview(self.worked)):
            self.assertEqual(self.filters.from_bytes(data).to_bytes(), self.worked)
        data = bytearray(self.worked)
        seen = self.filters.from_bytes(data)
        data[64:] = bytes(8)
        self.assertEqual(seen.to_bytes(), self.worked)
        for data in ("crab", 72, None, [1, 2]):
            self.assertRaises(TypeError, self.filters.from_bytes, data)

    def test_a_write_that_fails_leaves_the_old_file(self):
        seen = self.filters.from_bytes(self.worked)
        self.assertRaises(OSError, seen.save, Path(self.folder.name) / "none" / "seen.bloom")
        self.path.mkdir()
        self.assertRaises(OSError, seen.save, self.path)
        self.assertEqual(os.listdir(self.folder.name), [self.path.name])
        self.assertRaises(OSError, self.filters.load, self.path)
        self.assertRaises(OSError, self.filters.load, Path(self.folder.name) / "none")

    def test_threads_that_save_one_file_leave_a_whole_one(self):
        filters = [self.filters(100_000, "1/1000") for _ in range(4)]
        for number, seen in enumerate(filters):
            seen.add(f"item{number}")

        def save(seen):
            for _ in range(5):
                seen.save(self.path)

        storm.at_once(*(lambda seen=seen: save(seen) for seen in filters))
        self.assertIn(self.filters.load(self.path), filters)
        self.assertEqual(os.listdir(self.folder.name), [self.path.name])


if __name__ == "__main__":
    unittest.main()
