"""Files that are written whole or not at all, and streams."""

from __future__ import annotations

import contextlib
import errno
import io
import mmap
import os
import secrets
import stat
import sys
from typing import Any, Callable, Optional, Union

from . import _core

Path = Union[str, bytes, os.PathLike[str], os.PathLike[bytes]]

# How many bytes of a name are taken into that of the file beside it, which has 255 at most.
_LONGEST_NAME = 255 - len(".0123456789abcdef.part")
_ACL = "system.posix_acl_access"
_MOST_LINKS = 40  # that are followed, as Linux does
_EVERYBODY = stat.S_ISVTX | stat.S_IWOTH  # of a folder where everybody may make files

# A mapping needs no descriptor, but before Python 3.13 it keeps one.
_WITHOUT_DESCRIPTOR: Any = {"trackfd": False} if sys.version_info >= (3, 13) else {}


def write_file(
    path: Path, to_file: Callable[[Any], None], to_stream: Callable[[Any], None]
) -> None:
    """Puts a file at the path. It has the rights of the one before it, which it replaces at once.

    A link stays, and the file to which it leads is replaced. A device, a pipe and a descriptor of
    this process are written as streams. The calls write into what is open.
    """
    target = _target_of(os.fsencode(path))
    if isinstance(target, bytes):
        before = _status_of(target)
        if before is None or stat.S_ISREG(before.st_mode):
            _replace(target, before, to_file)
            return
        target = os.open(target, os.O_WRONLY | os.O_NOFOLLOW | os.O_NOCTTY)
    with open(target, "wb") as stream:
        to_stream(stream)


def _replace(path: bytes, before: Optional[os.stat_result], write: Callable[[Any], None]) -> None:
    """Puts a new file at a path, where there was one of this status before.

    Until then the bytes are in a file beside it, whose name no other call draws. Last the folder is
    flushed: where that fails, the new file is there.
    """
    folder, name = os.path.split(path)
    part = b"%s.%s.part" % (name[:_LONGEST_NAME], secrets.token_hex(8).encode())
    part = os.path.join(folder, part)
    flags = os.O_WRONLY | os.O_CREAT | os.O_EXCL | os.O_CLOEXEC
    descriptor = os.open(part, flags, 0o666 if before is None else 0o600)
    try:
        with open(descriptor, "wb") as file:
            write(file)
            file.flush()
            if before is not None:
                _give_rights(descriptor, before, _acl_of(path))
            os.fsync(descriptor)
            os.replace(part, path)
            _flush_folder(path, descriptor)
    except BaseException:
        with contextlib.suppress(FileNotFoundError):
            os.remove(part)
        raise


def _target_of(path: bytes) -> Union[bytes, int]:
    """The path to which the links at the end of one lead; or a copy of a descriptor, if to one."""
    for _ in range(_MOST_LINKS):
        folder, name = os.path.split(path)
        text = _link_at(path, folder or b".")
        if text is None:
            return path
        if os.path.realpath(folder or b".") == os.path.realpath(b"/proc/self/fd"):
            return os.dup(int(name))
        path = os.path.join(folder, text)
    raise OSError(errno.ELOOP, os.strerror(errno.ELOOP), path)


def _link_at(path: bytes, folder: bytes) -> Optional[bytes]:
    """The text of the link at a path in this folder, if there is one.

    In a folder where everybody may make files, as /tmp, a link is to be the user's or the folder
    owner's: another one may lead anywhere. So Linux may have it, too.
    """
    try:
        link = os.open(path, os.O_PATH | os.O_NOFOLLOW)
    except FileNotFoundError:
        return None
    try:
        found, around = os.fstat(link), os.stat(folder)
        if not stat.S_ISLNK(found.st_mode):
            return None
        is_everybodys = around.st_mode & _EVERYBODY == _EVERYBODY
        if is_everybodys and found.st_uid not in (os.geteuid(), around.st_uid):
            raise PermissionError(errno.EACCES, os.strerror(errno.EACCES), path)
        return os.readlink(b"", dir_fd=link)
    finally:
        os.close(link)


def _status_of(path: bytes) -> Optional[os.stat_result]:
    """The status of what is at a path, if there is something."""
    try:
        return os.stat(path, follow_symlinks=False)
    except FileNotFoundError:
        return None


def _check_regular(status: os.stat_result, path: Path) -> None:
    """Raises OSError for a folder, a device, a pipe or a socket."""
    if not stat.S_ISREG(status.st_mode):
        why = errno.EISDIR if stat.S_ISDIR(status.st_mode) else errno.EINVAL
        raise OSError(why, os.strerror(why), path)


def _flush_folder(path: bytes, file: int) -> None:
    """Flushes the folder of a file, so that the file's name outlasts a loss of power.

    A folder that may not be read can't be opened for it. Then all of the file's system of files is.
    """
    flags = os.O_RDONLY | os.O_DIRECTORY | os.O_CLOEXEC
    try:
        folder = os.open(os.path.dirname(path) or b".", flags)
    except PermissionError:
        _core.sync_all(file)
        return
    try:
        os.fsync(folder)
    except OSError as error:
        if error.errno != errno.EINVAL:  # some file systems have no such call, and need none
            raise
    finally:
        os.close(folder)


def _acl_of(file: Union[bytes, int]) -> Optional[bytes]:
    """The access control list of a file, links followed, where there is one beside its mode."""
    try:
        return os.getxattr(file, _ACL)
    except OSError as error:
        if error.errno in (errno.ENODATA, errno.ENOTSUP, errno.ENOSYS):
            return None
        raise


def _give_rights(descriptor: int, before: os.stat_result, acl: Optional[bytes]) -> None:
    """Gives a file the owner, group, mode and list of another one, as far as this is allowed.

    Nobody but the owner gets a right that the other file didn't give.
    """
    mode, has_group = stat.S_IMODE(before.st_mode) & 0o777, False
    for owner in (before.st_uid, -1):  # -1: the owner stays
        with contextlib.suppress(OSError):
            os.fchown(descriptor, owner, before.st_gid)
            has_group = True
            break
    else:  # not to the members of another group; and those of the old one are among the others now
        mode &= 0o700 | mode >> 3 & 0o007
    try:
        if acl is not None and has_group:
            os.setxattr(descriptor, _ACL, acl)
            return
        if _acl_of(descriptor) is not None:  # by the folder's default
            os.removexattr(descriptor, _ACL)
    except OSError:
        mode &= 0o700
    os.fchmod(descriptor, mode if acl is None else mode & 0o700)


def _open(path: Path, flags: int) -> int:
    """Opens a file. A pipe isn't waited for, and a process that has a lease of a file is."""
    flags |= os.O_NOCTTY
    try:
        return os.open(path, flags | os.O_NONBLOCK)
    except BlockingIOError:
        _check_regular(os.stat(path), path)
        return os.open(path, flags)


def open_regular(path: Path, mode: str = "rb") -> Any:
    """Opens a file. A folder, a device or a pipe raises OSError, and isn't waited for."""
    file = open(os.fspath(path), mode, opener=_open)
    try:
        _check_regular(os.fstat(file.fileno()), path)
    except BaseException:
        file.close()
        raise
    return file


def size_of(file: io.BufferedReader) -> int:
    """How many bytes a file has."""
    return os.fstat(file.fileno()).st_size


def map_file(file: io.BufferedReader, size: int, access: int = mmap.ACCESS_COPY) -> mmap.mmap:
    """A mapping of a file of this size. By default what is written stays in this process."""
    return mmap.mmap(file.fileno(), size, access=access, **_WITHOUT_DESCRIPTOR)


def shared_memory(size: int) -> mmap.mmap:
    """Memory that a process shares with those that are forked of it, all zero, from a page on."""
    try:
        return mmap.mmap(-1, size)
    except (OSError, OverflowError, ValueError) as error:
        raise MemoryError(f"no memory of {size} bytes") from error
