//! Files by their paths. The library writes them, and a reader here has the words in memory of its
//! own at once.

use crate::in_file::{self, InFile};
use crate::{raw, Error, Limits};
use std::fs::{self, File, OpenOptions};
use std::io;
use std::os::unix::fs::OpenOptionsExt;
use std::path::Path;

/// Writes the file of a filter whole or not at all, with a seal or without one.
pub(crate) fn save<F: InFile>(filter: &F, path: &Path, sealed: bool) -> io::Result<()> {
    raw::save(F::KIND, path, filter.parts(), sealed)
}

/// Opens a file. A pipe isn't waited for, but a process that has a lease on the file is.
fn open(path: &Path) -> io::Result<File> {
    // As the system has them on x86-64: the open waits for nobody, and takes no terminal.
    const O_NONBLOCK: i32 = 0o4000;
    const O_NOCTTY: i32 = 0o400;
    let with = |flags| {
        let mut options = OpenOptions::new();
        options.read(true).custom_flags(flags).open(path)
    };
    match with(O_NONBLOCK | O_NOCTTY) {
        Err(error)
            if error.kind() == io::ErrorKind::WouldBlock && fs::metadata(path)?.is_file() =>
        {
            with(O_NOCTTY)
        }
        opened => opened,
    }
}

/// Reads the file at a path. A folder, a device or a pipe is refused, and not waited for.
pub(crate) fn load<F: InFile>(path: &Path, limits: &Limits) -> Result<F, Error> {
    let mut file = open(path)?;
    let found = file.metadata()?;
    if !found.is_file() {
        let kind = if found.is_dir() {
            io::ErrorKind::IsADirectory
        } else {
            io::ErrorKind::InvalidInput
        };
        return Err(io::Error::new(kind, "no regular file").into());
    }
    in_file::read_sized(&mut file, found.len(), limits)
}
