//! Files by their paths, operators on filters, filters of iterators, and rates that are read.

use fastbloom_c::{
    AtomicBlockedBloomFilter, AtomicBloomFilter, BlockedBloomFilter, BloomFilter, Error, Rate,
};
use std::error::Error as _;
use std::io::{BufRead, BufReader, Write};
use std::os::fd::AsRawFd;
use std::os::unix::fs::{symlink, FileTypeExt, PermissionsExt};
use std::os::unix::net::UnixListener;
use std::path::{Path, PathBuf};
use std::process::{Command, Stdio};
use std::{env, fs, io, panic, process};

/// A folder that is removed in the end.
struct Folder(PathBuf);

impl Folder {
    fn new(name: &str) -> Folder {
        let folder = env::temp_dir().join(format!("fastbloom-{name}-{}", process::id()));
        fs::create_dir(&folder).unwrap();
        Folder(folder)
    }

    fn names(&self) -> Vec<String> {
        let names = fs::read_dir(&self.0).unwrap();
        let mut names: Vec<_> = names
            .map(|it| it.unwrap().file_name().into_string().unwrap())
            .collect();
        names.sort();
        names
    }
}

impl Drop for Folder {
    fn drop(&mut self) {
        fs::remove_dir_all(&self.0).unwrap();
    }
}

fn seen() -> BloomFilter {
    let mut seen = BloomFilter::with_num_bits(4096).unwrap().hashes(4);
    seen.insert("crab");
    seen
}

#[test]
fn a_file_is_saved_whole_with_the_mode_of_the_old_one() {
    let folder = Folder::new("saved");
    let path = folder.0.join("seen.bloom");
    fs::write(&path, "old").unwrap();
    fs::set_permissions(&path, fs::Permissions::from_mode(0o640)).unwrap();
    seen().save(&path).unwrap();
    assert_eq!(fs::read(&path).unwrap(), seen().to_bytes());
    assert_eq!(
        fs::metadata(&path).unwrap().permissions().mode() & 0o7777,
        0o640
    );
    assert_eq!(BloomFilter::load(&path).unwrap(), seen());
    assert_eq!(folder.names(), ["seen.bloom"]);
}

#[test]
fn a_link_stays_and_what_it_leads_to_is_replaced() {
    let folder = Folder::new("links");
    let (path, other) = (folder.0.join("seen.bloom"), folder.0.join("other"));
    symlink("other", &path).unwrap();
    for there in [false, true] {
        if there {
            fs::write(&other, "other").unwrap();
        }
        seen().save(&path).unwrap();
        assert_eq!(fs::read_link(&path).unwrap(), Path::new("other"));
        assert_eq!(fs::read(&other).unwrap(), seen().to_bytes());
    }
    assert_eq!(folder.names(), ["other", "seen.bloom"]);
}

#[test]
fn a_descriptor_goes_on_at_its_place() {
    let folder = Folder::new("descriptor");
    let path = folder.0.join("log");
    let mut file = fs::File::create(&path).unwrap();
    let name = format!("/dev/fd/{}", file.as_raw_fd());
    file.write_all(b"before").unwrap();
    seen().save(&name).unwrap();
    file.write_all(b"after").unwrap();
    let wanted = [b"before", &seen().to_bytes()[..], b"after"].concat();
    assert_eq!(fs::read(&path).unwrap(), wanted);
    assert_eq!(folder.names(), ["log"]);
}

#[test]
fn a_name_as_long_as_the_system_allows_is_saved() {
    let folder = Folder::new("long");
    for size in [233, 234, 255] {
        let path = folder.0.join("n".repeat(size));
        seen().save(&path).unwrap();
        assert_eq!(BloomFilter::load(&path).unwrap(), seen());
    }
    assert_eq!(folder.names().len(), 3);
}

/// A program in Python, which gets a path.
fn python(program: &str, path: &Path) -> Command {
    let mut command = Command::new("python3");
    command.arg("-c").arg(program).arg(path);
    command
}

/// A list of access rights, under which the mode's bits of the group bound the rights of a user and
/// of the group, which has none. Where the file system has no lists, nothing is tried.
#[test]
fn a_list_of_access_rights_is_kept() {
    const SET: &str = r#"
import os, struct, sys
rows = (1, 6, -1), (2, 4, 1234), (4, 0, -1), (16, 4, -1), (32, 0, -1)
value = struct.pack("<I", 2) + b"".join(struct.pack("<HHi", *row) for row in rows)
os.setxattr(sys.argv[1], "system.posix_acl_access", value)
"#;
    const GET: &str = r#"
import os, sys
print(os.getxattr(sys.argv[1], "system.posix_acl_access").hex())
"#;
    let folder = Folder::new("lists");
    let path = folder.0.join("seen.bloom");
    seen().save(&path).unwrap();
    if !python(SET, &path).status().unwrap().success() {
        return;
    }
    let list = || String::from_utf8(python(GET, &path).output().unwrap().stdout).unwrap();
    let before = list();
    assert_eq!(before.trim().len(), 2 * 44);
    seen().save(&path).unwrap();
    assert_eq!(list(), before);
}

/// Where the file system has no leases, nothing is tried.
#[test]
fn a_lease_of_another_process_is_waited_for() {
    const LEASE: &str = r#"
import fcntl, os, signal, sys
signal.signal(signal.SIGIO, lambda *_: os._exit(0))
file = open(sys.argv[1], "r+b")
fcntl.fcntl(file, fcntl.F_SETLEASE, fcntl.F_WRLCK)
print("leased", flush=True)
signal.pause()
"#;
    let folder = Folder::new("lease");
    let path = folder.0.join("seen.bloom");
    seen().save(&path).unwrap();
    let mut command = python(LEASE, &path);
    let mut holder = command.stdout(Stdio::piped()).spawn().unwrap();
    let mut line = String::new();
    let mut output = BufReader::new(holder.stdout.take().unwrap());
    output.read_line(&mut line).unwrap();
    if !line.is_empty() {
        assert_eq!(BloomFilter::load(&path).unwrap(), seen());
    }
    holder.wait().unwrap();
}

#[test]
fn what_cannot_be_saved_leaves_nothing() {
    let folder = Folder::new("refused");
    let below = folder.0.join("none").join("seen.bloom");
    let refused = seen().save(&below).unwrap_err();
    assert_eq!(refused.kind(), io::ErrorKind::NotFound);
    // A folder at the path can't be replaced by a file.
    let taken = folder.0.join("taken");
    fs::create_dir(&taken).unwrap();
    assert!(seen().save(&taken).is_err());
    assert_eq!(folder.names(), ["taken"]);
}

#[test]
fn what_cannot_be_loaded_is_reported() {
    let folder = Folder::new("loaded");
    let none = BloomFilter::load(folder.0.join("none")).unwrap_err();
    assert_eq!(none, Error::from(io::Error::from(io::ErrorKind::NotFound)));
    assert!(none.source().is_some_and(|it| it.is::<io::Error>()));
    assert!(matches!(BloomFilter::load(&folder.0), Err(Error::Input(_))));
    let path = folder.0.join("text");
    fs::write(&path, "a text, and no filter").unwrap();
    assert_eq!(BloomFilter::load(&path), Err(Error::NotAFilter));
}

#[test]
fn what_is_no_regular_file_is_neither_replaced_nor_read() {
    let folder = Folder::new("irregular");
    let path = |name: &str| folder.0.join(name);
    fs::create_dir(path("folder")).unwrap();
    drop(UnixListener::bind(path("socket")).unwrap());
    symlink("/dev/null", path("null")).unwrap();
    let made = Command::new("mkfifo").arg(path("pipe")).status().unwrap();
    assert!(made.success());
    let lines = BlockedBloomFilter::with_num_bits(512).unwrap().hashes(4);
    for name in ["folder", "socket"] {
        assert!(seen().save(path(name)).is_err());
        assert!(lines.save_unsealed(path(name)).is_err());
    }
    seen().save(path("null")).unwrap();
    let mut cat = Command::new("cat");
    let cat = cat.arg(path("pipe")).stdout(Stdio::piped()).spawn();
    seen().save(path("pipe")).unwrap();
    let read = cat.unwrap().wait_with_output().unwrap();
    assert_eq!(read.stdout, seen().to_bytes());
    for name in folder.names() {
        let refused = BloomFilter::load(path(&name));
        assert!(matches!(refused, Err(Error::Input(_))), "{name}");
        let refused = BlockedBloomFilter::load(path(&name));
        assert!(matches!(refused, Err(Error::Input(_))), "{name}");
    }
    assert_eq!(folder.names(), ["folder", "null", "pipe", "socket"]);
    let kind = |name| path(name).symlink_metadata().unwrap().file_type();
    assert!(kind("null").is_symlink() && kind("pipe").is_fifo() && kind("socket").is_socket());
}

#[test]
fn a_file_is_saved_in_the_folder_where_the_process_is() {
    let name = format!("fastbloom-here-{}.bloom", process::id());
    seen().save(&name).unwrap();
    let read = BloomFilter::load(&name);
    fs::remove_file(&name).unwrap();
    assert_eq!(read.unwrap(), seen());
}

#[test]
fn operators_are_the_calls_of_their_names() {
    let mut empty = seen();
    empty.clear();
    let (mut one, mut other) = (empty.clone(), empty.clone());
    one.insert_all(["crab", "eel"]);
    other.insert_all(["eel", "whale"]);
    let (mut united, mut common) = (one.clone(), one.clone());
    united.union(&other).unwrap();
    common.intersect(&other).unwrap();
    assert_eq!(
        (&one | &other, &one & &other),
        (united.clone(), common.clone())
    );
    let mut changed = one.clone();
    changed |= &other;
    assert_eq!(changed, united);
    changed = one.clone();
    changed &= &other;
    assert_eq!(changed, common);
    let odd = BloomFilter::with_num_bits(64).unwrap().hashes(1);
    for call in [|a, b| a | b, |a: &BloomFilter, b: &BloomFilter| a & b] {
        assert!(panic::catch_unwind(|| call(&one, &odd)).is_err());
    }
}

/// By hand: of these words of four bits each, which is a subset of which.
#[test]
fn a_subset_has_no_bit_that_the_other_lacks() {
    let rows = [
        ([0, 0], [0, 0], true),
        ([0b0110, 0], [0b0111, 0], true),
        ([0b0110, 0], [0b0101, 0], false),
        ([0b0110, 1], [0b0110, 0], false),
        ([0, 1], [u64::MAX, 1], true),
        ([1, u64::MAX], [1, u64::MAX >> 1], false),
    ];
    let lines = |words: [u64; 2]| {
        let words = [words[0], 0, 0, 0, 0, 0, 0, words[1]];
        let lines = BlockedBloomFilter::from_words(&words).unwrap();
        lines.hashes(3)
    };
    for (one, other, wanted) in rows {
        let whole = [one, other].map(|it| BloomFilter::from_vec(it.to_vec()).unwrap().hashes(3));
        assert_eq!(whole[0].is_subset(&whole[1]), Ok(wanted));
        let blocked = [one, other].map(lines);
        assert_eq!(blocked[0].is_subset(&blocked[1]), Ok(wanted));
        let whole = whole.map(AtomicBloomFilter::from);
        assert_eq!(whole[0].is_subset(&whole[1]), Ok(wanted));
        let blocked = blocked.map(AtomicBlockedBloomFilter::from);
        assert_eq!(blocked[0].is_subset(&blocked[1]), Ok(wanted));
    }
    let other = BloomFilter::from_vec(vec![0, 0]).unwrap().hashes(4);
    let whole = BloomFilter::from_vec(vec![0, 0]).unwrap().hashes(3);
    assert_eq!(whole.is_subset(&other), Err(Error::OtherShape));
    let [whole, other] = [whole, other].map(AtomicBloomFilter::from);
    assert_eq!(whole.is_subset(&other), Err(Error::OtherShape));
    let keyed = BlockedBloomFilter::with_num_bits(512).unwrap().seed(&1);
    assert_eq!(
        lines([0, 0]).is_subset(&keyed.hashes(3)),
        Err(Error::OtherShape)
    );
}

#[test]
fn a_filter_is_collected_of_any_iterator() {
    let items = || (0..5000).map(|number| format!("item{number}"));
    // (an iterator that doesn't know its length)
    let seen: BloomFilter = items().filter(|_| true).collect();
    let rate = Rate::new(1, 1000).unwrap();
    assert_eq!(
        seen,
        BloomFilter::with_false_pos(rate)
            .items(items().collect::<Vec<_>>())
            .unwrap()
    );
    let none: BloomFilter = Vec::<String>::new().into_iter().collect();
    assert_eq!(none.count_ones(), 0);
}

#[test]
fn rates_are_read_from_texts_and_numbers() {
    let most = u64::MAX;
    for (text, num, den) in [
        ("1/2", 1, 2),
        ("007/070", 1, 10),
        ("0.5", 1, 2),
        ("5e-1", 1, 2),
        ("0.000001", 1, 1_000_000),
        ("1e-19", 1, 10_000_000_000_000_000_000),
        ("12.5e-3", 1, 80),
        ("0.250", 1, 4),
        ("500e-3", 1, 2),
        ("18446744073709551614/18446744073709551615", most - 1, most),
        ("36893488147419103230/55340232221128654845", 2, 3),
    ] {
        let rate: Rate = text.parse().unwrap();
        assert_eq!((rate.num(), rate.den()), (num, den), "{text}");
    }
    let wrong = "/ 1/ /2 1/0 0/1 1/1 3/2 -1/2 +1/2 1/-2 1//2 1/2/3 1 1.0 0.0 0 . e e-3 1e 1e- \
                 1e99999 1e-99999 0x1 1e-20 1/18446744073709551616 nan inf 1e--3 0.5.1 ½ 0.5%";
    let long = format!("0.{}1", "0".repeat(1_000_000));
    for text in wrong.split(' ').chain(["", " ", "1 /2", &long]) {
        assert_eq!(text.parse::<Rate>(), Err(Error::NotARate), "{text}");
    }
    for (number, num, den) in [
        (0.5, 1, 2),
        (0.001, 1, 1000),
        (1e-6, 1, 1_000_000),
        (0.3, 3, 10),
    ] {
        assert_eq!(Rate::try_from(number), Rate::new(num, den));
    }
    for number in [0.0, -0.0, 1.0, 2.0, -0.1, f64::NAN, f64::INFINITY, 5e-324] {
        assert_eq!(Rate::try_from(number), Err(Error::NotARate));
    }
    assert_eq!(Error::NotARate.code(), None);
    assert_eq!(
        Error::NotARate.to_string(),
        "a rate is above 0 and below 1, with parts below 2^64"
    );
}
