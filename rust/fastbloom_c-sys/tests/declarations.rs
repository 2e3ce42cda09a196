//! The declarations are those of `include/fastbloom.h`: each call with its parameters, their types,
//! its result and whether that must be looked at; each number; and the version. The names are those
//! of `include/fastbloom.symbols`.

use std::collections::BTreeMap;
use std::mem::{align_of_val, size_of_val};

const HEADER: &str = include_str!("../../../include/fastbloom.h");
const SYMBOLS: &str = include_str!("../../../include/fastbloom.symbols");
const DECLARATIONS: &str = include_str!("../src/lib.rs");

/// The text between two others, the first of which stands before the second.
fn between<'a>(text: &'a str, first: &str, last: &str) -> Option<&'a str> {
    Some(text.split_once(first)?.1.split_once(last)?.0)
}

/// The text of C without its comments and its lines for the preprocessor.
fn plain_c(text: &str) -> String {
    let mut rest = text;
    let mut plain = String::new();
    while let Some((before, comment)) = rest.split_once("/*") {
        plain += before;
        rest = comment.split_once("*/").expect("the end of a comment").1;
    }
    plain += rest;
    let is_plain = |line: &&str| !line.starts_with('#');
    plain
        .lines()
        .filter(is_plain)
        .collect::<Vec<_>>()
        .join("\n")
}

/// The type of Rust for one of C, of which an array is a pointer.
fn type_of_c(words: &str) -> String {
    let (constant, rest) = match words.strip_prefix("const ") {
        Some(rest) => ("*const ", rest),
        None => ("*mut ", words),
    };
    let (name, pointer) = match rest.strip_suffix('*') {
        Some(name) => (name.trim(), constant),
        None => (rest, ""),
    };
    let name = match name {
        "size_t" => "usize",
        "uint64_t" => "u64",
        "uint32_t" => "u32",
        "uint8_t" => "u8",
        "bool" => "bool",
        "char" => "c_char",
        "enum fastbloom_map_mode" => "u32",
        // A struct has the same name in Rust.
        own if own.starts_with("fastbloom_") => own,
        other => panic!("the header has the type {other}"),
    };
    format!("{pointer}{name}")
}

/// A parameter of C, as Rust declares it.
fn parameter_of_c(text: &str) -> String {
    let plain = text.split('[').next().expect("a parameter");
    let at = plain.rfind([' ', '*']).expect("a type and a name") + 1;
    let array = if text.contains('[') { "*" } else { "" };
    format!(
        "{}: {}",
        &plain[at..],
        type_of_c(&format!("{}{array}", plain[..at].trim()))
    )
}

/// The calls that the header declares, as Rust declares them, by their names.
fn calls_of_header() -> BTreeMap<String, String> {
    let (calls, _wrappers) = HEADER
        .split_once("#ifndef FASTBLOOM_NO_WRAPPERS")
        .expect("wrappers behind the calls");
    let plain = plain_c(calls);
    let calls = plain
        .split(';')
        .filter(|text| text.contains("fastbloom_") && text.contains('('));
    calls
        .map(|text| {
            let words = text.split_whitespace().collect::<Vec<_>>().join(" ");
            let words = words.rsplit('{').next().expect("a declaration").trim();
            let words = &words.replace("*fastbloom_", "* fastbloom_");
            let (mark, words) = match words.strip_prefix("FASTBLOOM_MUST_USE ") {
                Some(words) => ("#[must_use] ", words),
                None => ("", words.as_str()),
            };
            let (result, rest) = words
                .split_once(" fastbloom_")
                .expect("a result and a name");
            let (name, rest) = rest.split_once('(').expect("parameters");
            let list = rest.strip_suffix(')').expect("the end of the parameters");
            let list = list.split(", ").filter(|one| *one != "void");
            let list = list.map(parameter_of_c).collect::<Vec<_>>().join(", ");
            let result = match result {
                "void" => String::new(),
                result => format!(" -> {}", type_of_c(result)),
            };
            let name = format!("fastbloom_{name}");
            let declaration = format!("{mark}pub fn {name}({list}){result};");
            (name, declaration)
        })
        .collect()
}

/// The calls that the crate declares, by their names.
fn calls_of_crate() -> BTreeMap<String, String> {
    let block = between(DECLARATIONS, "extern \"C\" {", "\n}").expect("a block of calls");
    let lines = block
        .lines()
        .map(str::trim)
        .filter(|line| !line.starts_with("///"));
    let text = lines.collect::<Vec<_>>().join(" ");
    let calls = text
        .split_inclusive(';')
        .filter(|text| text.contains("pub fn"));
    calls
        .map(|text| {
            let words = text.split_whitespace().collect::<Vec<_>>().join(" ");
            let words = words.replace("( ", "(").replace(", )", ")");
            let name = between(&words, "pub fn ", "(").expect("a name").to_owned();
            (name, words)
        })
        .collect()
}

#[test]
fn each_call_is_declared_as_in_the_header() {
    let (header, declared) = (calls_of_header(), calls_of_crate());
    assert!(header.len() > 1 && declared.len() > 1);
    for (name, wanted) in &header {
        let there = declared.get(name).map_or("nothing", String::as_str);
        assert_eq!(there, wanted, "the declaration of {name} in src/lib.rs");
    }
    for name in declared.keys() {
        assert!(header.contains_key(name), "the header has no {name}");
    }
}

#[test]
fn each_symbol_is_declared() {
    let declared: Vec<_> = calls_of_crate().into_keys().collect();
    assert_eq!(declared, SYMBOLS.lines().collect::<Vec<_>>());
}

#[test]
fn each_number_is_that_of_the_header() {
    let blocks = ["enum fastbloom_status {", "enum fastbloom_file_status {"];
    let blocks = blocks.map(|first| plain_c(between(HEADER, first, "};").expect("numbers")));
    let wanted: Vec<_> = blocks
        .iter()
        .flat_map(|block| block.split(','))
        .map(|text| text.split_whitespace().collect::<Vec<_>>().join(" "))
        .collect();
    let lines = DECLARATIONS.lines().filter(|line| line.contains(": u8 = "));
    let there: Vec<_> = lines
        .map(|line| {
            line.replace("pub const ", "")
                .replace(": u8", "")
                .replace(';', "")
        })
        .collect();
    assert_eq!(there, wanted);
}

#[test]
fn the_version_is_that_of_the_header() {
    let wanted = between(HEADER, "#define FASTBLOOM_VERSION \"", "\"");
    assert_eq!(Some(fastbloom_c_sys::FASTBLOOM_VERSION), wanted);
    assert_eq!(
        Some(env!("CARGO_PKG_VERSION").split('+').next().unwrap()),
        wanted
    );
}

#[test]
fn a_hasher_is_eight_words() {
    let wanted = "typedef struct fastbloom_hasher {\n    uint64_t words[8];\n} fastbloom_hasher;";
    assert!(HEADER.contains(wanted));
    let hasher = fastbloom_c_sys::fastbloom_hasher { words: [0; 8] };
    assert_eq!(size_of_val(&hasher), size_of_val(&hasher.words));
    assert_eq!(align_of_val(&hasher), align_of_val(&hasher.words));
}

#[test]
fn shared_words_are_a_pointer_and_a_number() {
    let wanted = "typedef struct fastbloom_shared {\n    uint64_t *words;\n    size_t num_words;\n\
                  } fastbloom_shared;";
    assert!(HEADER.contains(wanted));
    let shared = fastbloom_c_sys::fastbloom_shared {
        words: std::ptr::null_mut(),
        num_words: 0,
    };
    assert_eq!(size_of_val(&shared), 16);
    assert_eq!(align_of_val(&shared), 8);
}

#[test]
fn a_filter_of_a_file_lies_as_in_the_header() {
    let wanted =
        "typedef struct fastbloom_filter {\n    uint64_t *words;\n    size_t num_words;\n    \
                  uint32_t num_hashes;\n    uint8_t key[16];\n} fastbloom_filter;";
    assert!(HEADER.contains(wanted));
    let wanted = "typedef struct fastbloom_limits {\n    size_t max_words;\n    \
                  uint32_t max_hashes;\n} fastbloom_limits;";
    assert!(HEADER.contains(wanted));
    let modes = between(HEADER, "enum fastbloom_map_mode {", "};").map(plain_c);
    let modes = modes.expect("modes");
    let modes: Vec<_> = modes.split_whitespace().collect();
    let wanted = "FASTBLOOM_MAP_READ = 0, FASTBLOOM_MAP_COPY = 1, FASTBLOOM_MAP_SHARE = 2";
    assert_eq!(modes.join(" "), wanted);
    assert_eq!(fastbloom_c_sys::FASTBLOOM_MAP_SHARE, 2);
    let limits = fastbloom_c_sys::fastbloom_limits {
        max_words: 0,
        max_hashes: 0,
    };
    assert_eq!(size_of_val(&limits), 16);
}

/// Takes the addresses of these calls, so that the linker looks for each.
macro_rules! linked {
    ($($name:ident)*) => {
        [$((stringify!($name), fastbloom_c_sys::$name as *const ())),*]
    };
}

#[test]
fn the_library_has_each_symbol() {
    let linked = linked! {
        fastbloom_blocked_capacity fastbloom_blocked_contains fastbloom_blocked_contains_hash
        fastbloom_blocked_contains_hashes fastbloom_blocked_estimate
        fastbloom_blocked_estimate_common fastbloom_blocked_estimate_union
        fastbloom_blocked_head_read fastbloom_blocked_head_write fastbloom_blocked_insert
        fastbloom_blocked_insert_hash fastbloom_blocked_insert_hashes
        fastbloom_blocked_insert_hashes_tell_new fastbloom_blocked_jaccard fastbloom_blocked_line
        fastbloom_blocked_load fastbloom_blocked_map fastbloom_blocked_plan
        fastbloom_blocked_rate_bounds fastbloom_blocked_rate_now fastbloom_blocked_save
        fastbloom_blocked_seal
        fastbloom_blocked_shared_contains fastbloom_blocked_shared_contains_hash
        fastbloom_blocked_shared_contains_hashes fastbloom_blocked_shared_estimate
        fastbloom_blocked_shared_insert fastbloom_blocked_shared_insert_hash
        fastbloom_blocked_shared_insert_hashes fastbloom_blocked_shared_insert_hashes_tell_new
        fastbloom_blocked_shared_rate_now fastbloom_capacity fastbloom_clear fastbloom_contains
        fastbloom_contains_hash fastbloom_contains_hashes fastbloom_count_ones fastbloom_equal
        fastbloom_estimate fastbloom_estimate_common fastbloom_estimate_union
        fastbloom_expected_rate fastbloom_hash fastbloom_hash_items fastbloom_hasher_finish
        fastbloom_hasher_init fastbloom_hasher_update fastbloom_head_read fastbloom_head_write
        fastbloom_insert fastbloom_insert_hash fastbloom_insert_hashes
        fastbloom_insert_hashes_tell_new fastbloom_intersect fastbloom_jaccard fastbloom_load
        fastbloom_map fastbloom_num_bits fastbloom_plan fastbloom_rate_bounds fastbloom_rate_now
        fastbloom_save fastbloom_seal fastbloom_shared_clear fastbloom_shared_contains
        fastbloom_shared_contains_hash fastbloom_shared_contains_hashes fastbloom_shared_count_ones
        fastbloom_shared_estimate fastbloom_shared_insert fastbloom_shared_insert_hash
        fastbloom_shared_insert_hashes fastbloom_shared_insert_hashes_tell_new
        fastbloom_shared_intersect fastbloom_shared_load fastbloom_shared_rate_now
        fastbloom_shared_take fastbloom_shared_union fastbloom_strerror fastbloom_union
        fastbloom_unload fastbloom_unmap fastbloom_version
    };
    assert_eq!(
        linked.map(|(name, _)| name).as_slice(),
        SYMBOLS.lines().collect::<Vec<_>>()
    );
    assert!(linked.iter().all(|(_, address)| !address.is_null()));
}
