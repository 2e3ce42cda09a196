//! Each public item has an example in its comment.

use std::fs;
use std::path::Path;

/// Whether a line begins what shall have an example: a public item, or an `impl` with a comment.
fn shall_have_example(line: &str, comment: &[&str]) -> bool {
    let is_public = line.starts_with("pub ") && !line.starts_with("pub use ");
    is_public || line.starts_with("impl") && !comment.is_empty()
}

/// How many items of a source shall have an example, and the first lines of those that have none.
fn items_of(source: &str) -> (usize, Vec<&str>) {
    let (mut count, mut lacking, mut comment) = (0, Vec::new(), Vec::new());
    for line in source.lines().map(str::trim_start) {
        if line.starts_with("///") {
            comment.push(line);
        } else if !line.starts_with("#[") {
            if shall_have_example(line, &comment) {
                count += 1;
                if !comment.iter().any(|line| line.starts_with("/// ```")) {
                    lacking.push(line);
                }
            }
            comment.clear();
        }
    }
    (count, lacking)
}

#[test]
fn each_public_item_has_an_example() {
    let folder = Path::new(env!("CARGO_MANIFEST_DIR")).join("src");
    let mut count = 0;
    for entry in fs::read_dir(folder).expect("the sources") {
        let path = entry.expect("a source").path();
        let name = path.file_name().expect("a name").to_string_lossy();
        // These modules are the crate's own.
        if name.starts_with("raw") {
            continue;
        }
        let source = fs::read_to_string(&path).expect("a text");
        let (items, lacking) = items_of(&source);
        assert!(
            lacking.is_empty(),
            "{name}, without an example: {lacking:#?}"
        );
        count += items;
    }
    assert!(count > 150, "only {count} items were found");
}

#[test]
fn an_item_without_an_example_is_found() {
    let source = "/// ```\n/// f();\n/// ```\n#[must_use]\npub fn f() {}\n\n/// No example.\n\
                  #[must_use]\npub fn g() {}\n\n/// None.\nimpl From<A> for B {}\n\nimpl A {}\n\
                  pub(crate) fn h() {}\npub use a::A;\n    pub unsafe fn i() {}\n";
    let lacking = vec![
        "pub fn g() {}",
        "impl From<A> for B {}",
        "pub unsafe fn i() {}",
    ];
    assert_eq!(items_of(source), (4, lacking));
}
