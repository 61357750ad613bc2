//! What is in the tree.

use std::path::{Path, PathBuf};
use std::sync::OnceLock;

pub fn root() -> PathBuf {
    PathBuf::from(env!("CARGO_MANIFEST_DIR")).join("..")
}

/// A path as the documents write it.
pub fn shown(path: &Path) -> String {
    let below = path.strip_prefix(root()).unwrap_or(path);
    below.display().to_string()
}

pub fn read(path: &Path) -> String {
    let bytes = std::fs::read(path).unwrap_or_else(|error| panic!("{}: {error}", path.display()));
    String::from_utf8_lossy(&bytes).into_owned()
}

/// The name of the crate that a line of crates.txt lists: "app status=3: low io".
fn listed_crate(line: &str) -> Option<&str> {
    let said = line.split('#').next().unwrap_or(line);
    said.split([':', ' '])
        .next()
        .filter(|name| !name.is_empty())
}

/// The crates of crates.txt.
pub fn crates() -> &'static [String] {
    static CRATES: OnceLock<Vec<String>> = OnceLock::new();
    CRATES.get_or_init(|| {
        let list = read(&root().join("crates.txt"));
        list.lines()
            .filter_map(listed_crate)
            .map(String::from)
            .collect()
    })
}

pub fn is_crate(name: &str) -> bool {
    crates().iter().any(|c| c == name)
}

/// The files of a folder.
pub fn files(folder: &str) -> Vec<PathBuf> {
    let Ok(entries) = std::fs::read_dir(root().join(folder)) else {
        return Vec::new();
    };
    let paths = entries.map(|entry| entry.expect("an entry").path());
    let mut files: Vec<PathBuf> = paths.filter(|path| path.is_file()).collect();
    files.sort();
    files
}

pub fn edit(name: &str, label: &str) -> PathBuf {
    root().join(format!("crates/{name}/must-fail/{label}.edit"))
}

/// Does it stand in a folder `out`, where `rt` keeps what it builds?
pub fn is_built(path: &str) -> bool {
    path.split('/').any(|part| part == "out")
}

/// Is it a path? What is built is not in the tree, and LABEL is any label.
pub fn is_path(text: &str) -> bool {
    let endings = [".antt", ".rt", ".rs", ".md", ".txt", ".edit"];
    let plain = |c: char| c.is_ascii_alphanumeric() || "_./+*-".contains(c);
    (text.contains('/') || endings.iter().any(|ending| text.ends_with(ending)))
        && text.chars().all(plain)
        && !text.contains("LABEL")
        && !is_built(text)
}

/// Is it a folder of a crate, from the root or from crates/?
pub fn is_folder(text: &str) -> bool {
    let bases = ["", "crates/"];
    is_path(text)
        && bases
            .iter()
            .any(|base| root().join(base).join(text).is_dir())
}

/// What a document means by a path: it begins at the root, below crates/, in
/// one of the crates `near` (in any, if there is none) or in the tests; an
/// ending may be left out.
pub fn find(path: &str, near: &[String]) -> Vec<PathBuf> {
    if path.contains('*') {
        let meant = crates().iter().map(|name| path.replace('*', name));
        return meant.flat_map(|path| find(&path, near)).collect();
    }
    let near = if near.is_empty() { crates() } else { near };
    let mut bases = ["", "crates", "reference/tests"].map(String::from).to_vec();
    for name in near {
        bases.extend(["", "/specs", "/proofs", "/src"].map(|part| format!("crates/{name}{part}")));
    }
    let endings = ["", ".antt", ".rt"].map(|ending| format!("{path}{ending}"));
    let paths = bases
        .iter()
        .flat_map(|base| endings.iter().map(move |path| root().join(base).join(path)));
    paths.filter(|path| path.exists()).collect()
}

/// The words before a declared name.
const KEYWORDS: &str =
    "pub abbrev unfoldable record data module fn struct enum const static type trait mod impl";

/// What follows the arguments that a declaration names: "(n : ℕ) {m : ℕ} : T".
fn past_arguments(text: &str) -> &str {
    let mut rest = text.trim_start();
    while rest.starts_with(['(', '{']) {
        let mut depth = 0;
        let end = rest.find(|c| {
            depth += i32::from("({".contains(c)) - i32::from(")}".contains(c));
            depth == 0
        });
        rest = end.map_or("", |end| rest[end + 1..].trim_start());
    }
    rest
}

/// Does a line declare the name, after a keyword, with its type, or as a
/// variant?
fn line_declares(line: &str, name: &str) -> bool {
    let is_keyword = |word: &str| KEYWORDS.split(' ').any(|keyword| keyword == word);
    let mut rest = line.trim_start();
    let mut keyword = "";
    while let Some((word, after)) = rest.split_once(' ').filter(|(word, _)| is_keyword(word)) {
        (keyword, rest) = (word, after);
    }
    let Some(after) = rest.strip_prefix(name) else {
        return false;
    };
    let ends = !after.starts_with(|c: char| c.is_alphanumeric() || "_-'".contains(c));
    let is_typed = past_arguments(after).starts_with(':');
    let is_variant = name.starts_with(char::is_uppercase) && after.starts_with(['(', ',', ' ']);
    ends && (is_typed || is_variant || !["", "pub"].contains(&keyword))
}

/// Does the file declare the name? Of `Rate::new` or `Leaves.later` it declares
/// each part, of `Holds h b` one.
pub fn declares(path: &Path, name: &str) -> bool {
    let text = read(path);
    let has = |name: &str| text.lines().any(|line| line_declares(line, name));
    let has_parts = |word: &str| word.replace("::", ".").split('.').all(has);
    name.split(' ')
        .any(|word| !word.is_empty() && has_parts(word))
}

#[test]
fn a_line_of_crates_txt_lists_the_crate_before_the_colon() {
    let lines = [
        "app status=3: low io",
        "low:",
        "",
        "# A crate: a library",
        "ffi staticlib: low # C",
    ];
    let listed: Vec<&str> = lines.into_iter().filter_map(listed_crate).collect();
    assert_eq!(listed, ["app", "low", "ffi"]);
}

#[test]
fn what_is_built_is_no_path_of_the_tree() {
    assert!(!is_path("crates/book/out/book") && !is_path("crates/book/out"));
    assert!(is_path("target/bin/book") && is_path("console/src/write.rt"));
}

#[test]
fn a_declaration_has_a_keyword_or_a_type() {
    for line in [
        "low : ℕ",
        "  low {n : ℕ} (f : ℕ → (ℕ × ℕ)) : ℕ",
        "pub data low where",
    ] {
        assert!(line_declares(line, "low"), "{line}");
    }
    for line in ["low zero = zero", "lower : ℕ", "low (suc n) = n", "low"] {
        assert!(!line_declares(line, "low"), "{line}");
    }
}
