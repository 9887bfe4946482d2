//! The examples of the repository.

use crate::harness::files::{Entry, Folder, CROSSES, NAMES, OLD};
use std::fs;
use std::path::{Path, PathBuf};

/// The folder of the examples, in the repository.
const EXAMPLES: &str = "examples";

/// The name under which an example has the tidy form of its sheet.
pub const TIDIED: &str = "tidy.mtx";

/// The name under which an example has crosses as a partner sent them.
pub const PARTNER: &str = "partner.asn";

fn path(name: &str) -> PathBuf {
    let root = Path::new(env!("CARGO_MANIFEST_DIR")).join("../..");
    root.join(name)
}

/// A file, by its path in the repository.
pub fn file(name: &str) -> Entry {
    Entry::read(&path(name))
}

/// An example, by its path in the repository.
pub fn example(name: &str) -> Folder {
    Folder::read(name.into(), &path(name))
}

/// Whether something of this name is an example.
pub fn is_example(name: &str) -> bool {
    name.split('/').next() == Some(EXAMPLES)
}

/// The last part of a path.
pub fn file_name(path: &str) -> &str {
    path.rsplit('/').next().unwrap_or(path)
}

/// The names of the folders in a folder of the repository, in order.
fn names_in(name: &str) -> Vec<String> {
    let inside = fs::read_dir(path(name)).into_iter().flatten().flatten();
    let inside = inside.filter(|entry| entry.path().is_dir());
    let names = inside.filter_map(|entry| entry.file_name().into_string().ok());
    let mut names: Vec<_> = names.map(|inner| format!("{name}/{inner}")).collect();
    names.sort();
    names
}

/// The folders with a file of this name at a path of the repository and below it.
fn names_from(name: &str, file: &str) -> Vec<String> {
    let mut names = Vec::new();
    if path(name).join(file).is_file() {
        names.push(name.into());
    }
    for inner in names_in(name) {
        names.extend(names_from(&inner, file));
    }
    names
}

/// The paths of the examples for `solve` and `mark`: the folders with a sheet.
pub fn names() -> Vec<String> {
    names_from(EXAMPLES, NAMES[0])
}

/// The texts of all examples, by their paths: those that the programs read, and tidy sheets.
pub fn texts() -> Vec<(String, Entry)> {
    files_named([OLD, TIDIED].into_iter().chain(NAMES))
}

/// The assignments of all examples, by their paths.
pub fn assignments() -> Vec<(String, Entry)> {
    files_named([CROSSES, PARTNER].into_iter())
}

/// The files of these names in all examples, by their paths.
fn files_named(files: impl Iterator<Item = &'static str>) -> Vec<(String, Entry)> {
    let paths = files.flat_map(|file| {
        let names = names_from(EXAMPLES, file).into_iter();
        names.map(move |name| format!("{name}/{file}"))
    });
    paths.map(|name| (name.clone(), file(&name))).collect()
}
