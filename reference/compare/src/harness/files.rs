//! The files of the programs in a folder.

use reference::Files;
use std::fs;
use std::io;
use std::path::Path;

/// The names of the files of `mark`, in the order in which they are read; `tidy` reads the first.
pub const NAMES: [&str; 4] = ["sheet.mtx", "limits.mtx", "plan.mtx", "prices.mtx"];

/// The names of the files of `solve`, `to_dimacs` and `price_tanks`: the first two.
pub const PROBLEM: [&str; 2] = [NAMES[0], NAMES[1]];

/// The name of the file of `rewrite`.
pub const OLD: &str = "old.mtx";

/// The name of the file of `from_dimacs`.
pub const CROSSES: &str = "crosses.asn";

/// What stands under a file's name.
#[derive(Clone, Debug, PartialEq, Eq)]
pub enum Entry {
    /// A file with this text.
    Text(Vec<u8>),
    /// Nothing.
    Absent,
    /// A folder, which cannot be read as a file.
    Folder,
}

impl Entry {
    /// What stands at a path.
    pub fn read(path: &Path) -> Entry {
        if path.is_dir() {
            return Entry::Folder;
        }
        fs::read(path).map_or(Entry::Absent, Entry::Text)
    }

    fn write(&self, path: &Path) -> io::Result<()> {
        match self {
            Entry::Text(text) => fs::write(path, text),
            Entry::Absent => Ok(()),
            Entry::Folder => fs::create_dir(path),
        }
    }

    /// The text, if it can be read.
    pub fn text(&self) -> Option<&[u8]> {
        match self {
            Entry::Text(text) => Some(text),
            Entry::Absent | Entry::Folder => None,
        }
    }

    /// The beginning, to be shown.
    pub fn shown(&self) -> String {
        match self {
            Entry::Text(text) => {
                let beginning = &text[..text.len().min(300)];
                let beginning = String::from_utf8_lossy(beginning);
                format!("{} bytes {beginning:?}", text.len())
            }
            Entry::Absent => "absent".into(),
            Entry::Folder => "a folder".into(),
        }
    }
}

/// What stands under each name of a folder.
pub type Named<'a> = Vec<(&'static str, &'a Entry)>;

/// The same, with what it holds.
pub type Held = Vec<(&'static str, Entry)>;

/// What stands under each name of what is held.
pub fn named(held: &Held) -> Named<'_> {
    held.iter().map(|(name, entry)| (*name, entry)).collect()
}

/// Makes a folder with these files; whatever stood there is removed.
pub fn write_folder(path: &Path, files: &Named) -> io::Result<()> {
    if path.exists() {
        fs::remove_dir_all(path)?;
    }
    fs::create_dir_all(path)?;
    for (name, entry) in files {
        entry.write(&path.join(name))?;
    }
    Ok(())
}

/// A folder with the files of `solve` and `mark`.
#[derive(Clone, Debug, PartialEq, Eq)]
pub struct Folder {
    /// What the folder is called where it is shown.
    pub name: String,
    /// What stands under each of [`NAMES`].
    pub entries: [Entry; 4],
}

impl Folder {
    /// These files of a folder.
    pub fn read(name: String, path: &Path) -> Folder {
        let entries = NAMES.map(|file| Entry::read(&path.join(file)));
        Folder { name, entries }
    }

    /// What stands under each name.
    pub fn named(&self) -> Named<'_> {
        NAMES.into_iter().zip(&self.entries).collect()
    }

    /// The texts as the separately written program takes them.
    pub fn lend(&self) -> Files<'_> {
        let [graph, bounds, subgraph, prices] = &self.entries;
        Files {
            graph: graph.text(),
            bounds: bounds.text(),
            subgraph: subgraph.text(),
            prices: prices.text(),
        }
    }

    /// The name and the beginning of each file, to be shown.
    pub fn shown(&self) -> String {
        let files = NAMES.iter().zip(&self.entries);
        let files = files.map(|(file, entry)| format!("\n  {file}: {}", entry.shown()));
        format!("folder {}:{}", self.name, files.collect::<String>())
    }
}
