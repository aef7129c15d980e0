//! The package's files stand on each other in one order: none uses a file that uses it in turn.

use std::collections::{BTreeMap, BTreeSet};
use std::fs;
use std::path::Path;

/// The files that each file uses: `use crate::answer::Answer;` uses `answer`.
fn uses() -> BTreeMap<String, BTreeSet<String>> {
    let folder = Path::new(env!("CARGO_MANIFEST_DIR")).join("src");
    let files = fs::read_dir(folder).expect("the package has files").map(|file| file.expect("it has a name").path());
    let used = |file: &Path| {
        let text = fs::read_to_string(file).expect("the file can be read");
        let words = text.lines().filter(|line| !line.trim_start().starts_with("//")).flat_map(|line| line.split("crate::").skip(1));
        words.map(|word| word.split(|c: char| !c.is_alphanumeric()).next().unwrap_or_default().to_owned()).collect()
    };
    files.map(|file| (file.file_stem().unwrap_or_default().to_string_lossy().into_owned(), used(&file))).collect()
}

#[test]
fn there_is_no_circle() {
    let mut left = uses();
    assert!(left.len() > 10 && left["recorder"].contains("register"), "the files are not read as they are written: {left:?}");
    while !left.is_empty() {
        let free: Vec<String> = left.iter().filter(|(_, used)| used.is_empty()).map(|(file, _)| file.clone()).collect();
        assert!(!free.is_empty(), "these files use each other: {left:?}");
        left.retain(|file, _| !free.contains(file));
        left.values_mut().for_each(|used| used.retain(|file| !free.contains(file)));
    }
}
