//! An edit turns a good crate into a wrong one. Its first line says what the slip is. A line `file: PATH` names a file of the crate, and
//! `file: ../CRATE/PATH` one of a crate below it; each pair of lines `old: TEXT` and `new: TEXT` behind it exchanges a text that stands there
//! exactly once. Every other line is a comment.

use std::collections::{BTreeMap, BTreeSet};
use std::fs;
use std::path::Path;

#[derive(Debug, PartialEq)]
pub struct Change {
    /// The crate whose file it is.
    of: String,
    file: String,
    old: String,
    new: String,
}

/// The changes of the text of an edit of the crate `own`, in their order.
pub fn read(text: &str, own: &str) -> Result<Vec<Change>, String> {
    let (mut of, mut file, mut old) = (String::new(), String::new(), String::new());
    let mut changes = Vec::new();
    if text.trim().is_empty() || text.starts_with("file: ") {
        return Err("no first line says what the slip is".to_string());
    }
    for line in text.lines() {
        if let Some(path) = line.strip_prefix("file: ") {
            (of, file) = placed(path, own)?;
        } else if let Some(words) = line.strip_prefix("old: ") {
            if !old.is_empty() {
                return Err(format!("no 'new:' line follows 'old: {old}'"));
            }
            old = words.to_string();
        } else if let Some(words) = line.strip_prefix("new:") {
            if file.is_empty() || old.is_empty() {
                return Err("a 'new:' line has no 'file:' and 'old:' lines before it".to_string());
            }
            let new = words.strip_prefix(' ').unwrap_or(words).to_string();
            changes.push(Change { of: of.clone(), file: file.clone(), old: std::mem::take(&mut old), new });
        }
    }
    if !old.is_empty() {
        return Err(format!("no 'new:' line follows 'old: {old}'"));
    }
    if changes.is_empty() {
        return Err("it has no 'old:' and 'new:' pair".to_string());
    }
    Ok(changes)
}

/// The crate that a path leads to, and the path from there, which stays inside the three folders that the prover reads.
fn placed(path: &str, own: &str) -> Result<(String, String), String> {
    let (of, file) = path.strip_prefix("../").and_then(|path| path.split_once('/')).unwrap_or((own, path));
    let inside = ["src/", "specs/", "proofs/"].iter().any(|folder| file.starts_with(folder));
    if !inside || of == ".." || file.split('/').any(|part| part == "..") {
        return Err(format!("'file: {path}' is no file under src/, specs/ or proofs/"));
    }
    Ok((of.to_string(), file.to_string()))
}

/// The crates whose files the changes are in.
pub fn changed(changes: &[Change]) -> BTreeSet<String> {
    changes.iter().map(|change| change.of.clone()).collect()
}

/// The files of the crate `of`, which stands in `tree`, as those of the changes that are its own leave them.
pub fn apply(changes: &[Change], of: &str, tree: &Path) -> Result<BTreeMap<String, String>, String> {
    let mut files = BTreeMap::new();
    for change in changes.iter().filter(|change| change.of == of) {
        let text = match files.remove(&change.file) {
            Some(text) => text,
            None => fs::read_to_string(tree.join(&change.file)).map_err(|why| format!("{}: {why}", change.file))?,
        };
        files.insert(change.file.clone(), exchanged(&text, change)?);
    }
    Ok(files)
}

fn exchanged(text: &str, change: &Change) -> Result<String, String> {
    match text.matches(&change.old).count() {
        0 => Err(format!("its old text is not in {}: {}", change.file, change.old)),
        1 => Ok(text.replacen(&change.old, &change.new, 1)),
        n => Err(format!("its old text stands {n} times in {}: {}", change.file, change.old)),
    }
}

#[cfg(test)]
mod tests {
    use super::*;

    fn change(old: &str, new: &str) -> Change {
        change_of("own", old, new)
    }

    fn change_of(of: &str, old: &str, new: &str) -> Change {
        Change { of: of.to_string(), file: "src/lib.rt".to_string(), old: old.to_string(), new: new.to_string() }
    }

    fn read(text: &str) -> Result<Vec<Change>, String> {
        super::read(text, "own")
    }

    #[test]
    fn pairs_share_a_file_and_comments_are_passed_over() {
        let text = "A slip.\nfile: src/lib.rt\nold: a\nnew: b\nold:  c\nnew:\n";
        assert_eq!(read(text), Ok(vec![change("a", "b"), change(" c", "")]));
    }

    #[test]
    fn an_edit_without_a_pair_is_none() {
        for pair in ["old: a\n", "new: a\n", "old: a\nold: b\nnew: c\n", "old: a\nnew: b\nold: c\nNew: d\n", ""] {
            assert!(read(&format!("A slip.\nfile: src/lib.rt\n{pair}")).is_err(), "{pair}");
        }
        assert!(read("A slip.\nold: a\nnew: b\n").is_err());
    }

    #[test]
    fn an_edit_says_what_its_slip_is() {
        assert!(read("file: src/lib.rt\nold: a\nnew: b\n").is_err());
        assert!(read("").is_err());
    }

    #[test]
    fn an_edit_changes_other_crates_by_their_names() {
        let text = "A slip.\nfile: ../other/src/lib.rt\nold: a\nnew: b\nold: c\nnew: d\nfile: src/lib.rt\nold: a\nnew: b\n";
        let changes = read(text).unwrap();
        assert_eq!(changes, [change_of("other", "a", "b"), change_of("other", "c", "d"), change("a", "b")]);
        assert_eq!(changed(&changes).into_iter().collect::<Vec<_>>(), ["other", "own"]);
    }

    #[test]
    fn an_edit_stays_inside_what_the_prover_reads() {
        for path in [
            "stdout",
            "src/../../other/src/lib.rt",
            "../other/stdout",
            "../other",
            "../src/lib.rt",
            "../../src/lib.rt",
            "../../other/src/lib.rt",
            "../other/../third/src/lib.rt",
            "../other/src/../../third/src/lib.rt",
            "/src/lib.rt",
        ] {
            assert!(read(&format!("A slip.\nfile: {path}\nold: a\nnew: b\n")).is_err(), "{path}");
        }
    }

    #[test]
    fn an_old_text_stands_once() {
        assert_eq!(exchanged("x a y", &change("a", "b")), Ok("x b y".to_string()));
        assert!(exchanged("x y", &change("a", "b")).unwrap_err().contains("is not in src/lib.rt"));
        assert!(exchanged("a a", &change("a", "b")).unwrap_err().contains("stands 2 times in src/lib.rt"));
    }
}
