//! usage: lists check | write     at the repository's root
//!
//! write    writes what is made from refusals.txt and VERSION: the parts between marks in the files that `making` names.
//! check    fails where such a part is not what would be written, or is not alone in its braces; where a `number` of the crates gives what
//!          refusals.txt does not have, or is of no enum `..Refusal`, or a listed variant has no such arm, or a variant of such an enum has no arm;
//!          where a call answers a number that is not listed, as `answers` finds them; and where the newest entry of CHANGELOG.md is not of the
//!          version in VERSION. The last line is 'N passed, M failed'.

mod answers;
mod checking;
mod list;
mod making;
mod parts;
mod source;
mod version;

use checking::{Found, Source};
use list::Refusal;
use parts::Part;
use std::collections::BTreeMap;
use std::fs;
use std::path::{Path, PathBuf};
use std::process::exit;

fn main() {
    let words: Vec<String> = std::env::args().skip(1).collect();
    let words: Vec<&str> = words.iter().map(String::as_str).collect();
    let done = match words.as_slice() {
        ["check"] => check(),
        ["write"] => write().map(|()| true),
        _ => {
            eprintln!("usage: lists check | write");
            exit(2);
        }
    };
    match done {
        Ok(is_good) => exit(if is_good { 0 } else { 1 }),
        Err(why) => {
            println!("{why}\n0 passed, 1 failed");
            exit(1);
        }
    }
}

fn read(file: impl AsRef<Path>) -> Result<String, String> {
    fs::read_to_string(&file).map_err(|why| format!("{}: {why}", file.as_ref().display()))
}

fn read_sources() -> Result<(Vec<Refusal>, version::Version), String> {
    Ok((list::read(&read(list::FILE)?)?, version::read(&read(version::FILE)?)?))
}

/// Where a mark is missing nothing is written.
fn write() -> Result<(), String> {
    let (all, version) = read_sources()?;
    let mut texts = BTreeMap::new();
    for part in making::parts(&all, &version) {
        let text = texts.remove(part.file).map_or_else(|| read(part.file), Ok)?;
        texts.insert(part.file, part.put(&text)?);
    }
    for (file, text) in texts {
        if text != read(file)? {
            fs::write(file, text).map_err(|why| format!("{file}: {why}"))?;
            println!("{file}: written anew");
        }
    }
    Ok(())
}

fn check() -> Result<bool, String> {
    let (all, version) = read_sources()?;
    let mut found = Found::default();
    let parts = making::parts(&all, &version);
    for part in &parts {
        found.note(stale(part));
    }
    found.note(read(version::CHANGES).and_then(|changes| version::is_newest(&version, &changes)).err());
    let held = checking::checked(&all, &sources(Path::new("crates"))?);
    println!("{} numbers; {} made parts; {} places in the crates that are as listed", all.len(), parts.len(), held.good);
    let good = found.good + held.good;
    let wrong: Vec<String> = found.wrong.into_iter().chain(held.wrong).collect();
    for words in &wrong {
        println!("{words}");
    }
    println!("{good} passed, {} failed", wrong.len());
    Ok(wrong.is_empty())
}

fn stale(part: &Part) -> Option<String> {
    match read(part.file).and_then(|text| part.first_other(&text)) {
        Ok(None) => None,
        Ok(Some(line)) => Some(format!("{}:{line} is not what {} gives: run 'make lists'", part.file, part.source)),
        Err(why) => Some(why),
    }
}

/// The sources of all crates.
fn sources(crates: &Path) -> Result<Vec<Source>, String> {
    let mut found = Vec::new();
    for folder in inside(crates)? {
        let source = folder.join("src");
        if source.is_dir() {
            add_sources(&mut found, &stem(&folder), &stem(&folder), &source)?;
        }
    }
    Ok(found)
}

/// Those of a folder, by what a caller calls it, and of the folders in it.
fn add_sources(found: &mut Vec<Source>, of: &str, called: &str, folder: &Path) -> Result<(), String> {
    for file in inside(folder)? {
        let is_root = called == of && ["lib", "main"].contains(&stem(&file).as_str());
        let module = if is_root { of.to_string() } else { format!("{called}::{}", stem(&file)) };
        if file.is_dir() {
            add_sources(found, of, &module, &file)?;
        } else if file.extension().map_or(false, |ending| ending == "rt") {
            found.push(Source { of: of.to_string(), module, text: read(&file)? });
        }
    }
    Ok(())
}

fn inside(folder: &Path) -> Result<Vec<PathBuf>, String> {
    let wrong = |why| format!("{}: {why}", folder.display());
    let entries = fs::read_dir(folder).map_err(wrong)?;
    let mut found = entries.map(|entry| entry.map(|entry| entry.path())).collect::<Result<Vec<_>, _>>().map_err(wrong)?;
    found.sort();
    Ok(found)
}

fn stem(path: &Path) -> String {
    path.file_stem().map_or(String::new(), |stem| stem.to_string_lossy().into_owned())
}

#[cfg(test)]
mod tests {
    use super::*;

    #[test]
    fn sources_stand_in_folders_too() {
        let top = std::env::temp_dir().join(format!("made-lists-{}", std::process::id()));
        for (folder, file) in [
            ("bus/src", "lib.rt"),
            ("bus/src", "window.rt"),
            ("bus/src/more/deep", "x.rt"),
            ("bus/src/more", "x.txt"),
            ("law", "x.rt"),
        ] {
            fs::create_dir_all(top.join(folder)).unwrap();
            fs::write(top.join(folder).join(file), file).unwrap();
        }
        let found = sources(&top).unwrap();
        fs::remove_dir_all(&top).unwrap();
        let found: Vec<(&str, &str, &str)> = found.iter().map(|s| (s.of.as_str(), s.module.as_str(), s.text.as_str())).collect();
        let expected = [("bus", "bus", "lib.rt"), ("bus", "bus::more::deep::x", "x.rt"), ("bus", "bus::window", "window.rt")];
        assert_eq!(found, expected);
    }
}
