//! A run: every wrong program of some crates, tried by `rt ci` in copies of the repository.

use crate::crates::Crates;
use crate::edit::{self, Change};
use crate::folder;
use crate::prover::Prover;
use crate::verdict::{self, Verdict};
use std::collections::BTreeSet;
use std::fs;
use std::io;
use std::path::{Path, PathBuf};
use std::sync::Mutex;

fn lost(why: String) -> io::Error {
    io::Error::new(io::ErrorKind::NotFound, why)
}

/// How many wrong programs were refused at a fact, and how many not.
#[derive(Default)]
pub struct Tally {
    pub passed: usize,
    pub failed: usize,
}

/// An edit of a crate, with its name, its text and its changes.
struct Edit {
    of: String,
    label: String,
    text: String,
    changes: Vec<Change>,
}

impl Edit {
    fn name(&self) -> String {
        format!("{}/{}", self.of, self.label)
    }
}

pub struct Run {
    top: PathBuf,
    /// Where copies stand while they are needed, and where the logs stay.
    room: PathBuf,
    logs: PathBuf,
    crates: Crates,
    prover: Prover,
    folders: Vec<String>,
    tally: Mutex<Tally>,
}

impl Drop for Run {
    fn drop(&mut self) {
        let _ = fs::remove_dir_all(&self.room);
    }
}

impl Run {
    /// On the repository at `top`, with the edits of these folders of each crate.
    pub fn new(top: PathBuf, folders: Vec<String>) -> io::Result<Run> {
        let room = std::env::temp_dir().join(format!("wrong-programs-{}", std::process::id()));
        let logs = top.join("target/wrong-programs");
        let _ = fs::remove_dir_all(&logs);
        fs::create_dir_all(&logs)?;
        let crates = Crates::read(&fs::read_to_string(top.join("crates.txt"))?);
        Ok(Run { top, room, logs, crates, prover: Prover::new(), folders, tally: Mutex::default() })
    }

    /// Tries all edits of these crates, or of all crates: first those that change their own crate alone, all in one copy, in which every one of the crates
    /// must be proved as it stands; and then, as many at a time as there are hands, those that change crates below it, each in a copy of its own.
    pub fn go(&self, named: &[String], hands: usize) -> io::Result<Tally> {
        let (mut own, mut others) = (Vec::new(), Vec::new());
        for name in self.with_edits(named)? {
            for path in self.edits(&name) {
                match self.read(&name, &path) {
                    Ok(edit) if edit::changed(&edit.changes).iter().all(|of| *of == name) => own.push(edit),
                    Ok(edit) => others.push(edit),
                    Err(why) => self.tell(&name, &label(&path), Err(format!("bad edit: {why}"))),
                }
            }
        }
        let (proved, again) = self.try_own(&own, others.iter().map(|edit| &edit.of))?;
        others.extend(own.into_iter().filter(|edit| again.contains(&edit.name())));
        others.retain(|edit| proved.contains(&edit.of) || self.not_tried(edit));
        others.reverse();
        let left = Mutex::new(others);
        let next = || left.lock().unwrap().pop();
        std::thread::scope(|scope| {
            for _ in 0..hands {
                scope.spawn(|| {
                    while let Some(edit) = next() {
                        self.tell(&edit.of, &edit.label, self.tried(&edit));
                    }
                });
            }
        });
        Ok(std::mem::take(&mut self.tally.lock().unwrap()))
    }

    /// Judges what `rt ci` has tried itself, by its log: only what is refused for no fact is told and counted, since `rt` has counted the others.
    pub fn judge(&self, log: &Path) -> io::Result<()> {
        for line in fs::read_to_string(log)?.lines() {
            if let Some((edit, said)) = line.strip_prefix("rt: must-fail ").and_then(|line| line.split_once(".edit: ")) {
                let (name, label) = edit.split_once('/').unwrap_or((edit, ""));
                if let Verdict::Unfit(why) = verdict::of_edit(said) {
                    self.tell(name, label, judged(Verdict::Unfit(why)));
                }
            }
        }
        Ok(())
    }

    fn with_edits(&self, named: &[String]) -> io::Result<Vec<String>> {
        let all = self.crates.names();
        if let Some(stranger) = named.iter().find(|name| !all.contains(name)) {
            return Err(lost(format!("crates.txt lists no crate '{stranger}'")));
        }
        let wanted = if named.is_empty() { self.with_folders(&all)? } else { named.to_vec() };
        let found: Vec<String> = wanted.into_iter().filter(|name| !self.edits(name).is_empty()).collect();
        if let Some((name, label)) = found.iter().find_map(|name| Some((name, self.said_twice(name)?))) {
            return Err(lost(format!("two wrong programs of {name} are called {label}")));
        }
        if found.is_empty() && named.is_empty() {
            return Err(lost(format!("no crate has wrong programs in {}", self.folders.join(", "))));
        }
        Ok(found)
    }

    /// The crates that have one of the folders; each is listed, and every file in such a folder is an edit.
    fn with_folders(&self, listed: &[String]) -> io::Result<Vec<String>> {
        let mut found = Vec::new();
        for entry in fs::read_dir(self.top.join("crates"))? {
            let name = entry?.file_name().to_string_lossy().to_string();
            let folders: Vec<PathBuf> =
                self.folders.iter().map(|folder| self.crate_folder(&name).join(folder)).filter(|f| f.exists()).collect();
            if folders.is_empty() {
                continue;
            }
            if !listed.contains(&name) {
                return Err(lost(format!("crates.txt lists no crate '{name}', which has wrong programs")));
            }
            for folder in folders {
                for file in fs::read_dir(folder)? {
                    let path = file?.path();
                    if path.extension().map_or(true, |end| end != "edit") {
                        return Err(lost(format!("{} is no .edit", path.display())));
                    }
                }
            }
            found.push(name);
        }
        found.sort();
        Ok(found)
    }

    fn crate_folder(&self, name: &str) -> PathBuf {
        self.top.join("crates").join(name)
    }

    /// The files of a crate's edits.
    fn edits(&self, name: &str) -> Vec<PathBuf> {
        let folders = self.folders.iter().map(|folder| self.crate_folder(name).join(folder));
        let files = folders.flat_map(|folder| fs::read_dir(folder).into_iter().flatten().flatten());
        let mut found: Vec<PathBuf> =
            files.map(|file| file.path()).filter(|path| path.extension().map_or(false, |end| end == "edit")).collect();
        found.sort();
        found
    }

    /// A label that stands in two of the folders.
    fn said_twice(&self, name: &str) -> Option<String> {
        let mut labels: Vec<String> = self.edits(name).iter().map(|path| label(path)).collect();
        labels.sort();
        labels.windows(2).find(|two| two[0] == two[1]).map(|two| two[0].clone())
    }

    /// An edit whose changes can be made: of its own crate, and of crates below it.
    fn read(&self, name: &str, path: &Path) -> Result<Edit, String> {
        let text = fs::read_to_string(path).map_err(|why| why.to_string())?;
        let changes = edit::read(&text, name)?;
        for of in edit::changed(&changes) {
            if of != name && !(self.crate_folder(&of).is_dir() && self.crates.below(name).any(|library| *library == of)) {
                return Err(format!("{name} stands on no crate '{of}' of this repository"));
            }
            edit::apply(&changes, &of, &self.crate_folder(&of))?;
        }
        Ok(Edit { of: name.to_string(), label: label(path), text, changes })
    }

    /// Tries edits that change their own crate alone: `rt ci` takes them for must-fail edits. Which of these crates and of those further named it proves as
    /// they stand, and which edits are to be tried again, each in a copy of its own, since `rt` does not say what it refused.
    fn try_own<'a>(
        &self,
        edits: &'a [Edit],
        named: impl Iterator<Item = &'a String>,
    ) -> io::Result<(BTreeSet<String>, BTreeSet<String>)> {
        let copy = self.room.join("own");
        let crates: BTreeSet<&String> = edits.iter().map(|edit| &edit.of).chain(named).collect();
        if crates.is_empty() {
            return Ok((BTreeSet::new(), BTreeSet::new()));
        }
        println!("wrong: {} wrong programs that change their own crate", edits.len());
        folder::repository(&self.top, &copy, &self.crates, &self.crates.with_below(crates.iter().copied()))?;
        for edit in edits {
            let folder = copy.join("crates").join(&edit.of).join("must-fail");
            fs::create_dir_all(&folder)?;
            fs::write(folder.join(format!("{}.edit", edit.label)), &edit.text)?;
        }
        let log = self.logs.join("rt-ci.log");
        self.prover.ci(&copy, &log, true)?;
        fs::remove_dir_all(&copy)?;
        let said = String::from_utf8_lossy(&fs::read(log)?).to_string();
        let mut again = BTreeSet::new();
        for edit in edits {
            let told = format!("rt: must-fail {}.edit: ", edit.name());
            match said.lines().find_map(|line| line.strip_prefix(&told)) {
                Some(how) if verdict::cites_what_was_refused(how) => drop(again.insert(edit.name())),
                Some(how) => self.tell(&edit.of, &edit.label, judged(verdict::of_edit(how))),
                None => drop(self.not_tried(edit)),
            }
        }
        Ok((crates.into_iter().filter(|name| is_proved(&said, name)).cloned().collect(), again))
    }

    /// Counts an edit of a crate that is not proved as it stands. Answers false.
    fn not_tried(&self, edit: &Edit) -> bool {
        self.tell(
            &edit.of,
            &edit.label,
            Err(format!("not tried: {} is not proved as it stands (target/wrong-programs/rt-ci.log)", edit.of)),
        );
        false
    }

    /// Tries an edit in a copy of its own: all below its crate must be proved with it, also what it changes there, and its crate alone be refused.
    fn tried(&self, edit: &Edit) -> Result<String, String> {
        let copy = self.room.join(&edit.of).join(&edit.label);
        let said = self.said(edit, &copy).map_err(|why| why.to_string());
        let _ = fs::remove_dir_all(&copy);
        let said = said?;
        for library in self.crates.below(&edit.of) {
            if self.crate_folder(library).is_dir() && !is_proved(&said, library) {
                return Err(format!("bad edit: {library}, below {}, is not proved with it", edit.of));
            }
        }
        if is_proved(&said, &edit.of) {
            return judged(Verdict::Survived);
        }
        judged(verdict::of_check(section(&said, &edit.of)))
    }

    /// What `rt ci` says of a copy with an edit.
    fn said(&self, edit: &Edit, copy: &Path) -> io::Result<String> {
        folder::repository(&self.top, copy, &self.crates, &self.crates.with_below([&edit.of].into_iter()))?;
        for of in edit::changed(&edit.changes) {
            let tree = copy.join("crates").join(&of);
            for (file, text) in edit::apply(&edit.changes, &of, &tree).map_err(lost)? {
                fs::write(tree.join(file), text)?;
            }
            self.prover.lay_out(&tree)?;
        }
        let log = self.logs.join(&edit.of).join(format!("{}.log", edit.label));
        fs::create_dir_all(self.logs.join(&edit.of))?;
        self.prover.ci(copy, &log, false)?;
        Ok(String::from_utf8_lossy(&fs::read(log)?).to_string())
    }

    /// Counts, and prints one line.
    fn tell(&self, name: &str, label: &str, how: Result<String, String>) {
        let mut tally = self.tally.lock().unwrap();
        match how {
            Ok(place) => {
                tally.passed += 1;
                println!("wrong {name}/{label}: refused, at {place}");
            }
            Err(words) => {
                tally.failed += 1;
                println!("wrong {name}/{label}: FAILED: {}", words.chars().take(300).collect::<String>());
            }
        }
    }
}

fn label(path: &Path) -> String {
    path.file_stem().map_or_else(String::new, |stem| stem.to_string_lossy().to_string())
}

/// Whether a log of `rt ci` says that a crate is proved, now or before.
fn is_proved(said: &str, name: &str) -> bool {
    said.lines().any(|line| line == format!("rt: {name} proved") || line.starts_with(&format!("rt: {name} is kept: ")))
}

/// What a log of `rt ci` says of a crate's check.
fn section<'a>(said: &'a str, name: &str) -> &'a str {
    let head = format!("== {name}\n");
    let from = if said.starts_with(&head) { 0 } else { said.find(&format!("\n{head}")).map_or(said.len(), |at| at + 1) };
    let text = said.get(from + head.len()..).unwrap_or("");
    &text[..text.find(&format!("\nrt: {name} ")).map_or(text.len(), |at| at + 1)]
}

/// The place of a refusal at a fact, or why a verdict is none.
fn judged(verdict: Verdict) -> Result<String, String> {
    match verdict {
        Verdict::Refused(place) => Ok(place),
        Verdict::Survived => Err("not refused: the crate is still proved with this edit".to_string()),
        Verdict::Unfit(why) => Err(format!("refused for no fact: {why}")),
        Verdict::Unreached(why) => Err(format!("it does not reach the prover: {why}")),
    }
}

#[cfg(test)]
mod tests {
    use super::*;

    #[test]
    fn a_crate_is_proved_now_or_before() {
        let said = "rt: a is kept: an earlier run proved it\n== b\nrt: b proved\nrt: c NOT PROVED\nrt: e: its tests are proved\n";
        assert_eq!(["a", "b", "c", "d", "e"].map(|name| is_proved(said, name)), [true, true, false, false, false]);
    }

    #[test]
    fn a_section_ends_where_rt_tells_how_it_ended() {
        let said =
            "== a\none\nrt: more\nlogic=proved\nrt: a proved\n== b\ntwo\nlogic=not-proved\nrt: b NOT PROVED\nrt: FAILED: b\n";
        assert_eq!(section(said, "a"), "one\nrt: more\nlogic=proved\n");
        assert_eq!(section(said, "b"), "two\nlogic=not-proved\n");
        assert_eq!(section(said, "c"), "");
    }
}
