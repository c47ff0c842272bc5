//! A copy of some crates: a repository of its own, in which `rt ci` runs.

use crate::crates::Crates;
use std::collections::BTreeSet;
use std::fs;
use std::io;
use std::path::Path;

/// Copies src/, specs/ and proofs/ of these crates of the repository at `top` to `to`, with the lines that list them, and without their edits.
pub fn repository(top: &Path, to: &Path, crates: &Crates, wanted: &BTreeSet<String>) -> io::Result<()> {
    for name in wanted {
        for part in ["src", "specs", "proofs"] {
            copied(&top.join("crates").join(name).join(part), &to.join("crates").join(name).join(part))?;
        }
    }
    // `rt` takes the folder for the top of a repository.
    fs::create_dir_all(to.join(".git"))?;
    fs::write(to.join("crates.txt"), crates.listed(wanted))?;
    if top.join("HANDLES").is_file() {
        fs::copy(top.join("HANDLES"), to.join("HANDLES"))?;
    }
    Ok(())
}

/// Copies a folder and what is in it; of one that is not there nothing.
fn copied(from: &Path, to: &Path) -> io::Result<()> {
    if !from.is_dir() {
        return Ok(());
    }
    fs::create_dir_all(to)?;
    for entry in fs::read_dir(from)? {
        let entry = entry?;
        let (source, target) = (entry.path(), to.join(entry.file_name()));
        if entry.file_type()?.is_dir() {
            copied(&source, &target)?;
        } else {
            fs::copy(&source, &target)?;
        }
    }
    Ok(())
}
