//! The texts that may cite a rule, with their lines joined: a comment may break anywhere.

use std::fs;
use std::io;
use std::path::{Path, PathBuf};

pub struct Text {
    pub file: String,
    pub words: String,
    /// Of crates/*/specs, where only the comments are kept.
    pub is_definition: bool,
}

/// Not looked at: what is made, also in each crate's folder, this program and its tests, which cite rules that are none.
const LEFT_OUT: [&str; 4] = ["./target", "./.git", "./tools/cited-rules", "./tools/own-tests"];

fn is_left_out(path: &Path) -> bool {
    let is_made = path.file_name().map_or(false, |name| name == "out") && path.parent().and_then(Path::parent) == Some(Path::new("./crates"));
    is_made || LEFT_OUT.iter().any(|out| path == Path::new(out))
}

/// Every file of the repository that is text.
pub fn all() -> io::Result<Vec<Text>> {
    let mut files = Vec::new();
    below(Path::new("."), &mut files)?;
    files.sort();
    let texts = files.iter().map(|file| text(file)).collect::<io::Result<Vec<_>>>()?;
    Ok(texts.into_iter().flatten().collect())
}

fn below(folder: &Path, files: &mut Vec<PathBuf>) -> io::Result<()> {
    for entry in fs::read_dir(folder)? {
        let path = entry?.path();
        if is_left_out(&path) {
            continue;
        }
        if path.is_dir() {
            below(&path, files)?;
        } else {
            files.push(path);
        }
    }
    Ok(())
}

/// Nothing, where the file's bytes are no text.
fn text(file: &Path) -> io::Result<Option<Text>> {
    let file = file.strip_prefix(".").unwrap_or(file);
    let is_definition = file.components().any(|part| part.as_os_str() == "specs");
    let read = match String::from_utf8(fs::read(file)?) {
        Ok(read) => read,
        Err(_) => return Ok(None),
    };
    let words = if is_definition { comments(&read) } else { joined(&read) };
    Ok(Some(Text { file: file.display().to_string(), words, is_definition }))
}

/// A line without what marks it as a comment or a row.
fn said(line: &str) -> &str {
    let line = line.trim();
    ["-- ", "/// ", "//! ", "// ", "/* ", "* ", "# "].iter().find_map(|mark| line.strip_prefix(mark)).unwrap_or(line)
}

fn joined(text: &str) -> String {
    text.lines().map(said).collect::<Vec<_>>().join(" ")
}

/// The comments alone, also those behind code. A line of code parts them, as the end of a sentence does.
fn comments(text: &str) -> String {
    let comment = |line: &'_ str| match line.trim_start().starts_with("--") {
        true => said(line).to_string(),
        false => line.split_once(" -- ").map_or("\n".to_string(), |(_, comment)| format!("\n {comment} \n")),
    };
    text.lines().map(comment).collect::<Vec<_>>().join(" ")
}

#[cfg(test)]
mod tests {
    use super::*;

    #[test]
    fn what_is_made_is_left_out() {
        let left = ["./target", "./crates/bus/out"].map(|path| is_left_out(Path::new(path)));
        let kept = ["./crates/out", "./crates/bus/src", "./docs/out"].map(|path| is_left_out(Path::new(path)));
        assert_eq!((left, kept), ([true; 2], [false; 3]));
    }

    #[test]
    fn the_lines_of_a_comment_are_one_text() {
        assert_eq!(comments("-- Bus 1: \"a\n-- bank\"\nbank = 1\n  -- more"), "Bus 1: \"a bank\" \n more");
        assert_eq!(comments("bank = 1 -- Bus 2"), "\n Bus 2 \n");
        assert_eq!(joined("/* Bus\n * 1: */"), "Bus 1: */");
    }
}
