//! Made parts of files that are else written by hand. A part stands between two lines that hold
//! `made from SOURCE by make lists: begin NAME` and the same with `end`, in the file's own kind of comment. A file's only part has no name.

use std::ops::Range;

/// Lines before a part's marks, and behind them.
pub type Around = [&'static [&'static str]; 2];

pub struct Part {
    pub file: &'static str,
    /// What it is made from.
    pub source: &'static str,
    pub name: &'static str,
    pub lines: Vec<String>,
    /// The lines by hand directly before its marks and behind them, down to the braces that it stands in, so that nothing else stands in these.
    pub around: Around,
}

impl Part {
    /// Which lines of its file stand between its marks.
    fn place(&self, text: &str) -> Result<Range<usize>, String> {
        let marked = |word: &str| -> Result<usize, String> {
            let places: Vec<usize> =
                text.lines().enumerate().filter(|(_, line)| self.is_mark(line, word)).map(|(at, _)| at).collect();
            match places.as_slice() {
                [place] => Ok(*place),
                found => {
                    Err(format!("{}: {} lines have the mark '{}', where one should", self.file, found.len(), self.mark(word)))
                }
            }
        };
        let (begin, end) = (marked("begin")?, marked("end")?);
        if end < begin {
            return Err(format!("{}: '{}' stands before its begin", self.file, self.mark("end")));
        }
        self.held_around(text, begin, end)?;
        Ok(begin + 1..end)
    }

    /// A side without a brace is not held: code that compiles has one there.
    fn held_around(&self, text: &str, begin: usize, end: usize) -> Result<(), String> {
        let lines: Vec<&str> = text.lines().collect();
        let [before, behind] = self.around;
        let is_there = |lines: &[&str], brace: char| lines.iter().any(|line| line.contains(brace));
        let above: Vec<&str> = lines[..begin].iter().copied().filter(|line| !line.trim().is_empty()).collect();
        let below: Vec<&str> = lines[end + 1..].iter().copied().filter(|line| !line.trim().is_empty()).collect();
        if is_there(&above, '{') && !above.ends_with(before) {
            return Err(format!("{}: directly before '{}' should stand '{}'", self.file, self.mark("begin"), joined(before)));
        }
        if is_there(&below, '}') && !below.starts_with(behind) {
            return Err(format!("{}: directly behind '{}' should stand '{}'", self.file, self.mark("end"), joined(behind)));
        }
        Ok(())
    }

    fn mark(&self, word: &str) -> String {
        format!("made from {} by make lists: {word} {}", self.source, self.name).trim_end().to_string()
    }

    /// Whether a line has the mark, with nothing but signs of a comment behind it.
    fn is_mark(&self, line: &str, word: &str) -> bool {
        let mark = self.mark(word);
        line.find(&mark).map_or(false, |at| !line[at + mark.len()..].contains(char::is_alphanumeric))
    }

    /// The file's text with this part as it should be.
    pub fn put(&self, text: &str) -> Result<String, String> {
        let place = self.place(text)?;
        let mut lines: Vec<&str> = text.lines().collect();
        lines.splice(place, self.lines.iter().map(String::as_str));
        Ok(lines.join("\n") + "\n")
    }

    /// The first line of the file that this part would change.
    pub fn first_other(&self, text: &str) -> Result<Option<usize>, String> {
        let place = self.place(text)?;
        let found: Vec<&str> = text.lines().skip(place.start).take(place.len()).collect();
        let same = found.iter().zip(&self.lines).take_while(|(found, made)| *found == made).count();
        Ok((found != self.lines).then(|| place.start + same + 1))
    }
}

fn joined(lines: &[&str]) -> String {
    lines.iter().map(|line| line.trim()).collect::<Vec<_>>().join(" ")
}

#[cfg(test)]
mod tests {
    use super::*;

    const TEXT: &str =
        "by hand\n/* made from a.txt by make lists: begin one */\nold\n/* made from a.txt by make lists: end one */\n\
                        // made from a.txt by make lists: begin\n// made from a.txt by make lists: end\n";

    fn part(name: &'static str) -> Part {
        Part { file: "f.h", source: "a.txt", name, lines: vec!["x".to_string(), "y".to_string()], around: [&[], &[]] }
    }

    #[test]
    fn a_part_is_put_between_its_marks() {
        assert_eq!(part("one").put(TEXT).unwrap(), TEXT.replace("old", "x\ny"));
        let put = part("").put(TEXT).unwrap();
        assert_eq!(put, TEXT.replace("begin\n", "begin\nx\ny\n"));
        assert_eq!(part("").put(&put).unwrap(), put);
    }

    #[test]
    fn a_stale_part_is_found() {
        assert_eq!(part("one").first_other(TEXT), Ok(Some(3)));
        assert_eq!(part("").first_other(TEXT), Ok(Some(6)));
        assert_eq!(part("one").first_other(&TEXT.replace("old", "x\ny")), Ok(None));
        assert_eq!(part("one").first_other(&TEXT.replace("old", "x\ny\nz")), Ok(Some(5)));
        assert_eq!(part("one").first_other(&TEXT.replace("old", "x\nz")), Ok(Some(4)));
    }

    #[test]
    fn marks_stand_once_and_in_their_order() {
        let why = "f.h: 0 lines have the mark 'made from a.txt by make lists: begin two', where one should";
        assert_eq!(part("two").put(TEXT), Err(why.to_string()));
        assert!(part("one").put(&(TEXT.to_string() + TEXT)).unwrap_err().starts_with("f.h: 2 lines"));
        let swapped = TEXT.replace("begin one", "x").replace("end one", "begin one").replace(": x", ": end one");
        assert!(part("one").put(&swapped).unwrap_err().ends_with("stands before its begin"));
    }

    #[test]
    fn nothing_else_stands_in_its_braces() {
        let text = "{\n}\nenum a {\n    // made from a.txt by make lists: begin\nx\ny\n    // made from a.txt by make lists: end\n\n};\n";
        let part = Part { around: [&["enum a {"], &["};"]], ..part("") };
        assert_eq!(part.first_other(text), Ok(None));
        let behind = Err("f.h: directly behind 'made from a.txt by make lists: end' should stand '};'".to_string());
        for other in ["    OTHER = 99,\n};", "/* } */ OTHER = 99,\n};", "OTHER = 99 };"] {
            assert_eq!(part.first_other(&text.replace("};", other)), behind, "{other}");
        }
        let before = Err("f.h: directly before 'made from a.txt by make lists: begin' should stand 'enum a {'".to_string());
        for other in ["enum a {\n    OTHER = 99,", "enum a { OTHER = 99, // {"] {
            assert_eq!(part.put(&text.replace("enum a {", other)), before, "{other}");
        }
    }
}
