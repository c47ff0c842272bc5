//! What the prover's answer to a wrong program is worth. It counts where a fact is refused: one that a function's contract or a law states.
//! Where a definition no longer makes sense, or a proof names a step that the wrong program does not have, nothing is shown.

#[derive(Debug, PartialEq)]
pub enum Verdict {
    /// Refused at a fact, at this place.
    Refused(String),
    /// Refused, and for no fact: why.
    Unfit(String),
    /// Proved all the same.
    Survived,
    /// No answer of the prover's: what was said.
    Unreached(String),
}

/// The verdict that `rt` tells on a must-fail edit, behind its name.
pub fn of_edit(said: &str) -> Verdict {
    if said.starts_with("NOT REFUSED") {
        return Verdict::Survived;
    }
    if let Some(why) = said.strip_prefix("BAD EDIT: ") {
        return Verdict::Unreached(why.to_string());
    }
    match said.strip_prefix("refused, as it must be") {
        Some(first) if first.starts_with(": ") => of_refusals(first.trim_start_matches(": ")),
        // By a limit, or only because a proof names what is gone.
        Some(why) if !why.is_empty() => Verdict::Unfit(why.trim().to_string()),
        Some(_) => Verdict::Unfit("the prover names no place".to_string()),
        None => Verdict::Unreached(said.to_string()),
    }
}

/// Whether `rt` took an edit for bad by a line that names no declaration: that others of the same file cite what was refused. What was refused, and
/// whether at a fact, the check alone says.
pub fn cites_what_was_refused(said: &str) -> bool {
    said.starts_with("BAD EDIT: ") && said.contains(" that depend") && said.contains(", which was rejected")
}

/// The verdict on a crate that `rt ci` does not prove, by what it says of that.
pub fn of_check(said: &str) -> Verdict {
    if said.lines().any(|line| line.starts_with("logic=not-proved")) {
        return of_refusals(said);
    }
    Verdict::Unreached(said.lines().next().unwrap_or("nothing was said").to_string())
}

/// The first refusal that is not only for a name decides.
fn of_refusals(said: &str) -> Verdict {
    let found = refusals(said);
    match found.iter().find(|refusal| !refusal.names_nothing()).or(found.first()) {
        None => Verdict::Unfit("the prover names no place".to_string()),
        Some(first) if first.is_fact() => Verdict::Refused(first.place.clone()),
        Some(first) => Verdict::Unfit(format!("{}: {}", first.place, first.words)),
    }
}

/// A refusal as the prover prints it: of a proof in a file an error, of one that it looked for itself a note.
struct Refusal {
    place: String,
    words: String,
}

/// All refusals, in their order. A line that begins with two spaces goes on with the one before it; what follows is advice, and passed over.
fn refusals(said: &str) -> Vec<Refusal> {
    let mut found: Vec<Refusal> = Vec::new();
    let mut inside = false;
    for line in said.lines() {
        if let (true, Some(more), Some(last)) = (inside, line.strip_prefix("  "), found.last_mut()) {
            last.words = format!("{} {}", last.words, more.trim());
            inside = false;
            continue;
        }
        let begun = line.split_once(": error: ").or_else(|| {
            let (place, words) = line.strip_prefix("note: ")?.split_once(": ")?;
            words.starts_with("it is not proved that").then(|| (place, words))
        });
        inside = begun.is_some();
        if let Some((place, words)) = begun {
            found.push(Refusal { place: place.trim_start_matches("./").to_string(), words: words.to_string() });
        }
    }
    found
}

/// What the prover says of a text that names a thing that is not there, takes one for what it is not, or cites what was refused.
const NAMES_NOTHING: [&str; 7] = [
    "has no field",
    "is not in scope",
    "has no `",
    "was not admitted",
    "has too few arguments",
    "too many arguments",
    "no module is found",
];

impl Refusal {
    fn names_nothing(&self) -> bool {
        self.place.starts_with("proofs/") && NAMES_NOTHING.iter().any(|words| self.words.contains(words))
    }

    /// A fact is refused by the prover's own search, or in a file of proofs: there not at the declaration that puts a function's goals together,
    /// which is refused where there are others than the file answers.
    fn is_fact(&self) -> bool {
        if self.words.starts_with("it is not proved that") {
            return true;
        }
        let declared = self.words.strip_prefix('`').and_then(|words| words.split('`').next()).unwrap_or("");
        let together = self.place.contains("/Proof.antt:") && declared.ends_with("-spec");
        self.place.starts_with("proofs/") && !together && !self.names_nothing()
    }
}

#[cfg(test)]
mod tests {
    use super::*;

    fn checked(errors: &str) -> Verdict {
        of_check(&format!("{errors}\nfn a::b: not proved\nlogic=not-proved\n"))
    }

    fn refused(place: &str) -> Verdict {
        Verdict::Refused(place.to_string())
    }

    #[test]
    fn an_edit_may_be_taken_for_bad_by_what_cites_it() {
        assert!(cites_what_was_refused("BAD EDIT: the prover cannot read the edited text: ./proofs/A.antt:5:1: error: 1 declaration that depends on `a`, which was rejected, was not checked"));
        assert!(!cites_what_was_refused("BAD EDIT: an 'old:' text is in src/lib.rt 0 times"));
        assert!(!cites_what_was_refused(
            "refused, as it must be: ./proofs/A.antt:5:1: error: `b`: 2 declarations that depend on `a`, which was rejected"
        ));
    }

    #[test]
    fn a_fact_is_an_error_in_a_proof() {
        for place in ["proofs/f/Proof.antt:5:1", "proofs/f/Answers.antt:5:1", "proofs/Laws.antt:5:1"] {
            let error = format!("./{place}: error: `returns`: the two types differ");
            assert_eq!(checked(&error), refused(place));
            assert_eq!(of_edit(&format!("refused, as it must be: {error}")), refused(place));
        }
    }

    #[test]
    fn advice_is_passed_over() {
        let advice = "  and the other has `1`\n  `u` is not in scope here: name it\n  `a` has no field `b`";
        let error = "./proofs/Laws.antt:5:1: error: `low_bank`: the two types differ where one has `0`";
        assert_eq!(checked(&format!("{error}\n{advice}")), refused("proofs/Laws.antt:5:1"));
    }

    #[test]
    fn a_fact_is_what_no_search_proves() {
        let note = "note: src/lib.rt:3:1: it is not proved that what the function ensures holds when it returns (`returns`)";
        assert_eq!(checked(note), refused("src/lib.rt:3:1"));
        assert_eq!(of_edit(&format!("refused, as it must be: {note}")), refused("src/lib.rt:3:1"));
        let follows =
            "./proofs/f/Proof.antt:9:1: error: `f-spec`: `close` was not admitted (it has holes or undetermined implicits, \
                       or was rejected), so this cannot be checked";
        assert_eq!(checked(&format!("{follows}\n{note}")), refused("src/lib.rt:3:1"));
    }

    #[test]
    fn what_makes_no_sense_is_no_fact() {
        for error in [
            "./specs/Banks.antt:5:1: error: `bankX`: the two types differ",
            "./src/lib.rt:5:1: error: `Post`: the two types differ",
            "./proofs/f/Proof.antt:5:1: error: `add-result`: module `Tie` has no `Need-add-result` that can be named from here",
            "./proofs/f/Answers.antt:5:1: error: `returns`: record `Lts.After-struct-known`\n  has no field `args`",
            "./proofs/f/Proof.antt:9:1: error: `f-spec`: the two types differ",
            "",
        ] {
            assert!(matches!(checked(error), Verdict::Unfit(_)), "{error}");
            assert!(
                matches!(of_edit(&format!("refused, as it must be: {}", error.replace('\n', ""))), Verdict::Unfit(_)),
                "{error}"
            );
        }
    }

    #[test]
    fn a_refusal_that_shows_little_is_no_fact() {
        for why in [
            " (only because a proof file names what the edit took away, so this says little): ./proofs/f/Answers.antt:5:1: x",
            "",
            " (only by a limit): x",
        ] {
            assert!(matches!(of_edit(&format!("refused, as it must be{why}")), Verdict::Unfit(_)), "{why}");
        }
    }

    #[test]
    fn without_a_verdict_of_the_prover_nothing_is_refused() {
        assert_eq!(of_edit("NOT REFUSED: the crate is still proved with this edit"), Verdict::Survived);
        assert_eq!(
            of_edit("BAD EDIT: it did not reach the prover"),
            Verdict::Unreached("it did not reach the prover".to_string())
        );
        assert!(matches!(of_edit("NOT TRIED: its check was killed"), Verdict::Unreached(_)));
        let fact = "./proofs/f/Proof.antt:5:1: error: `returns`: the two types differ";
        assert!(matches!(of_check(fact), Verdict::Unreached(_)));
    }
}
