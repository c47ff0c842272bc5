//! What a module of proofs states of contracts: that any two answers, or what any two calls leave, coincide.

use crate::source::What;
use std::collections::BTreeMap;

/// A function, by the module that tells of its contract, and what of it is determined.
pub type Stated = (String, What);

/// The statements of a text. One counts only where its declaration says it whole, in one of the forms of `specs/Determined.antt`.
pub fn stated(text: &str) -> Vec<Stated> {
    let names = named(text);
    let module = |(name, what): (&str, What)| names.get(name).map(|module| (module.clone(), what));
    declared(text).iter().filter_map(|said| meant(said).and_then(module)).collect()
}

/// The modules of contracts that a text gives a name: `use Rattle.CRATE.proofs.FUNCTION.Reads as NAME`.
fn named(text: &str) -> BTreeMap<&str, String> {
    let uses = text.lines().filter_map(|line| line.strip_prefix("use ")?.split_once(" as "));
    uses.filter(|(module, _)| module.starts_with("Rattle.") && module.contains(".proofs."))
        .map(|(module, name)| (name, module.strip_suffix(".Reads").unwrap_or(module).to_string()))
        .collect()
}

/// What each declaration of a text states: the words behind `NAME :`, and those of the lines that go on with it.
fn declared(text: &str) -> Vec<String> {
    let mut found: Vec<String> = Vec::new();
    let mut inside = false;
    for line in text.lines().filter(|line| !line.trim_start().starts_with("--")) {
        if line.starts_with(' ') {
            if let (true, Some(last)) = (inside, found.last_mut()) {
                *last = format!("{last} {}", line.trim());
            }
            continue;
        }
        let begun = line.strip_prefix("pub ").unwrap_or(line).split_once(" : ").filter(|(name, _)| !name.contains(' '));
        inside = begun.is_some();
        found.extend(begun.map(|(_, words)| words.trim().to_string()));
    }
    found
}

/// The contract's name, and what a declaration says of it. A generic function's is said at every type and whatever its bounds bring.
fn meant(said: &str) -> Option<(&str, What)> {
    let (brought, said) = said.split_once(" → ").map_or(Some((Vec::new(), said)), |(binders, said)| Some((bound(binders)?, said)))?;
    let (form, said) = said.split_once(' ')?;
    let (name, shown) = if brought.is_empty() {
        said.split_once(".Learnt")?
    } else {
        said.strip_prefix('(')?.split_once(&format!(".Learnt {})", brought.join(" ")))?
    };
    match (form, shown) {
        ("Answers", "") | ("Shows", " (λ k r. r.now)") => Some((name, What::Answer)),
        ("Leaves", _) => {
            let path = shown.strip_prefix(" (λ k s. s")?.strip_suffix(".0.now)")?;
            path.split('.').skip(1).all(|step| step == "1").then(|| (name, What::Left(path.matches(".1").count())))
        }
        _ => None,
    }
}

/// The names that `(T : RattleType) (L : Laws T) ..` binds: a type, and what a bound brings of it. Anything else would be a premise.
fn bound(binders: &str) -> Option<Vec<&str>> {
    let of_bound = |binder: &'_ str| {
        let kind = binder.split_once(" : ")?.1.split(' ').next()?.rsplit('.').next()?;
        ["RattleType", "Laws", "IsCopy", "Ghosts", "Dict"].contains(&kind).then_some(())
    };
    let binders = binders.strip_prefix('(')?.strip_suffix(')')?.split(") (");
    binders.map(|binder| of_bound(binder).and(binder.split_once(" : ")).map(|(name, _)| name)).collect()
}

#[cfg(test)]
mod tests {
    use super::*;

    fn said(declaration: &str) -> Vec<Stated> {
        let uses = "use Rattle.bus.proofs.write.Reads as bus_write\nuse Rattle.trace.proofs.Reader.new.Reads as reader_new\nuse Rattle.bus.specs.Bus as bus";
        stated(&format!("{uses}\n\n{declaration}\nfact k a x y s t p q = coincide p q\n"))
    }

    fn of_write(what: What) -> Vec<Stated> {
        vec![("Rattle.bus.proofs.write".to_string(), what)]
    }

    #[test]
    fn a_statement_is_of_an_answer_or_of_what_is_left() {
        assert_eq!(said("pub fact : Answers bus_write.Learnt"), of_write(What::Answer));
        assert_eq!(said("pub fact : Shows bus_write.Learnt (λ k r. r.now)"), of_write(What::Answer));
        assert_eq!(said("pub fact : Leaves bus_write.Learnt (λ k s. s.0.now)"), of_write(What::Left(0)));
        assert_eq!(said("pub fact : Leaves bus_write.Learnt\n    (λ k s. s.1.1.0.now)"), of_write(What::Left(2)));
        assert_eq!(said("pub fact : Answers reader_new.Learnt"), [("Rattle.trace.proofs.Reader.new".to_string(), What::Answer)]);
    }

    #[test]
    fn a_generic_function_is_stated_at_every_type() {
        let binders = "(T : RattleType) (L : Laws T) (C : IsCopy T) (F : kept.Ghosts T.Denot) (d : Dict)";
        assert_eq!(said(&format!("pub fact : {binders} → Answers (bus_write.Learnt T L C F d)")), of_write(What::Answer));
        assert_eq!(said(&format!("pub fact : {binders}\n    → Leaves (bus_write.Learnt T L C F d) (λ k s. s.1.0.now)")), of_write(What::Left(1)));
        for declaration in [
            "pub fact : (T : RattleType) (L : Laws T) → Answers (bus_write.Learnt L T)",
            "pub fact : (T : RattleType) (L : Laws T) → Answers bus_write.Learnt",
            "pub fact : (T : RattleType) (e : ⊥) → Answers (bus_write.Learnt T e)",
            "pub fact : (T : RattleType) (F : Ghosts T.Denot) → ((m n : T.Denot) → m ≡ n) → Answers (bus_write.Learnt T F)",
            "pub fact : (T : RattleType) → Leaves (bus_write.Learnt T) (λ k s. 0)",
        ] {
            assert!(said(declaration).is_empty(), "{declaration}");
        }
    }

    #[test]
    fn what_says_less_is_no_statement() {
        for declaration in [
            "-- pub fact : Answers bus_write.Learnt",
            "pub fact : Answers other.Learnt",
            "pub fact : Answers bus_write.Learnt → Answers bus_write.Learnt",
            "pub fact : (d : Answers bus_write.Learnt) → Answers bus_write.Learnt",
            "pub fact : Shows bus_write.Learnt (λ k r. 0)",
            "pub fact : Leaves bus_write.Learnt (λ k s. 0)",
            "pub fact : Leaves bus_write.Learnt (λ k s. length s.0.now)",
            "pub fact : Leaves bus_write.Learnt (λ k s. s.0.0.now)",
            "pub fact : {M : Type 1} (𝓤 : Ura M) → Determined 𝓤 reader_new.ended (reader_new.clauses {𝓤 = 𝓤})",
            "pub fact : Says bus_write.Learnt (λ k a. bus.write_of a.0)",
        ] {
            assert!(said(declaration).is_empty(), "{declaration}");
        }
    }
}
