//! usage: public-contracts check | write     at the repository's root
//!
//! Promise 1: "The contract of a public function covers every input and every refusal"; Promise 2: "Any two answers that a function's
//! contract allows coincide, which is proved; an exception is listed in docs/, with its reason."
//!
//! check    fails where an answer, or a parameter lent as `&mut`, of a public function of any crate in crates.txt has no statement in the
//!          proofs of `determined` and the function is not listed in docs/DECISIONS.md under "What promises nothing", with a reason; where
//!          that list names what is stated or is not there; where proofs/Contracts.antt is not what `write` prints; and where a function of a
//!          static library, of which nothing can be stated, says anything else than the one of its name in a crate below. The last line is
//!          'N passed, M failed'. It asks for statements; whether they are true is the prover's to say.
//! write    prints proofs/Contracts.antt: a statement for each clause `result ≡ ..` and `x.new ≡ ..` of a public function of the crates that the
//!          line of `determined` in crates.txt names, in its order, but for those that the other modules there state by hand.

mod checking;
#[path = "../wrong-programs/crates.rs"]
#[allow(dead_code)]
mod crates;
mod exceptions;
mod repository;
mod source;
mod statements;
mod writing;

use repository::{Public, Repository, OWN, WRITTEN};
use std::collections::BTreeSet;
use std::fs;
use std::io::{self, Write};
use std::process::exit;

/// A crate that one of these stands on, or is, is of the product.
const PRODUCT: [&str; 3] = ["player", "replay_program", "promises"];

const DECISIONS: &str = "docs/DECISIONS.md";

fn main() {
    let words: Vec<String> = std::env::args().skip(1).collect();
    let words: Vec<&str> = words.iter().map(String::as_str).collect();
    let done = match words.as_slice() {
        ["check"] => check(),
        ["write"] => write().map(|()| true),
        _ => {
            eprintln!("usage: contracts check | write");
            exit(2);
        }
    };
    match done {
        Ok(is_good) => exit(if is_good { 0 } else { 1 }),
        Err(why) => {
            eprintln!("contracts: {why}");
            exit(1);
        }
    }
}

fn written(repository: &Repository) -> io::Result<String> {
    Ok(writing::written(&repository.publics(&repository.named_by_own())?, &repository.stated(false)?, OWN))
}

fn write() -> io::Result<()> {
    io::stdout().write_all(written(&Repository::read()?)?.as_bytes())
}

/// Says what is wrong, and the counts. The written module counts as one.
fn check() -> io::Result<bool> {
    let repository = Repository::read()?;
    let (exports, publics): (Vec<Public>, Vec<Public>) =
        repository.publics(&repository.crates.names())?.into_iter().partition(|public| repository.statics.contains(&public.of));
    let mut stated = repository.stated(false)?;
    stated.extend(repository.stated(true)?);
    let exceptions = exceptions::read(&fs::read_to_string(DECISIONS)?);
    let mut found = checking::checked(&publics, &stated, &exceptions);

    let file = repository::module(WRITTEN);
    let other = checking::first_other_line(&fs::read_to_string(&file)?, &written(&repository)?);
    found.wrong.extend(other.map(|line| format!("{}:{line} is not what 'tools/contracts write' prints", file.display())));

    let mut exported = 0;
    for export in &exports {
        let names: Vec<String> = repository.crates.named_by(&export.of).map(str::to_string).collect();
        let words_of = |of: &str| repository.ghost_uses(of).unwrap_or_default();
        match checking::exported(export, &repository.publics(&names)?, &words_of(&export.of), words_of) {
            Ok(()) => exported += 1,
            Err(why) => found.wrong.push(why),
        }
    }

    let of_product = |name: &str| PRODUCT.iter().any(|top| *top == name || repository.crates.below(top).any(|below| below == name));
    let is_excepted = |name: &str| exceptions.iter().any(|exception| exception.function == name);
    for public in publics.iter().filter(|public| of_product(&public.of) && is_excepted(&public.name())) {
        println!("{} promises nothing, and the product stands on its crate", public.name());
    }
    let crates: BTreeSet<&String> = publics.iter().map(|public| &public.of).collect();
    println!(
        "{} public functions in {} crates: {} answers and lent parameters have their statements; {} functions promise nothing, by {DECISIONS}; \
         {exported} exported functions say what those say that they stand for",
        publics.len(),
        crates.len(),
        found.stated,
        found.excepted
    );
    for words in &found.wrong {
        println!("{words}");
    }
    println!("{} passed, {} failed", found.stated + exported + usize::from(other.is_none()), found.wrong.len());
    Ok(found.wrong.is_empty())
}
