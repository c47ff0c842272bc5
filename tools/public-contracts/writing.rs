//! What proofs/Contracts.antt must be: a statement for each clause that is a plain equality.

use crate::repository::Public;
use crate::source::{Function, What};
use crate::statements::Stated;
use std::collections::BTreeSet;

/// The text, for these functions but for what is stated by hand.
pub fn written(functions: &[Public], by_hand: &BTreeSet<Stated>, own: &str) -> String {
    let (mut uses, mut facts) = (String::new(), String::new());
    for public in functions {
        let said = statements(public, by_hand);
        if !said.is_empty() {
            uses += &format!("use {}.Reads as {}\n", public.module(), alias(public));
        }
        facts += &said;
    }
    format!(
        "-- Promise 2: \"Any two answers that a function's contract allows coincide\": of each public function, from its own contract. Written by\n\
         -- `tools/contracts write`, which leaves out what `Rest` says.\n\
         use Rattle.facts.proofs.ChoiceLaws.{{coincide}}\n\
         {uses}use Rattle.{own}.specs.Determined.{{Answers, Leaves}}\n{facts}"
    )
}

fn alias(public: &Public) -> String {
    let words: Vec<String> = [&public.of].into_iter().chain(&public.function.path).map(|word| word.to_lowercase()).collect();
    words.join("_")
}

fn statements(public: &Public, by_hand: &BTreeSet<Stated>) -> String {
    let (alias, function) = (alias(public), &public.function);
    let (mut said, mut text) = (BTreeSet::new(), String::new());
    for (at, clause) in function.clauses.iter().enumerate() {
        let what = match equated(clause, function) {
            Some(what) if !by_hand.contains(&(public.module(), what)) && said.insert(what) => what,
            _ => continue,
        };
        let statement = match what {
            What::Answer => format!("Answers {alias}.Learnt"),
            What::Left(place) => format!("Leaves {alias}.Learnt (λ k s. s{}.0.now)", ".1".repeat(place)),
        };
        let name = format!("{alias}_{}", function.name_of(what));
        let (p, q) = (clause_of("p", at, function), clause_of("q", at, function));
        text += &format!("\npub {name} : {statement}\n{name} k a x y s t p q = coincide {p} {q}\n");
    }
    text
}

/// What a clause says by an equality: `result ≡ ..`, or `parameter.new ≡ ..`.
fn equated(clause: &str, function: &Function) -> Option<What> {
    let (left, right) = clause.split_once(" ≡ ")?;
    if left == right {
        return None;
    }
    if let Some(parameter) = left.strip_suffix(".new") {
        return function.parameters.iter().position(|known| known.name == parameter).map(What::Left);
    }
    (left == "result").then(|| What::Answer)
}

/// The clauses that a caller learns are a product nested to the right.
fn clause_of(learnt: &str, at: usize, function: &Function) -> String {
    learnt.to_string() + &".1".repeat(at) + if at + 1 == function.clauses.len() { "" } else { ".0" }
}

#[cfg(test)]
mod tests {
    use super::*;
    use crate::source;
    use crate::statements;

    const TEXT: &str = "impl Mbc1 {
    pub fn bank_0(self) -> u8
        ensures { result ≡ bank_of self }
    {
    }
}
pub fn write(cart: Cartridge, ram_area: &mut [u8]) -> Answer
    ensures value { result ≡ write_of cart }
    ensures same { result ≡ same_of cart }
    ensures area_after { ram_area.new ≡ area_after cart }
{
}
pub fn weak(ram: &mut [u8]) -> usize
    ensures nothing { result ≡ result }
    ensures put { Put ram.old ram.new result }
{
}
";

    fn publics() -> Vec<Public> {
        source::functions(TEXT).into_iter().map(|function| Public { of: "my_bus".to_string(), function }).collect()
    }

    const FACTS: &str = "
pub my_bus_mbc1_bank_0_answer : Answers my_bus_mbc1_bank_0.Learnt
my_bus_mbc1_bank_0_answer k a x y s t p q = coincide p q

pub my_bus_write_answer : Answers my_bus_write.Learnt
my_bus_write_answer k a x y s t p q = coincide p.0 q.0

pub my_bus_write_ram_area : Leaves my_bus_write.Learnt (λ k s. s.1.0.now)
my_bus_write_ram_area k a x y s t p q = coincide p.1.1 q.1.1
";

    #[test]
    fn a_plain_equality_has_a_statement() {
        let text = written(&publics(), &BTreeSet::new(), "mine");
        let uses = "use Rattle.my_bus.proofs.Mbc1.bank_0.Reads as my_bus_mbc1_bank_0\nuse Rattle.my_bus.proofs.write.Reads as my_bus_write\n";
        let last = "use Rattle.mine.specs.Determined.{Answers, Leaves}\n";
        assert!(text.ends_with(&format!("{uses}{last}{FACTS}")), "{text}");
    }

    #[test]
    fn what_is_written_states_what_is_asked() {
        let stated = statements::stated(&written(&publics(), &BTreeSet::new(), "mine"));
        let asked = publics().iter().take(2).flat_map(|public| public.asked()).collect::<Vec<_>>();
        assert_eq!(stated, asked);
    }

    #[test]
    fn what_is_stated_by_hand_is_left_out() {
        let by_hand = BTreeSet::from([("Rattle.my_bus.proofs.Mbc1.bank_0".to_string(), What::Answer)]);
        let text = written(&publics(), &by_hand, "mine");
        assert!(!text.contains("bank"), "{text}");
        assert!(text.contains("pub my_bus_write_answer"), "{text}");
    }
}
