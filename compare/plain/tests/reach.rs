//! Random scripts reach everything, and three writings of the rules agree.

use std::collections::{BTreeMap, HashMap};

use plain::console::{Console, Lines, Operation, is_passed_over, parse, text_length};
use plain::coverage::Coverage;
use plain::{Invocation, Registry};

fn script(seed: u64, lines: u64) -> Vec<u8> {
    let mut text = Vec::new();
    plain::script::write(seed, lines, &mut text).unwrap();
    text
}

#[test]
fn a_seed_gives_the_same_script_again() {
    for seed in 4..8 {
        let text = script(seed, 2000);
        assert_eq!(text, script(seed, 2000));
        assert_ne!(text, script(seed + 1, 2000));
        let mut lines = Lines::new(&text[..]);
        let mut count = 0;
        // The bytes that the last line still asks for.
        let mut cut = 0;
        while let Some(line) = lines.next_line().unwrap() {
            count += 1;
            cut = text_length(line.words).saturating_sub(line.text.len() as u64);
        }
        assert_eq!(count, 2000);
        // One seed of four cuts the last text, and one leaves the last line open.
        assert_eq!(cut > 0, seed % 4 == 1);
        assert!(seed % 4 == 1 || text.ends_with(b"\n") == (seed % 4 != 3));
    }
}

#[test]
fn scripts_reach_every_answer_in_the_order_of_checks() {
    let mut coverage = Coverage::new();
    for seed in 100..106 {
        coverage.start_script();
        let text = script(seed, 50_000);
        let mut lines = Lines::new(&text[..]);
        while let Some(line) = lines.next_line().unwrap() {
            coverage.line(line);
        }
    }
    assert_eq!(coverage.gaps(), Vec::<String>::new());
    assert_eq!(coverage.disagreements(), Vec::<String>::new());
    let texts = coverage.texts();
    assert!(texts.whole > 1000 && texts.cut > 0 && texts.too_long > 0);
}

/// Demand 3, by its own words: what admissions are still good, and for which
/// payload.
#[derive(Default)]
struct Admissions {
    good: HashMap<[u64; 5], u64>,
    payloads: BTreeMap<u64, u64>,
}

impl Admissions {
    fn spoil(&mut self, id: u64) {
        self.good.retain(|key, _| key[1] != id);
    }

    /// What a call must answer, or none if it must be refused.
    fn receipt(&self, call: &Invocation) -> Option<String> {
        let Invocation { domain, id, generation, revision, argument } = *call;
        let payload = self.good.get(&[domain, id, generation, revision, argument])?;
        Some(format!("ok {domain} {id} {generation} 0 {payload} {argument}"))
    }

    /// Follows an accepted operation, with the registry after it.
    fn follow(
        &mut self,
        operation: &Operation<'_>,
        answer: &str,
        registered: bool,
        registry: &Registry,
    ) {
        let numbers: Vec<u64> = answer.split(' ').filter_map(|word| word.parse().ok()).collect();
        match *operation {
            Operation::Open { .. } => *self = Self::default(),
            // The sequence starts anew, with the payloads that were loaded.
            Operation::Load { .. } => {
                self.good.clear();
                let payloads = registry.registered().map(|(id, p)| (id, p.record().payload));
                self.payloads = payloads.collect();
            }
            Operation::Register(new) => {
                self.payloads.insert(numbers[0], new.payload);
            }
            Operation::Replace { id, payload } => {
                self.payloads.insert(id, payload);
                self.spoil(id);
            }
            Operation::Ready(id) | Operation::Fail(id) | Operation::Retire(id) => self.spoil(id),
            Operation::RetireChild(child) if registered => self.spoil(child.id),
            Operation::Admit { ticket, .. } => {
                let payload = self.payloads[&ticket.id];
                self.good.insert(numbers.try_into().unwrap(), payload);
            }
            Operation::Call(call) => {
                let Invocation { domain, id, generation, revision, argument } = call;
                self.good.remove(&[domain, id, generation, revision, argument]);
            }
            _ => {}
        }
    }
}

#[test]
fn a_call_is_accepted_exactly_for_an_admission_that_is_still_good() {
    for seed in 200..204 {
        let text = script(seed, 50_000);
        let mut console = Console::new();
        let mut admissions = Admissions::default();
        let (mut numbers, mut answer) = (Vec::new(), Vec::new());
        let mut lines = Lines::new(&text[..]);
        while let Some(line) = lines.next_line().unwrap() {
            let operation = parse(line, &mut numbers).filter(|_| !is_passed_over(line.words));
            let Some(operation) = operation else { continue };
            let registered = match operation {
                Operation::RetireChild(child) => console.registry().plugin(child.id).is_ok(),
                _ => false,
            };
            answer.clear();
            console.answer(line, &mut answer);
            let answer = str::from_utf8(&answer).unwrap().trim_end();
            if let Operation::Call(call) = operation {
                let accepted = answer.starts_with("ok").then(|| answer.to_string());
                assert_eq!(accepted, admissions.receipt(&call), "{call:?}");
            }
            if answer.starts_with("ok") {
                admissions.follow(&operation, answer, registered, console.registry());
            }
        }
    }
}
