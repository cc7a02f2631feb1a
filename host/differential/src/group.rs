//! A group of cases: compares calls and counts.

use crate::abort;
use crate::call::Call;
use crate::random::Random;
use std::collections::BTreeSet;

/// Failures of one group printed in full.
const PRINTED: u64 = 3;

pub const SEED: u64 = 20_260_101;

pub struct Group {
    pub name: &'static str,
    pub case: u64,
    comparisons: u64,
    failures: u64,
    /// Entries with the numbers that they returned.
    seen: BTreeSet<(&'static str, u64)>,
}

impl Group {
    pub fn new(name: &'static str) -> Group {
        Group {
            name,
            case: 0,
            comparisons: 0,
            failures: 0,
            seen: BTreeSet::new(),
        }
    }

    /// Every case has a seed of its own, so that it can be run alone.
    fn seed(&self) -> u64 {
        let name = self.name.bytes().fold(SEED, |sum, byte| {
            sum.wrapping_mul(31).wrapping_add(u64::from(byte))
        });
        name.wrapping_mul(1_000_003).wrapping_add(self.case)
    }

    pub fn run(&mut self, cases: impl Iterator<Item = u64>, case: fn(&mut Group, &mut Random)) {
        for number in cases {
            self.case = number;
            abort::in_hand(number);
            let mut random = Random::new(self.seed());
            case(self, &mut random);
        }
    }

    pub fn seen(self) -> BTreeSet<(&'static str, u64)> {
        self.seen
    }

    pub fn failed(&self) -> bool {
        self.failures > 0
    }

    pub fn report(&self) -> String {
        match self.failures {
            0 => format!("{} comparisons, passed", self.comparisons),
            n => format!(
                "{}: {} comparisons, {n} FAILED",
                self.name, self.comparisons
            ),
        }
    }

    fn fail(&mut self, call: &Call, difference: String) {
        self.failures += 1;
        if self.failures <= PRINTED {
            println!("\n  FAILED in case {}, seed {}", self.case, self.seed());
            println!("  call {}", call.facts());
            println!("  first difference: {difference}");
        }
    }

    /// Makes the call on both sides. Gives the reference's number and buffers.
    pub fn compare(&mut self, call: Call) -> (u64, Call) {
        self.comparisons += 1;
        let mut theirs = call.clone();
        let number = theirs.on_reference();
        self.seen.insert((call.entry(), number));
        let mut ours = call.clone();
        let (returned, altered) = ours.on_library();
        if let Some(name) = altered {
            self.fail(&call, format!("guard elements of {name} altered"));
        } else if returned != number {
            self.fail(
                &call,
                format!("returned: library {returned}, reference {number}"),
            );
        } else if ours != theirs {
            let difference = ours.facts().first_difference(&theirs.facts());
            self.fail(&call, difference.expect("a cell that differs"));
        }
        (number, theirs)
    }

    /// Compares a call that must return this number.
    pub fn expect_number(&mut self, call: Call, expected: u64, fact: &str) {
        let (number, _) = self.compare(call.clone());
        self.expect(number == expected, &call, fact);
    }

    /// Makes the call on the library alone. Gives its number and buffers.
    pub fn on_library(&mut self, call: &Call) -> (u64, Call) {
        let mut ours = call.clone();
        let (number, altered) = ours.on_library();
        self.expect(altered.is_none(), call, "guard elements as they were");
        (number, ours)
    }

    /// A fact about a call's answer that is no comparison with the reference.
    pub fn expect(&mut self, holds: bool, call: &Call, fact: &str) {
        self.comparisons += 1;
        if !holds {
            self.fail(call, format!("does not hold: {fact}"));
        }
    }
}
