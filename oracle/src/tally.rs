//! What was found of one operation, and the first inputs that differ.

use std::fmt::Debug;

/// How many of the inputs that differ are printed, over all operations.
const SHOWN: u64 = 10;

#[derive(Default)]
pub struct Count {
    pub tried: u64,
    pub status: [u64; 9],
    pub inside: u64,
    pub from_original: u64,
    pub from_rule: u64,
    pub least: u64,
    pub panicked: u64,
    /// Refused by both with another number, as document 01 allows it for expressions.
    pub number_only: u64,
}

impl Count {
    pub fn line(&self, name: &str) {
        let status: Vec<String> =
            (0..9).filter(|&i| self.status[i] > 0).map(|i| format!("{i}:{}", self.status[i])).collect();
        let number_only = if self.number_only > 0 { format!(", another number by rule {}", self.number_only) } else { String::new() };
        println!(
            "{name:<13} tried {:>8}, inside the domain {:>8}, differ from the original {}, from document 01 {}{number_only}; -2^63 met {}, original panicked {}; status {}",
            self.tried, self.inside, self.from_original, self.from_rule, self.least, self.panicked, status.join(" ")
        );
    }

    pub fn differ(&self) -> u64 {
        self.from_original + self.from_rule
    }

    /// One input on which ours said `got` and document 01 says `want`.
    pub fn ruled<T: Debug + PartialEq>(&mut self, shown: &mut u64, input: &dyn Fn() -> String, got: &Result<T, u64>, want: &Result<T, u64>) {
        self.tried += 1;
        self.status[*got.as_ref().err().unwrap_or(&0) as usize] += 1;
        if got != want {
            self.from_rule += 1;
            tell(shown, "document 01", input, got, want);
        }
    }

    /// An input inside the domain of equality on which the original said `made`.
    pub fn made<T: Debug + PartialEq>(&mut self, shown: &mut u64, input: &dyn Fn() -> String, got: &Result<T, u64>, made: &Result<T, u64>) {
        self.inside += 1;
        self.panicked += (made.as_ref().err() == Some(&crate::original::PANICKED)) as u64;
        if got != made {
            self.from_original += 1;
            tell(shown, "the original", input, got, made);
        }
    }
}

fn tell(shown: &mut u64, what: &str, input: &dyn Fn() -> String, got: &dyn Debug, other: &dyn Debug) {
    *shown += 1;
    if *shown <= SHOWN {
        println!("DIFFERS from {what}: {}\n  ours  {got:?}\n  other {other:?}", input());
    }
}
