//! How often each answer occurs in what rehearse prints.

use std::collections::BTreeMap;

/// The answer words without a refusal number.
const WORDS: [&str; 4] = ["done", "outbid", "chosen", "committed"];

/// The refusal numbers that rehearse can print: 1, 2, and 4 to 15.
const NUMBERS: [u32; 14] = [1, 2, 4, 5, 6, 7, 8, 9, 10, 11, 12, 13, 14, 15];

/// The counts over the outputs of a set of inputs.
#[derive(Clone, Debug, Default)]
pub struct Tally {
    /// Inputs.
    pub runs: u64,
    /// Lines of steps, one for each record, damaged ones too.
    pub steps: u64,
    /// Commands taken, over all catalogues.
    pub taken: u64,
    /// Commands skipped among these.
    pub skipped: u64,
    answers: BTreeMap<String, u64>,
}

impl Tally {
    /// Counts the lines of one output.
    pub fn count(&mut self, output: &[u8]) {
        self.runs += 1;
        for line in String::from_utf8_lossy(output).lines() {
            let words: Vec<&str> = line.split(' ').collect();
            match words[..] {
                ["server", _, "taken", taken, "skipped", skipped] => {
                    self.taken += taken.parse().unwrap_or(0);
                    self.skipped += skipped.parse().unwrap_or(0);
                }
                [first, word, number] => {
                    self.steps += u64::from(first != "open");
                    *self.answers.entry(answer_name(word, number)).or_default() += 1;
                }
                _ => *self.answers.entry(format!("unknown: {line}")).or_default() += 1,
            }
        }
    }

    /// The answers that should occur and do not.
    pub fn missing(&self) -> Vec<String> {
        expected().into_iter().filter(|name| !self.answers.contains_key(name)).collect()
    }

    /// The answers that occur and should not.
    pub fn unexpected(&self) -> Vec<String> {
        let expected = expected();
        self.answers.keys().filter(|&name| !expected.contains(name)).cloned().collect()
    }

    /// A line for each count.
    pub fn report(&self) -> String {
        let mut lines = format!("runs {}\nsteps {}\n", self.runs, self.steps);
        for name in expected().into_iter().chain(self.unexpected()) {
            let count = self.answers.get(&name).copied().unwrap_or(0);
            lines += &format!("{name}: {count}\n");
        }
        lines += &format!("commands taken {}, of these skipped {}\n", self.taken, self.skipped);
        lines
    }
}

/// The name under which an answer is counted.
fn answer_name(word: &str, number: &str) -> String {
    match word {
        "refused" => format!("refused {number}"),
        _ => word.to_string(),
    }
}

/// The names of all answers that rehearse can print.
fn expected() -> Vec<String> {
    let refused = NUMBERS.iter().map(|number| format!("refused {number}"));
    WORDS.iter().map(|word| word.to_string()).chain(refused).collect()
}
