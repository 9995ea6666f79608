//! What was compared.
use crate::judge::{By, Judged};
use crate::listing::Answered;
use std::collections::BTreeMap;

/// Numbers of end lines that a file can bring, and 37 to 39; from so many files on, each has to be met.
const MET: [usize; 24] = [
    0, 1, 2, 5, 7, 8, 9, 10, 14, 15, 16, 17, 18, 22, 24, 26, 28, 29, 30, 31, 32, 37, 38, 39,
];
/// The same of files whose edges carry other lookaheads than the plan's.
const MET_MIXED: [usize; 23] = [
    0, 1, 2, 5, 7, 8, 9, 10, 14, 15, 16, 17, 18, 22, 24, 26, 28, 29, 30, 31, 32, 39, 40,
];
const MANY: u64 = 40_000;

#[derive(Default)]
pub struct Tally {
    files: u64,
    damaged: u64,
    lines: u64,
    /// Runs of more than 60,000 rounds, of uniform plans and of mixed ones.
    long: [u64; 2],
    /// Judged by the model alone, but also by the original with the lookahead that all edges carry.
    carried: u64,
    /// Of each number, how many were given by the original, by the documents alone and by the model.
    numbers: BTreeMap<usize, [u64; 3]>,
}

impl Tally {
    pub fn count(&mut self, judged: &Judged, damaged: bool) {
        self.files += 1;
        self.damaged += u64::from(damaged);
        let number = match &judged.answered {
            Answered::Number(number) => *number as usize,
            Answered::Listed { text, end } => {
                self.lines += text.lines().count() as u64 - 1;
                let mixed = usize::from(judged.by == By::Model);
                self.long[mixed] += u64::from(rounds(text) > 60_000);
                *end
            }
        };
        self.numbers.entry(number).or_default()[judged.by as usize] += 1;
    }

    /// A file that the original was asked about too.
    pub fn count_carried(&mut self, by: By) {
        self.carried += u64::from(by == By::Model);
    }

    pub fn add(&mut self, other: &Tally) {
        self.files += other.files;
        self.damaged += other.damaged;
        self.lines += other.lines;
        self.carried += other.carried;
        for (to, from) in self.long.iter_mut().zip(other.long) {
            *to += from;
        }
        for (number, from) in &other.numbers {
            let to = self.numbers.entry(*number).or_default();
            for (to, from) in to.iter_mut().zip(from) {
                *to += from;
            }
        }
    }

    /// How often somebody gave a number.
    fn times(&self, number: usize, by: By) -> u64 {
        self.numbers
            .get(&number)
            .map_or(0, |given| given[by as usize])
    }

    /// The numbers that somebody gave, each with how often.
    fn given(&self, by: By) -> String {
        let each = self
            .numbers
            .keys()
            .map(|&number| (number, self.times(number, by)));
        let each = each.filter(|(_, times)| *times > 0);
        let each = each.map(|(number, times)| format!("{number}: {times}"));
        each.collect::<Vec<_>>().join(", ")
    }

    /// What has to be met and was not.
    fn unmet(&self) -> Vec<String> {
        let by_rust = |number| self.times(number, By::Rust) + self.times(number, By::Documents);
        let unmet = MET.iter().filter(|&&number| by_rust(number) == 0);
        let mut unmet: Vec<String> = unmet.map(usize::to_string).collect();
        let mixed = MET_MIXED
            .iter()
            .filter(|&&number| self.times(number, By::Model) == 0);
        unmet.extend(mixed.map(|number| format!("{number} with different lookaheads")));
        if self.long[0] == 0 {
            unmet.push("a run of more than 60,000 rounds".to_string());
        }
        if self.long[1] == 0 {
            unmet.push("a run of more than 60,000 rounds with different lookaheads".to_string());
        }
        unmet
    }

    /// Prints it. Whether all was met that has to be.
    pub fn print(&self, seed: u64, drivers: usize, programs: usize) -> bool {
        let Tally {
            files,
            damaged,
            lines,
            long,
            carried,
            numbers,
        } = self;
        let unread = self.times(37, By::Documents) + self.times(38, By::Documents);
        let model: u64 = numbers
            .values()
            .map(|given| given[By::Model as usize])
            .sum();
        let rust = files - unread - model;
        println!("plan files: seed {seed}: {files} files, {damaged} of them damaged, {lines} events listed, {} and {} runs of more than 60,000 rounds; {drivers} archives, {programs} programs", long[0], long[1]);
        println!("plan files: judged by the Rust: {rust}; by the model alone, their edges carry other lookaheads than the plan's: {model}, of these {carried} also by the Rust with the one lookahead that all edges carry; no plans: {unread}");
        println!("plan files: numbers by the Rust: {}", self.given(By::Rust));
        println!(
            "plan files: numbers by the documents alone: {}",
            self.given(By::Documents)
        );
        println!(
            "plan files: numbers by the model: {}",
            self.given(By::Model)
        );
        let unmet = self.unmet();
        if !unmet.is_empty() {
            println!("plan files: NOT MET, so not compared: {}", unmet.join(", "));
        }
        *files > 0 && (unmet.is_empty() || *files < MANY)
    }
}

/// The rounds of an end line.
fn rounds(text: &str) -> u64 {
    let end = text.lines().next_back().unwrap_or("");
    let word = end.split(' ').nth(3).unwrap_or("");
    word.parse().unwrap_or(0)
}
