//! What was compared.
use crate::judge::Judge;
use model::Answer;
use oracle::Origin;

/// How many refusals there are numbers for, and 0. 37 to 39 are of plan files.
const NUMBERS: usize = 41;

/// Of each refusal, how many were seen.
pub type Refusals = [u64; NUMBERS];

#[derive(Clone, Debug)]
pub struct Tally {
    pub scenarios: u64,
    pub whole_runs: u64,
    pub lists: u64,
    pub builds: u64,
    pub plans: u64,
    /// Lists, builds and scenarios of whole runs that the original judged.
    pub judged: u64,
    /// Those that the model judged alone: edges with different lookaheads.
    pub alone: u64,
    /// Of these, the ones whose edges all carry one lookahead: the original with this one was asked too.
    pub carried: u64,
    /// The answers: where the original judged, by itself or by the documents; and where the model did.
    pub by_rust: u64,
    pub by_rules: u64,
    pub by_model: u64,
    pub refusals: Refusals,
    pub refusals_alone: Refusals,
}

impl Default for Tally {
    fn default() -> Self {
        Self {
            scenarios: 0,
            whole_runs: 0,
            lists: 0,
            builds: 0,
            plans: 0,
            judged: 0,
            alone: 0,
            carried: 0,
            by_rust: 0,
            by_rules: 0,
            by_model: 0,
            refusals: [0; NUMBERS],
            refusals_alone: [0; NUMBERS],
        }
    }
}

/// The refusals' numbers, with how many were seen of each.
pub fn shown(refusals: &Refusals) -> String {
    let numbers = refusals.iter().enumerate().skip(1);
    let numbers = numbers.filter(|(number, _)| !(37..40).contains(number));
    let each: Vec<String> = numbers
        .map(|(number, seen)| format!("{number}: {seen}"))
        .collect();
    each.join(", ")
}

impl Tally {
    pub fn list(&mut self, judge: Judge) {
        match judge {
            Judge::Rust => self.judged += 1,
            Judge::Model => self.alone += 1,
        }
    }

    pub fn answer(&mut self, judge: Judge, answer: &Answer, by: Origin) {
        match (judge, by) {
            (Judge::Rust, Origin::Rust) => self.by_rust += 1,
            (Judge::Rust, Origin::Rules) => self.by_rules += 1,
            (Judge::Model, _) => self.by_model += 1,
        }
        let refusals = match judge {
            Judge::Rust => &mut self.refusals,
            Judge::Model => &mut self.refusals_alone,
        };
        refusals[answer.number()] += 1;
    }

    pub fn add(&mut self, other: &Tally) {
        self.scenarios += other.scenarios;
        self.whole_runs += other.whole_runs;
        self.lists += other.lists;
        self.builds += other.builds;
        self.plans += other.plans;
        self.judged += other.judged;
        self.alone += other.alone;
        self.carried += other.carried;
        self.by_rust += other.by_rust;
        self.by_rules += other.by_rules;
        self.by_model += other.by_model;
        let pairs = [
            (&mut self.refusals, &other.refusals),
            (&mut self.refusals_alone, &other.refusals_alone),
        ];
        for (to, from) in pairs {
            for (to, from) in to.iter_mut().zip(from) {
                *to += from;
            }
        }
    }

    /// Who judged what: two lines.
    pub fn print_judges(&self, what: &str) {
        let Tally {
            judged,
            alone,
            by_rust,
            by_rules,
            by_model,
            ..
        } = self;
        let calls = by_rust + by_rules;
        println!("{what}: the plan's lookahead on every edge, judged by the Rust: {judged} lists, {calls} calls, {by_rust} answered by the Rust, {by_rules} by the documents alone; refusals: {}", shown(&self.refusals));
        println!("{what}: different lookaheads, judged by the model alone: {alone} lists, {by_model} calls; refusals: {}", shown(&self.refusals_alone));
    }

    pub fn print(&self, seed: u64) {
        let Tally {
            scenarios,
            whole_runs,
            lists,
            builds,
            plans,
            ..
        } = self;
        println!("compared: seed {seed}, {scenarios} scenarios, each as whole runs ({whole_runs}), as a list of calls ({lists}), with a build ({builds}) and a plan ({plans})");
        self.print_judges("compared");
        println!("compared: of these, {} whose edges all carry one lookahead other than the plan's: also on the Rust with this one", self.carried);
        println!("compared: of every list from build, limits on rounds and null messages, and neither 11 nor 33");
    }
}
