//! One line a check: how many calls were compared, how often each refusal came, how many steps were made, and the first
//! differences.
use std::collections::BTreeMap;
use std::fmt::Debug;

/// How long a list is, and its first numbers.
pub fn first_of(list: &[u32]) -> String {
    format!("{} {:?}", list.len(), &list[..list.len().min(20)])
}

#[derive(Default)]
pub struct Report {
    /// Words for the checks that are run: those whose name has one of them, or all where there are none.
    pub chosen: Vec<String>,
    checks: u64,
    calls: u64,
    differences: u64,
    silent: u64,
}

pub struct Check {
    calls: u64,
    differences: u64,
    numbers: BTreeMap<u32, u64>,
    steps: Option<u64>,
}

impl Check {
    /// One call's two answers; `number` is 01's refusal, 0 for none, as the Rust's side has it.
    pub fn same<T: PartialEq + Debug>(&mut self, number: u32, ours: T, rust: T, input: impl FnOnce() -> String) {
        self.calls += 1;
        *self.numbers.entry(number).or_default() += 1;
        if ours != rust {
            self.differences += 1;
            if self.differences <= 3 {
                let cut = |text: String| text.chars().take(2000).collect::<String>();
                println!("  DIFFERENCE: {}", cut(input()));
                println!("    ours       {}", cut(format!("{ours:?}")));
                println!("    the Rust's {}", cut(format!("{rust:?}")));
            }
        }
    }

    /// So many steps (moves, swaps, ..) were made in a call: a check that counts them must meet some.
    pub fn made(&mut self, steps: u64) {
        *self.steps.get_or_insert(0) += steps;
    }

    /// A number and a value beside what the Rust answers; with a refusal goes the value that is nothing.
    pub fn answers<T: PartialEq + Debug>(
        &mut self,
        ours: (u32, T),
        rust: Result<T, u32>,
        nothing: T,
        input: impl FnOnce() -> String,
    ) {
        let rust = rust.map_or_else(|number| (number, nothing), |value| (0, value));
        self.same(rust.0, ours, rust, input);
    }

    /// Two answers that may be refusals.
    pub fn outcomes<T: PartialEq + Debug>(
        &mut self,
        ours: Result<T, u32>,
        rust: Result<T, u32>,
        input: impl FnOnce() -> String,
    ) {
        let number = rust.as_ref().err().copied().unwrap_or(0);
        self.same(number, ours, rust, input);
    }
}

impl Report {
    /// Runs a check and prints its line. Each of `expected` must come among the answers: else the check compares too little.
    pub fn check(&mut self, name: &str, expected: &[u32], body: impl FnOnce(&mut Check)) {
        if !self.chosen.is_empty() && !self.chosen.iter().any(|word| name.contains(word.as_str())) {
            return;
        }
        let mut check = Check { calls: 0, differences: 0, numbers: BTreeMap::new(), steps: None };
        body(&mut check);
        let numbers: Vec<_> = check.numbers.iter().map(|(n, times)| format!("{n}: {times}")).collect();
        let verdict = if check.differences == 0 { "equal".into() } else { format!("{} DIFFER", check.differences) };
        let told = if numbers.len() > 1 { format!(" ({})", numbers.join(", ")) } else { String::new() };
        let steps = check.steps.map_or(String::new(), |steps| format!(", {steps} steps"));
        println!("{name}: {} calls{told}{steps}, {verdict}", check.calls);
        for number in expected {
            if !check.numbers.contains_key(number) {
                println!("  MISSING: no answer {number} among them");
                self.silent += 1;
            }
        }
        if check.steps == Some(0) {
            println!("  MISSING: no step was made");
            self.silent += 1;
        }
        self.checks += 1;
        self.calls += check.calls;
        self.differences += check.differences;
    }

    /// The last line; whether all was equal.
    pub fn end(self) -> bool {
        if self.checks == 0 {
            println!("oracle: no check has one of these words: {}", self.chosen.join(" "));
            return false;
        }
        let ok = self.differences == 0 && self.silent == 0;
        let verdict =
            if ok { "all equal".into() } else { format!("{} DIFFER, {} MISSING", self.differences, self.silent) };
        println!("oracle: {} checks, {} calls, {verdict}", self.checks, self.calls);
        ok
    }
}
