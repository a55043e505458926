//! What the answers of a comparison reached.

use std::collections::BTreeMap;

/// All states, and all reasons that an end can give of itself: what is never seen is told too.
const STATES: &[&str] =
    &["listen", "waitau2", "waitau3", "waitar", "waitec", "waitfirst", "up", "out"];
const REASONS: &[&str] = &[
    "0/0", "4/4", "5/1", "6/1", "6/2", "7/3", "8/1", "8/5", "9/1", "9/2", "9/3", "10/1", "10/2",
    "10/3", "10/5", "10/8", "128/2", "128/3", "128/4", "128/5", "128/16", "128/17", "129/1",
    "129/3", "f127/0",
];

/// How often each thing appeared.
#[derive(Default)]
pub struct Counts(BTreeMap<String, u64>);

/// Of listings and fault lines.
#[derive(Default)]
pub struct Coverage {
    states: Counts,
    reasons: Counts,
    delivered: u64,
    sheets: Counts,
    scripts: Counts,
}

impl Counts {
    pub fn add(&mut self, what: &str) {
        match self.0.get_mut(what) {
            Some(count) => *count += 1,
            None => drop(self.0.insert(what.into(), 1)),
        }
    }

    /// Each thing with its count.
    pub fn line(&self) -> String {
        let parts: Vec<String> = self.0.iter().map(|(what, n)| format!("{what} {n}")).collect();
        parts.join(", ")
    }

    fn missing(&self, all: &[&str]) -> String {
        let missing: Vec<&str> =
            all.iter().copied().filter(|&what| !self.0.contains_key(what)).collect();
        if missing.is_empty() {
            "none".into()
        } else {
            missing.join(", ")
        }
    }
}

impl Coverage {
    /// Takes in what a rehearsal printed.
    pub fn add(&mut self, printed: &str) {
        let words: Vec<&str> = printed.split_whitespace().take(3).collect();
        match words[..] {
            ["fault", number, "sheet"] => self.sheets.add(&format!("fault {number}")),
            ["fault", number, _] => {
                self.sheets.add("good");
                self.scripts.add(&format!("fault {number}"));
            }
            _ => {
                self.sheets.add("good");
                self.scripts.add("good");
                printed.lines().skip(1).for_each(|line| self.add_call(line));
            }
        }
    }

    fn add_call(&mut self, line: &str) {
        let words: Vec<&str> = line.split(' ').collect();
        if let [_, _, call, state, got, reason] = words[..] {
            self.states.add(state);
            // A stop shows an earlier reason once more.
            if reason != "-" && (call != "stop" || matches!(reason, "0/0" | "no8")) {
                self.reasons.add(reason);
            }
            self.delivered += u64::from(got != "-");
        }
    }

    pub fn print(&self) {
        println!("states after calls: {}", self.states.line());
        println!("states never seen: {}", self.states.missing(STATES));
        println!("reasons and refusals: {}", self.reasons.line());
        println!("reasons never seen: {}", self.reasons.missing(REASONS));
        println!("messages delivered: {}", self.delivered);
        println!("sheets: {}", self.sheets.line());
        println!("scripts: {}", self.scripts.line());
    }
}
