//! The printed tables.

use crate::clock::Pair;

/// The most that a ratio is to be, and the customer's limit where it is another.
#[derive(Clone, Copy)]
pub struct Goal {
    pub most: f64,
    pub limit: Option<f64>,
}

impl Goal {
    fn verdict(self, ratio: f64) -> String {
        let word = |most: f64| if ratio <= most { "met" } else { "MISSED" };
        let goal = format!("goal {:.1} {}", self.most, word(self.most));
        self.limit.map_or(goal.clone(), |limit| format!("{goal}, limit {limit:.1} {}", word(limit)))
    }
}

pub fn head(title: &str, first: &str, second: &str, ratio: &str) {
    println!("\n{title:<58} {first:>14} {second:>14} {ratio:>7}  middle half");
}

pub fn row(name: &str, pair: &Pair, goal: Option<Goal>) {
    let Pair { first, second, ratio: [low, middle, high] } = pair;
    let verdict = goal.map_or(String::new(), |goal| goal.verdict(*middle));
    println!("{name:<58} {first:>14.1} {second:>14.1} {middle:>7.3}  {low:.2} to {high:.2}   {verdict}");
}

/// A row of the library alone, with what each of so many parts of the work took.
pub fn lone(name: &str, [low, middle, high]: [f64; 3], parts: u64, part: &str) {
    let each = middle / parts as f64;
    println!("{name:<58} {middle:>14.1}   middle half {low:.1} to {high:.1}; {each:.2} a {part}");
}
