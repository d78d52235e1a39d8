//! Runs the proved calls beside the unchanged Rust on the same inputs and compares every answer and every lent cell.
//!
//!     driver exhaustive LEVEL          all small systems; LEVEL 0, 1 or 2 says how many
//!     driver random SEED SECONDS       systems of every size around the word's edges
//!     driver damaged SEED SECONDS      the same with one to three things wrong
//!     driver graphs exhaustive LEVEL   the same for the peelers and lookup: all small graphs,
//!     driver graphs random SEED SECONDS    graphs of every size, with vertices on 62 to 66 edges among them,
//!     driver graphs damaged SEED SECONDS   and with one to three things wrong
//!     driver limits                    the largest sizes, and one above each
//!     driver bench ENGINE N M SEED PHASE   one input on both sides, for counting instructions (tools/measure)
//!     driver time ENGINE N M SEED RUNS     the same, CPU time of both sides in turn
//!
//! Prints how many calls were compared, by engine and by the number given, and each difference's smallest input; ends with 1 if there is one.
#[path = "../measure/bench.rs"]
mod bench;
mod calls;
mod cases;
mod generate;
mod graph_inputs;
mod graphs;
mod limits;
mod reference;
mod rules;
#[path = "../shared.rs"]
mod shared;
mod shrink;

use cases::{Case, ENGINES, compare};
use generate::{Random, all_systems, damaged_cases, dense_case, lazy_case, random_cases, rows_of, sparse_case, subset, tuples};
use std::time::{Duration, Instant};

/// Calls compared, by engine and number given, and the differences.
pub struct Tally {
    counts: [[u64; 11]; ENGINES.len()],
    found: [Option<Case>; ENGINES.len()],
    differences: u64,
}

impl Tally {
    fn new() -> Self {
        Tally { counts: [[0; 11]; ENGINES.len()], found: [const { None }; ENGINES.len()], differences: 0 }
    }

    /// A dense system goes through both dense engines.
    pub fn meet(&mut self, case: Case) {
        if let Case::Dense(s, a) = &case {
            self.hold(Case::Slow(s.clone(), a.clone()));
        }
        self.hold(case);
    }

    fn hold(&mut self, case: Case) {
        let e = case.engine();
        match compare(&case) {
            Ok(number) => self.counts[e][number as usize] += 1,
            Err(_) => {
                self.differences += 1;
                if self.found[e].as_ref().is_none_or(|f| case.size() < f.size()) {
                    self.found[e] = Some(case);
                }
            }
        }
    }

    fn print(self) -> bool {
        for (e, counts) in self.counts.iter().enumerate().filter(|(_, c)| c.iter().any(|&k| k > 0)) {
            let each: Vec<String> = counts.iter().enumerate().filter(|(_, c)| **c > 0).map(|(k, c)| format!("{k}: {c}")).collect();
            println!("{:7}{:>12} compared   {}", ENGINES[e], counts.iter().sum::<u64>(), each.join(", "));
        }
        println!("{} differences", self.differences);
        for case in self.found.into_iter().flatten() {
            let case = shrink::smallest(case);
            println!("smallest: {case:?}\n  {}", compare(&case).unwrap_err());
        }
        self.differences == 0
    }
}

/// n, m and constants of the systems at each level.
const LEVELS: [&[(usize, usize, usize)]; 3] = [&[(3, 3, 2)], &[(3, 3, 4), (4, 3, 2), (3, 4, 2)], &[(4, 4, 2), (5, 3, 2), (3, 5, 2), (2, 5, 4)]];

fn exhaustive(level: usize, tally: &mut Tally) {
    for &(most_n, most_m, values) in LEVELS[level] {
        for (n, m) in (0..=most_n).flat_map(|n| (0..=most_m).map(move |m| (n, m))) {
            all_systems(n, m, values, |eqs| {
                let slack = eqs.len() % 2;
                tally.meet(sparse_case(n, eqs, slack));
                tally.meet(lazy_case(n, eqs, slack));
                tally.meet(dense_case(rows_of(n, 1, eqs, |v| v as usize), slack));
                // the same columns on both sides of the word's edge
                tally.meet(dense_case(rows_of(62 + n, 2, eqs, |v| v as usize + 62), slack));
                if level < 2 {
                    tuples(2, n, |x| tally.meet(Case::Check(shrink::system(n, eqs), x.iter().map(|&b| b as u64).collect())));
                }
            });
        }
    }
    let most = [4, 6, 8][level];
    tuples(1 << most, 2, |t| {
        let (left, right) = (subset(most, t[0]), subset(most, t[1]));
        let total = left.len() + right.len();
        for len in total.saturating_sub(1)..total + 2 {
            tally.meet(Case::Sum { left: left.clone(), right: right.clone(), left_c: 5, right_c: t[0] as u64, out: vec![7; len] });
        }
    });
    limits::all_small_damaged(level, tally);
}

fn timed(seed: u64, seconds: u64, cases: impl Fn(&mut Random) -> Vec<Case>, tally: &mut Tally) {
    let mut r = Random(seed);
    let end = Instant::now() + Duration::from_secs(seconds);
    let mut systems = 0u64;
    while Instant::now() < end {
        cases(&mut r).into_iter().for_each(|c| tally.meet(c));
        systems += 1;
    }
    println!("{systems} inputs");
}

fn main() {
    std::panic::set_hook(Box::new(|_| {}));
    let words: Vec<String> = std::env::args().skip(1).collect();
    let number = |i: usize| words.get(i).and_then(|w| w.parse::<u64>().ok()).unwrap_or(1);
    let mut tally = Tally::new();
    match words.iter().map(String::as_str).collect::<Vec<_>>()[..] {
        ["exhaustive", _] => exhaustive(number(1) as usize, &mut tally),
        ["random", _, _] => timed(number(1), number(2), random_cases, &mut tally),
        ["damaged", _, _] => timed(number(1), number(2), damaged_cases, &mut tally),
        ["graphs", "exhaustive", _] => graph_inputs::exhaustive(number(2) as usize, &mut tally),
        ["graphs", "random", _, _] => timed(number(2), number(3), graph_inputs::random_cases, &mut tally),
        ["graphs", "damaged", _, _] => timed(number(2), number(3), graph_inputs::damaged_cases, &mut tally),
        ["limits"] => {
            limits::largest(&mut tally);
            graph_inputs::largest(&mut tally);
        }
        ["time", engine, _, _, _, _] => return bench::time(engine, number(2) as usize, number(3) as usize, number(4), number(5) as usize),
        ["bench", engine, _, _, _, only] => return bench::run(engine, number(2) as usize, number(3) as usize, number(4), only),
        _ => {
            eprintln!("usage: driver [graphs] exhaustive LEVEL | [graphs] random SEED SECONDS | [graphs] damaged SEED SECONDS | limits | bench ENGINE N M SEED PHASE | time ENGINE N M SEED RUNS");
            std::process::exit(2);
        }
    }
    if !tally.print() {
        std::process::exit(1);
    }
}
