//! cases SEED ROUNDS > FILE: cases for the program `replay`, and what the unchanged Rust did with each.
//!
//! A case is a byte for its kind, two for how many bytes follow, and lists: a byte for the bytes of one number, two for
//! how many numbers there are, then the numbers; the low byte first. Kinds and lists: `write.rs`.
//! Build it with debug assertions and overflow checks: only then does the Rust panic wherever it is called outside its domain.
mod calls;
mod inputs;
mod rules;
#[path = "../shared.rs"]
mod shared;
mod write;

use inputs::{EDGES, Random};
use write::Case;

fn main() {
    std::panic::set_hook(Box::new(|_| {}));
    let number = |i: usize| std::env::args().nth(i).and_then(|w| w.parse::<u64>().ok()).expect("usage: cases SEED ROUNDS");
    let (mut r, rounds) = (Random(number(1)), number(2) as usize);
    let mut cases = vec![];
    // every pair of the word's edges once, then sizes by chance
    let pairs = EDGES.iter().flat_map(|&n| EDGES.iter().map(move |&m| (n, m)));
    for (n, m) in pairs.map(Some).chain(std::iter::repeat_n(None, rounds)).map(|p| p.unwrap_or((usize::MAX, 0))) {
        let (n, m) = if n == usize::MAX { (inputs::size(&mut r), inputs::size(&mut r)) } else { (n, m) };
        round(&mut r, n, m, &mut cases);
    }
    above_the_largest(&mut cases);
    let mut bytes = vec![];
    cases.iter().for_each(|c| c.append_to(&mut bytes));
    std::io::Write::write_all(&mut std::io::stdout(), &bytes).expect("cannot write");
}

/// The cases of one system, one table of edges and one run of each kind of calls.
fn round(r: &mut Random, n: usize, m: usize, cases: &mut Vec<Case>) {
    let mut eqs = inputs::system(r, n, m);
    let damage = r.below(4) == 0;
    let solved = write::did(|| original::sparse(n, &eqs)).flatten();
    if damage {
        inputs::damage_system(r, n, &mut eqs);
    }
    cases.push(write::sum(eqs.first().cloned().unwrap_or_default(), eqs.last().cloned().unwrap_or_default()));
    let mut x = solved.unwrap_or_else(|| r.words(n));
    cases.push(write::check(n, &eqs, &x));
    inputs::damage_solution(r, &mut x);
    cases.push(write::check(n, &eqs, &x));
    cases.push(write::system(write::SPARSE, n, &eqs));
    cases.push(write::system(write::LAZY, n, &eqs));
    cases.push(write::dense(inputs::rows(r, n, &eqs, damage)));
    let edges = inputs::edges(r, n);
    cases.push(write::peel(write::HIGH, n, &edges));
    cases.push(write::peel(write::LOW, n, &edges));
    cases.push(calls::graph(r));
    cases.push(calls::fast(r));
    cases.push(calls::double(r));
}

fn above_the_largest(cases: &mut Vec<Case>) {
    let n = rules::MAX_VARIABLES + 1;
    cases.push(write::system(write::SPARSE, n, &[]));
    cases.push(write::system(write::LAZY, n, &[]));
    cases.push(write::dense(inputs::Rows { n, m: 0, w: n.div_ceil(64), rows: vec![], constants: vec![] }));
}
