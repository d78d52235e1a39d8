//! A case for each kind: the input's lists, then `said`, then what was found.
//!
//! said: number, place, 1 where the Rust panicked and 0 where it answered, then what else it told. The number is the rule's
//! where the input breaks one, and else the Rust's: a panic there stops the writing.
use crate::inputs::{Edges, Rows};
use crate::rules::{self, Told};
use original::{Eq, Log};
use std::panic::{AssertUnwindSafe, catch_unwind};

pub const SUM: u8 = 0; //     constants of both, left, right; said with the sum's constant; the sum
pub const CHECK: u8 = 1; //   n, m; starts, variables, constants, solution; said: 0 for yes, 6 for no
pub const SPARSE: u8 = 2; //  n, m; starts, variables, constants; said; the solution
pub const LAZY: u8 = 3; //    the same
pub const DENSE: u8 = 4; //   n, m, w; rows, constants; said; the solution
pub const HIGH: u8 = 5; //    n; three vertices an edge, values; said with edges in all and hundredths of a percent unpeeled; the cells
pub const LOW: u8 = 6; //     the same
pub const GRAPH: u8 = 7; //   n; four numbers a call; three a reply
pub const FAST: u8 = 8; //    the same
pub const DOUBLE: u8 = 9; //  the same

pub struct Case {
    kind: u8,
    lists: Vec<Vec<u64>>,
}

impl Case {
    pub fn new(kind: u8, lists: Vec<Vec<u64>>) -> Case {
        Case { kind, lists }
    }

    pub fn append_to(&self, bytes: &mut Vec<u8>) {
        let mut body = vec![];
        for list in &self.lists {
            let most = list.iter().copied().max().unwrap_or(0);
            let width = (8 - most.leading_zeros() as usize / 8).min(8);
            body.push(width as u8);
            body.extend((list.len() as u16).to_le_bytes());
            list.iter().for_each(|x| body.extend(&x.to_le_bytes()[..width]));
        }
        bytes.push(self.kind);
        bytes.extend(u16::try_from(body.len()).expect("a case of 65536 bytes or more").to_le_bytes());
        bytes.append(&mut body);
    }
}

/// What the Rust answers, unless it panics.
pub fn did<T>(call: impl FnOnce() -> T) -> Option<T> {
    catch_unwind(AssertUnwindSafe(call)).ok()
}

/// `said` and what was found. `told` is the rule's number, `rust` the number, place and more that the Rust answers, with what it found.
fn said(told: Told, rust: Option<(Vec<u64>, Vec<u64>)>) -> [Vec<u64>; 2] {
    let panicked = rust.is_none() as u64;
    match rust {
        _ if told.0 != 0 => [vec![told.0, told.1, panicked], vec![]],
        Some((mut number_and_place, found)) => {
            number_and_place.insert(2, 0);
            [number_and_place, found]
        }
        None => panic!("the Rust panics on an input that keeps the rules"),
    }
}

fn solved(found: Option<Vec<u64>>) -> (Vec<u64>, Vec<u64>) {
    found.map_or((vec![6, 0], vec![]), |x| (vec![0, 0], x))
}

fn wide(list: &[u32]) -> Vec<u64> {
    list.iter().map(|&v| v as u64).collect()
}

pub fn sum(left: Eq, right: Eq) -> Case {
    // the answer is read from the equation's Debug text: `Modulo2Equation { vars: [1, 2], c: 3 }`
    let rust = did(|| original::sum(&left, &right)).map(|text| {
        let mut numbers: Vec<u64> = text.split(|c: char| !c.is_ascii_digit()).filter(|w| !w.is_empty()).skip(1).map(|w| w.parse().unwrap()).collect();
        let constant = numbers.pop().unwrap();
        (vec![0, 0, constant], numbers)
    });
    let [said, found] = said(rules::sum(&left, &right), rust);
    Case::new(SUM, vec![vec![left.1, right.1], wide(&left.0), wide(&right.0), said, found])
}

fn lent(n: usize, eqs: &[Eq]) -> Vec<Vec<u64>> {
    let starts = std::iter::once(0).chain(eqs.iter().scan(0, |t, e| { *t += e.0.len() as u64; Some(*t) })).collect();
    vec![vec![n as u64, eqs.len() as u64], starts, eqs.iter().flat_map(|e| wide(&e.0)).collect(), eqs.iter().map(|e| e.1).collect()]
}

pub fn check(n: usize, eqs: &[Eq], solution: &[u64]) -> Case {
    let rust = did(|| original::check(n, eqs, solution)).map(|yes| (vec![if yes { 0 } else { 6 }, 0], vec![]));
    let [said, _] = said(rules::check(n, eqs, solution), rust);
    let mut lists = lent(n, eqs);
    lists.extend([solution.to_vec(), said]);
    Case::new(CHECK, lists)
}

pub fn system(kind: u8, n: usize, eqs: &[Eq]) -> Case {
    let rust = did(|| if kind == LAZY { original::lazy(n, eqs) } else { original::sparse(n, eqs) });
    let mut lists = lent(n, eqs);
    lists.extend(said(rules::system(n, eqs), rust.map(solved)));
    Case::new(kind, lists)
}

pub fn dense(s: Rows) -> Case {
    let (mut rows, mut constants) = (s.rows.clone(), s.constants.clone());
    let rust = did(|| original::dense(&mut rows, &mut constants, s.m, s.w, s.n));
    let [said, found] = said(rules::dense(&s), rust.map(solved));
    Case::new(DENSE, vec![vec![s.n as u64, s.m as u64, s.w as u64], s.rows, s.constants, said, found])
}

/// Peeled, in all, hundredths of a percent: `.. (peeled 1 out of 3 edges, 66.67% unpeeled)`.
fn stuck(line: &str) -> Vec<u64> {
    let words: Vec<&str> = line.split(['(', ' ', '%']).filter(|w| !w.is_empty()).collect();
    let at = words.iter().position(|&w| w == "peeled").unwrap();
    let number = |i: usize| words[at + i].replace('.', "").parse().unwrap();
    vec![8, number(1), number(4), number(6)]
}

pub fn peel(kind: u8, n: usize, edges: &Edges) -> Case {
    let (table, values): (Vec<_>, Vec<_>) = edges.iter().copied().unzip();
    let rust = did(|| {
        let mut log = Log::default();
        match original::run(original::ready(n, table.clone(), &values), kind == LOW, &mut log) {
            Some(cells) => (vec![0, 0], cells),
            None => (stuck(&log.0), vec![]),
        }
    });
    let [said, found] = said(rules::edges(n, edges), rust);
    Case::new(kind, vec![vec![n as u64], table.iter().flat_map(|e| wide(e)).collect(), values, said, found])
}
