//! One call with all that it is lent, and the comparison with the Rust.
use crate::calls::{self, Answer, Lent, LentAreas, Rows, System};
use crate::graphs::{self, Graph, PeelAreas};
use crate::reference::{self, End};
use crate::rules;
use crate::shrink::{exact, system};
use std::panic::catch_unwind;

#[derive(Clone, Debug)]
pub struct Areas {
    pub solution: Vec<u64>,
    pub numbers: Vec<u32>,
    pub words: Vec<u64>,
}

#[derive(Clone, Debug)]
pub enum Case {
    Sum { left: Vec<u32>, right: Vec<u32>, left_c: u64, right_c: u64, out: Vec<u32> },
    Check(System, Vec<u64>),
    Sparse(System, Areas),
    Dense(Rows, Areas),
    Slow(Rows, Areas),
    Lazy(System, Areas),
    Peel(Graph, PeelAreas),
    Lookup { table: Vec<u64>, cells: [u32; 3] },
}

pub const ENGINES: [&str; 9] = ["sum", "check", "sparse", "dense", "slow", "lazy", "high", "low", "lookup"];

impl Case {
    pub fn engine(&self) -> usize {
        match self {
            Case::Sum { .. } => 0,
            Case::Check(..) => 1,
            Case::Sparse(..) => 2,
            Case::Dense(..) => 3,
            Case::Slow(..) => 4,
            Case::Lazy(..) => 5,
            Case::Peel(g, _) => if g.high { 6 } else { 7 },
            Case::Lookup { .. } => 8,
        }
    }

    /// How large the input is; the smallest differing one is shown.
    pub fn size(&self) -> usize {
        let of = |a: &Areas| a.solution.len() + a.numbers.len() + a.words.len();
        let ones = |c: &[u64]| c.iter().map(|c| c.count_ones() as usize).sum::<usize>();
        match self {
            Case::Sum { left, right, out, left_c, right_c } => left.len() + right.len() + out.len() + ones(&[*left_c, *right_c]),
            Case::Check(s, x) => s.starts.len() + s.vars.len() + s.constants.len() + x.len() + ones(x) + ones(&s.constants),
            Case::Sparse(s, a) | Case::Lazy(s, a) => s.starts.len() + s.vars.len() + s.constants.len() + ones(&s.constants) + of(a),
            Case::Dense(s, a) | Case::Slow(s, a) => s.rows.len() + s.constants.len() + ones(&s.rows) + ones(&s.constants) + of(a),
            Case::Peel(g, a) => g.size() + a.solution.len() + a.numbers.len() + a.bytes.len(),
            Case::Lookup { table, cells } => table.len() + ones(table) + cells.iter().map(|&c| c as usize).sum::<usize>(),
        }
    }
}

/// What a solver has to answer and to leave.
struct Expected {
    answer: Answer,
    areas: Areas,
}

/// The number given, where both sides agree; else what differs.
pub fn compare(case: &Case) -> Result<u32, String> {
    match case {
        Case::Sum { left, right, left_c, right_c, out } => compare_sum(left, right, *left_c, *right_c, out),
        Case::Check(s, x) => compare_check(s, x),
        Case::Sparse(s, a) => compare_system(s, a, calls::sparse, rules::sparse_room(s.n.min(1 << 20), s.m.min(1 << 20)), original::sparse, reference::sparse),
        Case::Lazy(s, a) => {
            let number = compare_system(s, a, calls::lazy, rules::lazy_room(s.n.min(1 << 20), s.m.min(1 << 20), s.vars.len()), original::lazy, reference::lazy)?;
            if number == 0 || number == 6 { sparse_too(s, number) } else { Ok(number) }
        }
        Case::Dense(s, a) => compare_rows(s, a, calls::dense),
        Case::Slow(s, a) => compare_rows(s, a, calls::slow),
        Case::Peel(g, a) => graphs::compare_peel(g, a),
        Case::Lookup { table, cells } => graphs::compare_lookup(table, *cells),
    }
}

type Engine<A> = fn(usize, &[original::Eq]) -> A;

/// A sparse system by one of its two engines; what solves it is also held to `check`, and what cancelled to the reference.
fn compare_system(s: &System, a: &Areas, call: fn(&System, &mut LentAreas) -> (Answer, u64), room: (usize, usize), run: Engine<Option<Vec<u64>>>, counts: Engine<(End, u64)>) -> Result<u32, String> {
    let mut lent = lend(a);
    let kept = s.clone();
    let (got, cancelled) = call(s, &mut lent);
    same("starts", &s.starts, &kept.starts)?;
    same("variables", &s.vars, &kept.vars)?;
    same("constants", &s.constants, &kept.constants)?;
    let before = ladder(rules::sparse(s), s.n, a, room);
    let number = settle(got, &lent, outcome(before, a, room, || run(s.n, &equations(s)))?)?;
    if number == 0 { checked(s, lent.solution.cells())?; }
    let total = if number == 0 || number == 6 { counted(s, (number == 0).then(|| lent.solution.cells()), counts)? } else { 0 };
    if cancelled == total { Ok(number) } else { Err(format!("cancelled: here {cancelled}, expected {total}")) }
}

/// How many variables cancel, by the reference, which first has to end as the Rust does.
fn counted(s: &System, rust: Option<&[u64]>, counts: Engine<(End, u64)>) -> Result<u64, String> {
    let equations = equations(s);
    let (end, total) = counts(s.n, &equations);
    reference::held(&end, &equations, rust).map(|_| total)
}

/// A dense system by one of its two engines, both held to the Rust's one.
fn compare_rows(s: &Rows, a: &Areas, call: fn(&Rows, &mut LentAreas) -> Answer) -> Result<u32, String> {
    let mut lent = lend(a);
    let kept = s.clone();
    let got = call(s, &mut lent);
    same("rows", &s.rows, &kept.rows)?;
    same("constants", &s.constants, &kept.constants)?;
    let number = settle(got, &lent, expect_dense(s, a)?)?;
    if number == 0 { checked(&system(s.n, &listed(s)), lent.solution.cells())?; }
    Ok(number)
}

/// A solution is what `check` says yes to.
pub fn checked(s: &System, solution: &[u64]) -> Result<(), String> {
    match calls::check(s, solution) {
        Answer(0, 0) => Ok(()),
        // the rows of a dense system may list more variables than a sparse one may have
        Answer(1, 0) if s.vars.len() > 65_536 => Ok(()),
        other => Err(format!("check says {other:?} to the solution")),
    }
}

/// The equations of a dense system.
fn listed(s: &Rows) -> Vec<original::Eq> {
    let row = |i: usize| (0..s.n).filter(|c| s.rows[i * s.w + c / 64] >> (c % 64) & 1 == 1).map(|c| c as u32).collect();
    (0..s.m).map(|i| (row(i), s.constants[i])).collect()
}

/// Sparse elimination solves what lazy elimination solves.
fn sparse_too(s: &System, number: u32) -> Result<u32, String> {
    let (got, _) = calls::sparse(s, &mut lend(&exact(s.n, rules::sparse_room(s.n, s.m))));
    if got == Answer(number, 0) { Ok(number) } else { Err(format!("lazy says {number}, sparse {got:?}")) }
}

fn lend(a: &Areas) -> LentAreas {
    LentAreas { solution: Lent::new(&a.solution), numbers: Lent::new(&a.numbers), words: Lent::new(&a.words) }
}

pub fn same<T: PartialEq + std::fmt::Debug>(what: &str, got: &[T], expected: &[T]) -> Result<(), String> {
    if got == expected { Ok(()) } else { Err(format!("{what}: here {got:?}, expected {expected:?}")) }
}

fn settle(got: Answer, lent: &LentAreas, e: Expected) -> Result<u32, String> {
    if got != e.answer {
        return Err(format!("answer: here {got:?}, expected {:?}", e.answer));
    }
    same("solution", lent.solution.cells(), &e.areas.solution)?;
    same("numbers", lent.numbers.cells(), &e.areas.numbers)?;
    same("words", lent.words.cells(), &e.areas.words)?;
    if !(lent.solution.margins_kept() && lent.numbers.margins_kept() && lent.words.margins_kept()) {
        return Err("a cell outside a lent slice was written".into());
    }
    Ok(got.0)
}

/// Refusals keep all; a run zeroes the room, and writes the solution where there is one.
fn outcome(before: Result<(), Answer>, a: &Areas, room: (usize, usize), run: impl FnOnce() -> Option<Vec<u64>> + std::panic::UnwindSafe) -> Result<Expected, String> {
    if let Err(answer) = before {
        return Ok(Expected { answer, areas: a.clone() });
    }
    let solved = catch_unwind(run).map_err(|_| "the Rust panics".to_string())?;
    let mut areas = a.clone();
    areas.numbers[..room.0].fill(0);
    areas.words[..room.1].fill(0);
    let answer = match solved {
        Some(x) => {
            areas.solution = x;
            Answer(0, 0)
        }
        None => Answer(6, 0),
    };
    Ok(Expected { answer, areas })
}

pub fn equations(s: &System) -> Vec<original::Eq> {
    (0..s.m).map(|i| (s.vars[s.starts[i] as usize..s.starts[i + 1] as usize].to_vec(), s.constants[i])).collect()
}

fn ladder(rules: Result<(), Answer>, n: usize, a: &Areas, room: (usize, usize)) -> Result<(), Answer> {
    rules?;
    rules::solution(n, a.solution.len())?;
    rules::room((a.numbers.len(), room.0), (a.words.len(), room.1))
}

fn expect_dense(s: &Rows, a: &Areas) -> Result<Expected, String> {
    let room = rules::dense_room(s.m.min(1 << 20), s.w.min(1 << 20));
    let before = ladder(rules::dense(s), s.n, a, room);
    outcome(before, a, room, || {
        let (mut rows, mut constants) = (s.rows[..s.m * s.w].to_vec(), s.constants[..s.m].to_vec());
        original::dense(&mut rows, &mut constants, s.m, s.w, s.n)
    })
}

fn compare_check(s: &System, x: &[u64]) -> Result<u32, String> {
    let got = calls::check(s, x);
    let before = rules::sparse(s).and_then(|_| rules::solution(s.n, x.len()));
    let expected = match before {
        Err(answer) => answer,
        Ok(()) => {
            let yes = catch_unwind(|| original::check(s.n, &equations(s), x)).map_err(|_| "the Rust panics".to_string())?;
            Answer(if yes { 0 } else { 6 }, 0)
        }
    };
    if got == expected { Ok(got.0) } else { Err(format!("answer: here {got:?}, expected {expected:?}")) }
}

fn compare_sum(left: &[u32], right: &[u32], left_c: u64, right_c: u64, out: &[u32]) -> Result<u32, String> {
    let mut lent = Lent::new(out);
    let (got, len, constant, cancelled) = calls::sum(left, right, left_c, right_c, &mut lent);
    if !lent.margins_kept() {
        return Err("a cell outside the output was written".into());
    }
    if let Err(answer) = rules::sum(left, right, out.len()) {
        if (got, len, constant, cancelled) != (answer, 0, 0, 0) {
            return Err(format!("answer: here {got:?} {len} {constant} {cancelled}, expected {answer:?} 0 0 0"));
        }
        return same("output", lent.cells(), out).map(|_| got.0);
    }
    let total = left.len() + right.len();
    let rust = catch_unwind(|| original::sum(&(left.to_vec(), left_c), &(right.to_vec(), right_c))).map_err(|_| "the Rust panics".to_string())?;
    if got != Answer(0, 0) || len > total {
        return Err(format!("answer: here {got:?} {len}, expected a sum"));
    }
    let here = format!("Modulo2Equation {{ vars: {:?}, c: {:?} }}", &lent.cells()[..len], constant);
    if here != rust {
        return Err(format!("here {here}, the Rust {rust}"));
    }
    let both = left.iter().filter(|v| right.binary_search(v).is_ok()).count();
    if cancelled != both {
        return Err(format!("cancelled: here {cancelled}, expected {both}"));
    }
    if lent.cells()[len..total].iter().any(|&v| v != 0) {
        return Err("no zeros up to the two lengths together".into());
    }
    same("output past both lengths", &lent.cells()[total..], &out[total..])?;
    Ok(0)
}
