//! The peelers and lookup: what a call is lent, and the comparison with the Rust.
use crate::calls::{self, Answer, Edge, Lent, LentPeelAreas, Told};
use crate::cases::{checked, same};
use crate::rules;
use crate::shrink::system;
use std::panic::catch_unwind;

/// Edges, and the peeler that is called.
#[derive(Clone, Debug)]
pub struct Graph {
    pub high: bool,
    pub n: usize,
    pub edges: Vec<Edge>,
}

#[derive(Clone, Debug)]
pub struct PeelAreas {
    pub solution: Vec<u64>,
    pub numbers: Vec<u32>,
    pub bytes: Vec<u8>,
}

impl Graph {
    pub fn size(&self) -> usize {
        4 * self.edges.len() + self.edges.iter().map(|e| e.value.count_ones() as usize).sum::<usize>()
    }
}

/// Areas of exactly the room, with something in every cell.
pub fn exact(g: &Graph) -> PeelAreas {
    let room = rules::peel_room(g.high, g.n, g.edges.len());
    PeelAreas { solution: vec![7; g.n], numbers: vec![7; room.0], bytes: vec![7; room.1] }
}

fn lend(a: &PeelAreas) -> LentPeelAreas {
    LentPeelAreas { solution: Lent::new(&a.solution), numbers: Lent::new(&a.numbers), bytes: Lent::new(&a.bytes) }
}

const NO_REPORT: Told = Told { number: 0, place: 0, peeled: 0, edges: 0, unpeeled: 0.0 };

fn numbered(a: Answer) -> Told {
    Told { number: a.0, place: a.1, ..NO_REPORT }
}

/// Edges peeled of a stuck run, read from the line that the Rust logs, which must tell the same percentage.
fn stuck(line: &str, m: usize) -> Result<Told, String> {
    let word = |after: &str| line.split(after).nth(1).and_then(|t| t.split_whitespace().next()).unwrap_or("").to_string();
    let peeled: usize = word("(peeled ").parse().map_err(|_| format!("no count in the Rust's line: {line}"))?;
    let unpeeled = 100.0 * (m - peeled) as f64 / m as f64;
    if word("edges, ") != format!("{unpeeled:.2}%") || word(" out of ") != m.to_string() {
        return Err(format!("the Rust's line says otherwise: {line}"));
    }
    Ok(Told { number: 8, place: peeled, peeled, edges: m, unpeeled })
}

/// What the Rust answers for edges that keep their rule; None is the panic at a vertex on too many edges.
fn original_run(g: &Graph) -> Option<Result<Vec<u64>, String>> {
    let edges = g.edges.iter().map(|e| e.vertices).collect();
    let values: Vec<u64> = g.edges.iter().map(|e| e.value).collect();
    let (n, low) = (g.n, !g.high);
    catch_unwind(move || {
        let mut log = original::Log::default();
        original::run(original::ready(n, edges, &values), low, &mut log).ok_or(log.0)
    })
    .ok()
}

/// What a peeler has to tell and to leave.
fn expect(g: &Graph, a: &PeelAreas) -> Result<(Told, PeelAreas), String> {
    let room = rules::peel_room(g.high, g.n.min(1 << 20), g.edges.len());
    let before = rules::edges(g.n, &g.edges).and_then(|_| rules::solution(g.n, a.solution.len())).and_then(|_| rules::room((a.numbers.len(), room.0), (a.bytes.len(), room.1)));
    if let Err(answer) = before {
        return Ok((numbered(answer), a.clone()));
    }
    let mut left = a.clone();
    left.numbers[..room.0].fill(0);
    left.bytes[..room.1].fill(0);
    let told = match (rules::crowded(g.n, &g.edges), original_run(g)) {
        (Some(v), None) => numbered(Answer(7, v)),
        (Some(_), Some(_)) => return Err("a vertex lies on 64 edges, and the Rust answers".into()),
        (None, None) => return Err("the Rust panics".into()),
        (None, Some(Err(line))) => stuck(&line, g.edges.len())?,
        (None, Some(Ok(cells))) => {
            left.solution = cells;
            NO_REPORT
        }
    };
    Ok((told, left))
}

pub fn compare_peel(g: &Graph, a: &PeelAreas) -> Result<u32, String> {
    let mut lent = lend(a);
    let kept = g.edges.clone();
    let got = calls::peel(g.high, g.n, &g.edges, &mut lent);
    same("edges", &g.edges, &kept)?;
    let (told, left) = expect(g, a)?;
    if got != told {
        return Err(format!("answer: here {got:?}, expected {told:?}"));
    }
    same("solution", lent.solution.cells(), &left.solution)?;
    same("numbers", lent.numbers.cells(), &left.numbers)?;
    same("bytes", lent.bytes.cells(), &left.bytes)?;
    if !(lent.solution.margins_kept() && lent.numbers.margins_kept() && lent.bytes.margins_kept()) {
        return Err("a cell outside a lent slice was written".into());
    }
    if matches!(got.number, 0 | 7 | 8) {
        agree(g, &got, lent.solution.cells(), a)?;
    }
    Ok(got.number)
}

/// The other peeler answers the same; a solution is what `check` says yes to, and `lookup` finds every value in it.
fn agree(g: &Graph, got: &Told, solution: &[u64], a: &PeelAreas) -> Result<(), String> {
    let other = Graph { high: !g.high, ..g.clone() };
    let mut lent = lend(&PeelAreas { solution: a.solution.clone(), ..exact(&other) });
    let told = calls::peel(other.high, g.n, &g.edges, &mut lent);
    if told != *got || lent.solution.cells() != solution {
        return Err(format!("the other peeler: {told:?}, {:?}", lent.solution.cells()));
    }
    if got.number != 0 {
        return Ok(());
    }
    let eqs: Vec<original::Eq> = g.edges.iter().map(|e| { let mut v = e.vertices.to_vec(); v.sort(); (v, e.value) }).collect();
    checked(&system(g.n, &eqs), solution)?;
    match g.edges.iter().find(|e| calls::lookup(solution, e.vertices) != (Answer(0, 0), e.value)) {
        Some(e) => Err(format!("lookup does not find the value of {e:?}")),
        None => Ok(()),
    }
}

pub fn compare_lookup(table: &[u64], cells: [u32; 3]) -> Result<u32, String> {
    let got = calls::lookup(table, cells);
    let expected = match rules::lookup(table, cells) {
        Err(answer) => (answer, 0),
        Ok(()) => (Answer(0, 0), cells.iter().fold(0, |x, &c| x ^ table[c as usize])),
    };
    if got == expected { Ok(got.0.0) } else { Err(format!("here {got:?}, expected {expected:?}")) }
}
