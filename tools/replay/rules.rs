//! The numbers 1 to 4 and 7 with their places, worked out from the rules on paper and from nothing of the proved code.
use crate::inputs::{Edges, Rows};
use original::Eq;

/// A number and a place; 0 where every rule is kept.
pub type Told = (u64, u64);

const KEPT: Told = (0, 0);
pub const MAX_VARIABLES: usize = 16_384;

fn increasing(list: &[u32]) -> bool {
    list.windows(2).all(|p| p[0] < p[1])
}

fn lowest(broken: impl Iterator<Item = bool>, number: u64) -> Told {
    broken.zip(0..).find(|p| p.0).map_or(KEPT, |p| (number, p.1))
}

pub fn system(n: usize, eqs: &[Eq]) -> Told {
    if n > MAX_VARIABLES {
        return (1, 0);
    }
    lowest(eqs.iter().map(|e| !increasing(&e.0) || e.0.iter().any(|&v| v as usize >= n)), 3)
}

pub fn check(n: usize, eqs: &[Eq], solution: &[u64]) -> Told {
    match system(n, eqs) {
        KEPT if solution.len() != n => (4, 0),
        told => told,
    }
}

pub fn sum(left: &Eq, right: &Eq) -> Told {
    lowest([left, right].iter().map(|e| !increasing(&e.0)), 3)
}

pub fn dense(s: &Rows) -> Told {
    if s.n > MAX_VARIABLES {
        return (1, 0);
    }
    if s.rows.len() < s.m * s.w || s.constants.len() < s.m || s.n > 64 * s.w {
        return (2, 0);
    }
    lowest((0..s.m).map(|i| (s.n..64 * s.w).any(|c| s.rows[i * s.w + c / 64] >> (c % 64) & 1 == 1)), 3)
}

pub fn edges(n: usize, edges: &Edges) -> Told {
    let wrong = |e: [u32; 3]| e[0] == e[1] || e[0] == e[2] || e[1] == e[2] || e.iter().any(|&v| v as usize >= n);
    let told = lowest(edges.iter().map(|e| wrong(e.0)), 3);
    if told != KEPT {
        return told;
    }
    lowest((0..n as u32).map(|v| edges.iter().filter(|e| e.0.contains(&v)).count() >= 64), 7)
}
