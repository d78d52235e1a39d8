//! Systems: all small ones, random ones of every size around the word's edges, and damaged ones.
use crate::calls::{Rows, System};
use crate::cases::{Areas, Case};
use crate::rules;
use crate::shrink::{exact, system};
use original::Eq;

pub use crate::shared::Random;

pub fn list(r: &mut Random, len: usize) -> Vec<u32> {
    r.words(len).into_iter().map(|x| x as u32).collect()
}

// ---- all small ones

/// Every list of `len` numbers below `base`.
pub fn tuples(base: usize, len: usize, mut each: impl FnMut(&[usize])) {
    let mut digits = vec![0; len];
    if base == 0 && len > 0 {
        return;
    }
    loop {
        each(&digits);
        let Some(at) = digits.iter().position(|&d| d + 1 < base) else { return };
        digits[..at].fill(0);
        digits[at] += 1;
    }
}

pub fn subset(n: usize, mask: usize) -> Vec<u32> {
    (0..n as u32).filter(|v| mask >> v & 1 == 1).collect()
}

/// Every system of m equations in n variables with constants below `values`.
pub fn all_systems(n: usize, m: usize, values: usize, mut each: impl FnMut(&[Eq])) {
    let sides: Vec<Eq> = (0..values << n).map(|k| (subset(n, k % (1 << n)), (k >> n) as u64)).collect();
    tuples(sides.len(), m, |t| each(&t.iter().map(|&k| sides[k].clone()).collect::<Vec<Eq>>()));
}

// ---- as lent

fn longer(mut a: Areas, slack: usize) -> Areas {
    a.numbers.resize(a.numbers.len() + slack, 9);
    a.words.resize(a.words.len() + slack, 9);
    a
}

pub fn sparse_case(n: usize, eqs: &[Eq], slack: usize) -> Case {
    Case::Sparse(system(n, eqs), longer(exact(n, rules::sparse_room(n, eqs.len())), slack))
}

pub fn lazy_case(n: usize, eqs: &[Eq], slack: usize) -> Case {
    let s = system(n, eqs);
    let a = exact(n, rules::lazy_room(n, s.m, s.vars.len()));
    Case::Lazy(s, longer(a, slack))
}

/// Column v of the equations is column place(v) of the rows.
pub fn rows_of(n: usize, w: usize, eqs: &[Eq], place: impl Fn(u32) -> usize) -> Rows {
    let mut rows = vec![0; eqs.len() * w];
    for (i, (vars, _)) in eqs.iter().enumerate() {
        for &v in vars {
            rows[i * w + place(v) / 64] |= 1 << (place(v) % 64);
        }
    }
    Rows { n, m: eqs.len(), w, rows, constants: eqs.iter().map(|e| e.1).collect() }
}

pub fn dense_case(mut s: Rows, slack: usize) -> Case {
    let a = longer(exact(s.n, rules::dense_room(s.m, s.w)), slack);
    s.rows.resize(s.rows.len() + slack, !0);
    s.constants.resize(s.constants.len() + slack, 9);
    Case::Dense(s, a)
}

// ---- random ones

const EDGES: [usize; 10] = [0, 1, 2, 3, 63, 64, 65, 127, 128, 129];

pub fn size(r: &mut Random) -> usize {
    match r.below(10) {
        0..=4 => r.below(9),
        5..=6 => r.below(33),
        7..=8 => r.pick(&EDGES),
        _ => r.below(131),
    }
}

fn distinct(r: &mut Random, n: usize, k: usize) -> Vec<u32> {
    let mut list: Vec<u32> = vec![];
    while list.len() < k.min(n) {
        let v = r.below(n) as u32;
        if !list.contains(&v) {
            list.push(v);
        }
    }
    list.sort();
    list
}

fn variables(r: &mut Random, n: usize, way: usize, eqs: &[Eq]) -> Vec<u32> {
    let chance = |r: &mut Random, part: usize| (0..n as u32).filter(|_| r.below(part) == 0).collect();
    match way {
        0 => distinct(r, n, 3),
        1 => { let k = r.below(6); distinct(r, n, k) }
        2 => chance(r, 2),
        3 => chance(r, n / 2 + 1),
        4 => chance(r, 10),
        5 => { let from = r.below(n); (from..n.min(from + 1 + r.below(4))).map(|v| v as u32).collect() }
        _ if !eqs.is_empty() => {
            // one that was there before, or the sum of two
            let (a, b) = (&eqs[r.below(eqs.len())].0, &eqs[r.below(eqs.len())].0);
            if r.below(2) == 0 { a.clone() } else { (0..n as u32).filter(|v| a.contains(v) != b.contains(v)).collect() }
        }
        _ => distinct(r, n, 2),
    }
}

/// A system, of constants of some width: planted, planted with one bit wrong, or any.
pub fn random_system(r: &mut Random) -> (usize, Vec<Eq>) {
    let (n, mut m) = (size(r), size(r));
    if r.below(2) == 0 {
        m = m.min(n + r.below(3));
    }
    let mask = !0u64 >> (64 - r.pick(&[1, 2, 8, 16, 32, 63, 64]));
    let planted: Vec<u64> = (0..n).map(|_| r.word() & mask).collect();
    let (way, constants) = (r.below(8), r.below(5));
    let mut eqs: Vec<Eq> = vec![];
    for _ in 0..m {
        let own = if way == 7 || r.below(6) == 0 { r.below(8) } else { way };
        let vars = variables(r, n, own, &eqs);
        let met = vars.iter().fold(0, |c, &v| c ^ planted[v as usize]);
        let c = match constants { 0..=2 => met, 3 => r.word() & mask, _ => 0 };
        eqs.push((vars, c));
    }
    if constants == 2 && m > 0 {
        let i = r.below(m);
        eqs[i].1 ^= mask & !(mask >> 1);
    }
    (n, eqs)
}

fn areas(r: &mut Random, n: usize, room: (usize, usize)) -> Areas {
    let (a, b) = (r.below(4), r.below(4));
    Areas { solution: r.words(n), numbers: list(r, room.0 + a), words: r.words(room.1 + b) }
}

/// The calls that one random system gives.
pub fn random_cases(r: &mut Random) -> Vec<Case> {
    let (n, eqs) = random_system(r);
    let s = system(n, &eqs);
    let mut all = vec![];
    for _ in 0..2 {
        let solved = std::panic::catch_unwind(|| original::sparse(n, &eqs)).ok().flatten();
        let mut x = match solved { Some(x) if r.below(4) > 0 => x, _ => r.words(n) };
        if n > 0 && r.below(2) == 0 {
            x[r.below(n)] ^= 1 << r.below(64);
        }
        all.push(Case::Check(s.clone(), x));
    }
    if eqs.len() > 1 {
        let (a, b) = (&eqs[0], &eqs[r.below(eqs.len())]);
        let slack = r.below(3);
        all.push(Case::Sum { left: a.0.clone(), right: b.0.clone(), left_c: a.1, right_c: b.1, out: list(r, a.0.len() + b.0.len() + slack) });
    }
    let a = areas(r, n, rules::lazy_room(n, s.m, s.vars.len()));
    all.push(Case::Lazy(s.clone(), a));
    let a = areas(r, n, rules::sparse_room(n, s.m));
    all.push(Case::Sparse(s, a));
    let w = n.div_ceil(64) + r.pick(&[0, 0, 0, 1, 2]);
    let mut rows = rows_of(n, w, &eqs, |v| v as usize);
    let (p, q) = (r.below(3), r.below(3));
    rows.rows.extend(r.words(p));
    rows.constants.extend(r.words(q));
    let a = areas(r, n, rules::dense_room(rows.m, w));
    all.push(Case::Dense(rows, a));
    all
}

// ---- damaged ones

pub fn resized<T: Clone>(r: &mut Random, list: &mut Vec<T>, with: T) {
    let len = match r.below(4) { 0 => 0, 1 => list.len() + 1, 2 => list.len() + r.below(5), _ => list.len().saturating_sub(1) };
    list.resize(len, with);
}

fn damage_areas(r: &mut Random, a: &mut Areas) {
    match r.below(3) {
        0 => resized(r, &mut a.solution, 5),
        1 => resized(r, &mut a.numbers, 5),
        _ => resized(r, &mut a.words, 5),
    }
}

fn damage_system(r: &mut Random, s: &mut System) {
    let t = s.vars.len();
    if s.starts.is_empty() {
        return;
    }
    match r.below(12) {
        0 => { let by = s.starts.len(); s.starts[r.below(by)] = r.pick(&[0, 1, t as u32, t as u32 + 1, u32::MAX]) }
        1 => resized(r, &mut s.starts, t as u32),
        2 => resized(r, &mut s.constants, 0),
        3 => resized(r, &mut s.vars, 0),
        4..=6 if t > 0 => {
            let (i, other) = (r.below(t), s.vars[r.below(t)]);
            s.vars[i] = r.pick(&[0, s.n as u32, s.n.wrapping_add(1) as u32, u32::MAX, other]);
        }
        7 | 8 if t > 1 => { let i = r.below(t - 1); s.vars.swap(i, i + 1) }
        9 => s.n = r.pick(&[0, 1, s.n.wrapping_add(1), s.n.saturating_sub(1), 16_384, 16_385, usize::MAX]),
        10 => s.m = r.pick(&[0, s.m.wrapping_add(1), s.m.saturating_sub(1), 16_384, 16_385, usize::MAX]),
        11 if r.below(50) == 0 => s.vars.resize(r.pick(&[65_535, 65_536, 65_537]), 0),
        _ => s.starts[0] = 1,
    }
}

fn damage_rows(r: &mut Random, s: &mut Rows) {
    match r.below(10) {
        0 => resized(r, &mut s.rows, 0),
        1 => resized(r, &mut s.constants, 0),
        2 => s.n = r.pick(&[0, 1, s.n.wrapping_add(1), s.n.saturating_sub(1), 64 * s.w.min(256), 64 * s.w.min(256) + 1, 16_384, 16_385, usize::MAX]),
        3 => s.m = r.pick(&[0, s.m.wrapping_add(1), s.m.saturating_sub(1), 16_384, 16_385, usize::MAX]),
        4 => s.w = r.pick(&[0, 1, s.w.wrapping_add(1), s.w.saturating_sub(1), 256, 257, usize::MAX]),
        _ if !s.rows.is_empty() => { let i = r.below(s.rows.len()); s.rows[i] |= 1 << r.pick(&[s.n % 64, s.n.wrapping_add(1) % 64, 63, 0, s.n.wrapping_sub(1) % 64]) }
        _ => s.rows.push(1),
    }
}

/// The calls of one random system, each with one to three things wrong.
pub fn damaged_cases(r: &mut Random) -> Vec<Case> {
    let mut all = random_cases(r);
    for case in &mut all {
        for _ in 0..1 + r.below(3) {
            match case {
                Case::Sum { left, right, out, .. } => {
                    let list = if r.below(2) == 0 { left } else { right };
                    match r.below(5) {
                        0 => resized(r, out, 3),
                        1 => resized(r, list, 3),
                        2 if list.len() > 1 => list.reverse(),
                        3 if r.below(50) == 0 => *list = (0..r.pick(&[65_536, 65_537])).collect(),
                        _ if !list.is_empty() => { let i = r.below(list.len()); list[i] = r.pick(&[0, 1, u32::MAX, list[0]]) }
                        _ => list.push(2),
                    }
                }
                Case::Check(s, x) => if r.below(3) == 0 { resized(r, x, 1) } else { damage_system(r, s) },
                Case::Sparse(s, a) | Case::Lazy(s, a) => if r.below(3) == 0 { damage_areas(r, a) } else { damage_system(r, s) },
                Case::Dense(s, a) | Case::Slow(s, a) => if r.below(3) == 0 { damage_areas(r, a) } else { damage_rows(r, s) },
                Case::Peel(..) | Case::Lookup { .. } => (),
            }
        }
    }
    all
}
