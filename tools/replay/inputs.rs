//! Inputs of every size around the word's edges, some with one thing wrong that the Rust can be given.
use original::Eq;

pub use crate::shared::{Random, Rows};

pub const EDGES: [usize; 10] = [0, 1, 2, 3, 63, 64, 65, 127, 128, 129];

pub fn size(r: &mut Random) -> usize {
    match r.below(8) {
        0..=4 => r.below(10),
        5 | 6 => r.below(40),
        _ => r.pick(&EDGES),
    }
}

fn distinct(r: &mut Random, n: usize, k: usize) -> Vec<u32> {
    let mut list: Vec<u32> = vec![];
    while list.len() < k.min(n) {
        let v = r.below(n) as u32;
        if !list.contains(&v) {
            list.push(v);
        }
    }
    list
}

fn variables(r: &mut Random, n: usize, way: usize, before: &[Eq]) -> Vec<u32> {
    let mut list = match way {
        0 | 1 => distinct(r, n, 3),
        2 => { let k = r.below(6); distinct(r, n, k) }
        3 => { let from = r.below(n); (from..n.min(from + 1 + r.below(4))).map(|v| v as u32).collect() }
        4 if n < 20 => (0..n as u32).filter(|_| r.below(2) == 0).collect(),
        5 if !before.is_empty() => {
            // one that was there before, or the sum of two
            let (a, b) = (&before[r.below(before.len())].0, &before[r.below(before.len())].0);
            if r.below(2) == 0 { a.clone() } else { (0..n as u32).filter(|v| a.contains(v) != b.contains(v)).collect() }
        }
        _ => distinct(r, n, 2),
    };
    list.sort();
    list
}

/// Constants of some width: planted, planted with one bit wrong, or any.
pub fn system(r: &mut Random, n: usize, m: usize) -> Vec<Eq> {
    let mask = !0u64 >> (64 - r.pick(&[1, 2, 8, 8, 8, 16, 16, 64]));
    let planted: Vec<u64> = (0..n).map(|_| r.word() & mask).collect();
    let (way, constants) = (r.below(7), r.below(6));
    let mut eqs: Vec<Eq> = vec![];
    for _ in 0..m {
        let own = if r.below(6) == 0 { r.below(7) } else { way };
        let vars = variables(r, n, own, &eqs);
        let met = vars.iter().fold(0, |c, &v| c ^ planted[v as usize]);
        eqs.push((vars, if constants == 5 { r.word() & mask } else { met }));
    }
    if constants == 4 && m > 0 {
        eqs[r.below(m)].1 ^= mask & !(mask >> 1);
    }
    eqs
}

/// A variable that is not there, one twice, or two in the wrong order.
pub fn damage_system(r: &mut Random, n: usize, eqs: &mut [Eq]) {
    let m = eqs.len();
    if m == 0 {
        return;
    }
    let list = &mut eqs[r.below(m)].0;
    match r.below(3) {
        0 => list.push(n as u32 + r.below(2) as u32),
        1 if !list.is_empty() => { let i = r.below(list.len()); list.insert(i, list[i]) }
        _ => list.reverse(),
    }
}

/// One bit wrong, or a cell too many or too few.
pub fn damage_solution(r: &mut Random, x: &mut Vec<u64>) {
    let n = x.len();
    match r.below(4) {
        0 => x.push(0),
        1 if n > 0 => { x.pop(); }
        _ if n > 0 => x[r.below(n)] ^= 1 << r.below(8),
        _ => {}
    }
}

/// The equations as rows, perhaps wider than need be; a damaged one has a bit past n, is too short, or has too many columns.
pub fn rows(r: &mut Random, n: usize, eqs: &[Eq], damage: bool) -> Rows {
    let (w, m) = (n.div_ceil(64) + r.below(5) / 4, eqs.len());
    let mut rows = vec![0; m * w];
    for (i, e) in eqs.iter().enumerate() {
        for &v in e.0.iter().filter(|&&v| (v as usize) < n) {
            rows[i * w + v as usize / 64] |= 1 << (v % 64);
        }
    }
    let mut s = Rows { n, m, w, rows, constants: eqs.iter().map(|e| e.1).collect() };
    if damage {
        match r.below(4) {
            0 if !s.rows.is_empty() => { let i = r.below(s.rows.len()); s.rows[i] |= 1 << r.pick(&[n % 64, 63]) }
            1 => { s.rows.pop(); }
            2 => { s.constants.pop(); }
            _ => s.n = 64 * w + 1,
        }
    }
    s
}

/// Three vertices and a value each.
pub type Edges = Vec<([u32; 3], u64)>;

/// Few enough edges to be peeled, or too many; sometimes a vertex on 62 to 65 of them; sometimes a vertex twice or not there.
pub fn edges(r: &mut Random, n: usize) -> Edges {
    if n < 3 {
        return vec![];
    }
    let hub = n > 60 && r.below(6) == 0;
    let m = if hub { 62 + r.below(4) } else { (r.below(12) * n / 10).min(200) };
    let mask = !0u64 >> (64 - r.pick(&[8, 8, 16, 64]));
    let mut edges: Edges = (0..m).map(|_| {
        let mut e = distinct(r, n, 3);
        if hub && !e.contains(&7) {
            e[r.below(3)] = 7;
        }
        ([e[0], e[1], e[2]], r.word() & mask)
    }).collect();
    if m > 0 && r.below(6) == 0 {
        let e = &mut edges[r.below(m)].0;
        e[r.below(3)] = r.pick(&[e[0], e[1], n as u32]);
    }
    edges
}
