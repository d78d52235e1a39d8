//! Makes a differing case smaller while it differs.
use crate::calls::System;
use crate::cases::{Areas, Case, compare, equations};
use crate::graph_inputs;
use crate::rules;

/// A case like the given one that still differs, from which nothing can be left out.
pub fn smallest(case: Case) -> Case {
    let mut best = case;
    while let Some(next) = simpler(&best).into_iter().find(|c| c.size() < best.size() && compare(c).is_err()) {
        best = next;
    }
    best
}

/// The system of these equations as it is lent.
pub fn system(n: usize, eqs: &[original::Eq]) -> System {
    let mut s = System { n, m: eqs.len(), starts: vec![0], vars: vec![], constants: vec![] };
    for (vars, c) in eqs {
        s.vars.extend(vars);
        s.starts.push(s.vars.len() as u32);
        s.constants.push(*c);
    }
    s
}

/// Areas of exactly the room, with something in every cell.
pub fn exact(n: usize, room: (usize, usize)) -> Areas {
    Areas { solution: vec![7; n], numbers: vec![7; room.0], words: vec![7; room.1] }
}

fn simpler_systems(s: &System) -> Vec<System> {
    if rules::sparse(s).is_err() {
        return vec![];
    }
    let eqs = equations(s);
    let mut all = vec![];
    for i in 0..s.m {
        let mut fewer = eqs.clone();
        fewer.remove(i);
        all.push(system(s.n, &fewer));
        for k in 0..eqs[i].0.len() {
            let mut shorter = eqs.clone();
            shorter[i].0.remove(k);
            all.push(system(s.n, &shorter));
        }
        for c in [0, 1] {
            let mut plainer = eqs.clone();
            plainer[i].1 = c;
            all.push(system(s.n, &plainer));
        }
    }
    if s.n > 0 && s.vars.iter().all(|&v| (v as usize) < s.n - 1) {
        all.push(System { n: s.n - 1, ..s.clone() });
    }
    for v in 0..s.n as u32 {
        if !s.vars.contains(&v) {
            let lower = s.vars.iter().map(|&u| if u > v { u - 1 } else { u }).collect();
            all.push(System { n: s.n - 1, vars: lower, ..s.clone() });
        }
    }
    all
}

fn simpler(case: &Case) -> Vec<Case> {
    match case {
        Case::Sum { left, right, left_c, right_c, out } => {
            let again = |l: &[u32], r: &[u32], lc, rc| Case::Sum { left: l.to_vec(), right: r.to_vec(), left_c: lc, right_c: rc, out: vec![7; l.len() + r.len()] };
            let mut all = vec![again(left, right, 0, 0), again(left, right, *left_c, *right_c)];
            for k in 0..left.len() {
                all.push(again(&[&left[..k], &left[k + 1..]].concat(), right, *left_c, *right_c));
            }
            for k in 0..right.len() {
                all.push(again(left, &[&right[..k], &right[k + 1..]].concat(), *left_c, *right_c));
            }
            let _ = out;
            all
        }
        Case::Check(s, x) => simpler_systems(s).into_iter().map(|s| { let x = x[..s.n.min(x.len())].to_vec(); Case::Check(s, x) }).collect(),
        Case::Sparse(s, _) | Case::Lazy(s, _) => {
            let lazy = matches!(case, Case::Lazy(..));
            let lent = |s: System| {
                let room = if lazy { rules::lazy_room(s.n, s.m, s.vars.len()) } else { rules::sparse_room(s.n, s.m) };
                let a = exact(s.n, room);
                if lazy { Case::Lazy(s, a) } else { Case::Sparse(s, a) }
            };
            let mut all: Vec<Case> = simpler_systems(s).into_iter().map(lent).collect();
            if rules::sparse(s).is_ok() {
                all.push(lent(s.clone()));
            }
            all
        }
        Case::Peel(g, _) => graph_inputs::simpler(g),
        Case::Lookup { table, cells } => (0..table.len()).map(|k| { let mut t = table.clone(); t.remove(k); Case::Lookup { table: t, cells: *cells } }).collect(),
        Case::Dense(s, _) | Case::Slow(s, _) => {
            if rules::dense(s).is_err() {
                return vec![];
            }
            let mut all = vec![];
            let slow = matches!(case, Case::Slow(..));
            let mut lent = |s: crate::calls::Rows| {
                let a = exact(s.n, rules::dense_room(s.m, s.w));
                all.push(if slow { Case::Slow(s, a) } else { Case::Dense(s, a) })
            };
            let mut trimmed = s.clone();
            trimmed.rows.truncate(s.m * s.w);
            trimmed.constants.truncate(s.m);
            lent(trimmed.clone());
            for i in 0..s.m {
                let mut fewer = trimmed.clone();
                fewer.rows.drain(i * s.w..(i + 1) * s.w);
                fewer.constants.remove(i);
                fewer.m -= 1;
                lent(fewer);
                for c in [0, 1] {
                    let mut plainer = trimmed.clone();
                    plainer.constants[i] = c;
                    lent(plainer);
                }
            }
            for at in 0..trimmed.rows.len() {
                for bit in 0..64 {
                    if trimmed.rows[at] >> bit & 1 == 1 {
                        let mut lighter = trimmed.clone();
                        lighter.rows[at] ^= 1 << bit;
                        lent(lighter);
                    }
                }
            }
            if s.n > 0 {
                lent(crate::calls::Rows { n: s.n - 1, ..trimmed });
            }
            all
        }
    }
}
