//! The largest sizes and one above each; every small system that breaks a rule.
use crate::Tally;
use crate::calls::{Rows, System};
use crate::cases::{Areas, Case};
use crate::generate::{Random, dense_case, lazy_case, rows_of, sparse_case, tuples};
use crate::rules;
use crate::shrink::{exact, system};

/// Lengths just below, at and above.
pub fn around(k: usize) -> std::ops::Range<usize> {
    k.saturating_sub(1)..k + 2
}

fn areas(solution: usize, numbers: usize, words: usize) -> Areas {
    Areas { solution: vec![8; solution], numbers: vec![8; numbers], words: vec![8; words] }
}

/// Every sparse, lazy and dense call with small n, m, lists and areas, whether or not it keeps the rules.
pub fn all_small_damaged(level: usize, tally: &mut Tally) {
    let most = [1, 2, 2][level];
    let each_list = |most_len: usize, base: usize| {
        let mut lists = vec![];
        (0..=most_len).for_each(|len| tuples(base, len, |t| lists.push(t.to_vec())));
        lists
    };
    let (starts, vars) = (each_list(most + 2, most + 1), each_list(most, 3));
    for (n, m) in (0..=most).flat_map(|n| (0..=most).map(move |m| (n, m))) {
        for (s, v) in starts.iter().flat_map(|s| vars.iter().map(move |v| (s, v))) {
            for constants in around(m) {
                let s = System { n, m, starts: s.iter().map(|&x| x as u32).collect(), vars: v.iter().map(|&x| x as u32).collect(), constants: vec![1; constants] };
                for solution in around(n) {
                    tally.meet(Case::Check(s.clone(), vec![1; solution]));
                    let room = rules::sparse_room(n, m);
                    for (p, q) in around(room.0).flat_map(|p| around(room.1).map(move |q| (p, q))) {
                        tally.meet(Case::Sparse(s.clone(), areas(solution, p, q)));
                    }
                    let room = rules::lazy_room(n, m, v.len());
                    for (p, q) in around(room.0).flat_map(|p| around(room.1).map(move |q| (p, q))) {
                        tally.meet(Case::Lazy(s.clone(), areas(solution, p, q)));
                    }
                }
            }
        }
    }
    let rows = each_list(most + 1, 5);
    for (n, m, w) in [0, 1, 2, 63, 64, 65].iter().flat_map(|&n| (0..=most).flat_map(move |m| (0..=most).map(move |w| (n, m, w)))) {
        for (row, constants) in rows.iter().flat_map(|r| around(m).map(move |c| (r, c))) {
            let rows = row.iter().map(|&k| [0, 1, 2, 3, 1 << 63][k]).collect();
            let s = Rows { n, m, w, rows, constants: vec![1; constants] };
            let room = rules::dense_room(m, w);
            for solution in around(n) {
                for (p, q) in around(room.0).flat_map(|p| around(room.1).map(move |q| (p, q))) {
                    tally.meet(Case::Dense(s.clone(), areas(solution, p, q)));
                }
            }
        }
    }
}

/// The largest sizes of the rules on paper, and one above each.
pub fn largest(tally: &mut Tally) {
    let mut r = Random(1);
    for n in [16_383, 16_384, 16_385] {
        let eqs: Vec<original::Eq> = (0..4).map(|i| (vec![i, i + 1, n as u32 - 1], r.word())).collect();
        tally.meet(sparse_case(n, &eqs, 1));
        tally.meet(lazy_case(n, &eqs, 1));
        tally.meet(dense_case(rows_of(n, 256, &eqs, |v| (v as usize).min(16_383)), 1));
        tally.meet(Case::Check(system(n, &eqs), vec![0; n]));
    }
    for m in [16_383, 16_384, 16_385] {
        let eqs: Vec<original::Eq> = (0..m).map(|i| (vec![(i % 3) as u32, 3], 5)).collect();
        tally.meet(sparse_case(4, &eqs, 1));
        tally.meet(lazy_case(4, &eqs, 1));
        tally.meet(dense_case(rows_of(4, 1, &eqs, |v| v as usize), 1));
        tally.meet(Case::Check(system(4, &eqs), vec![5, 5, 5, 0]));
    }
    for t in [65_535, 65_536, 65_537] {
        let mut left = t;
        let mut eqs: Vec<original::Eq> = vec![];
        while left > 0 {
            let k = left.min(6000);
            eqs.push(((0..k as u32).collect(), r.word()));
            left -= k;
        }
        tally.meet(sparse_case(6001, &eqs, 1));
        tally.meet(lazy_case(6001, &eqs, 1));
        tally.meet(Case::Check(system(6001, &eqs), vec![3; 6001]));
        let list: Vec<u32> = (0..t as u32).collect();
        for (left, right) in [(&list[..], &[][..]), (&[], &list), (&list, &list)] {
            tally.meet(Case::Sum { left: left.to_vec(), right: right.to_vec(), left_c: 1, right_c: 2, out: vec![7; left.len() + right.len()] });
        }
    }
    for w in [255, 256, 257] {
        let s = Rows { n: 64 * 255, m: 3, w, rows: (0..3 * w).map(|k| if k % w < 255 { r.word() } else { 0 }).collect(), constants: vec![1, 2, 3] };
        let a = exact(s.n, rules::dense_room(3, w));
        tally.meet(Case::Dense(s, a));
    }
}
