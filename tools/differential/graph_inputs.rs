//! Graphs for the peelers and tables for lookup: all small ones, random ones, damaged ones, and those of the largest sizes.
use crate::Tally;
use crate::calls::Edge;
use crate::cases::Case;
use crate::generate::{Random, list, resized, tuples};
use crate::graphs::{Graph, PeelAreas, exact};
use crate::limits::around;
use crate::rules;

// ---- all small ones

/// Every edge over n vertices: three different ones, in every order.
fn all_edges(n: usize) -> Vec<[u32; 3]> {
    let mut all = vec![];
    tuples(n, 3, |t| {
        if t[0] != t[1] && t[0] != t[2] && t[1] != t[2] {
            all.push([t[0] as u32, t[1] as u32, t[2] as u32]);
        }
    });
    all
}

fn meet_both(n: usize, edges: Vec<Edge>, slack: usize, tally: &mut Tally) {
    for high in [true, false] {
        let g = Graph { high, n, edges: edges.clone() };
        let mut a = exact(&g);
        a.numbers.resize(a.numbers.len() + slack, 9);
        a.bytes.resize(a.bytes.len() + slack, 9);
        tally.meet(Case::Peel(g, a));
    }
}

/// n and m of the graphs at each level.
const LEVELS: [&[(usize, usize)]; 3] = [&[(4, 3)], &[(4, 4), (5, 3)], &[(6, 3), (5, 4)]];

/// Each edge has a value of its own bit, so a cell shows which values came into it.
pub fn exhaustive(level: usize, tally: &mut Tally) {
    for &(most_n, most_m) in LEVELS[level] {
        for (n, m) in (0..=most_n).flat_map(|n| (0..=most_m).map(move |m| (n, m))) {
            let edges = all_edges(n);
            tuples(edges.len(), m, |t| meet_both(n, t.iter().enumerate().map(|(i, &k)| Edge { vertices: edges[k], value: 1 << i }).collect(), m % 2, tally));
        }
    }
    for n in 0..=[2, 3, 3][level] {
        tuples(n + 1, 3, |t| small_damaged(n, [t[0] as u32, t[1] as u32, t[2] as u32], tally));
    }
    for len in 0..=[3, 4, 5][level] {
        tuples(len + 2, 3, |t| tally.meet(Case::Lookup { table: (0..len).map(|k| 1 << k).collect(), cells: [t[0] as u32, t[1] as u32, t[2] as u32] }));
    }
}

/// An edge that may break its rule, first or second, with solutions and areas that are one shorter, exact and one longer.
fn small_damaged(n: usize, vertices: [u32; 3], tally: &mut Tally) {
    let (good, any) = (Edge { vertices: [0, 1, 2], value: 1 }, Edge { vertices, value: 2 });
    for edges in [vec![any], vec![good, any], vec![any, good]] {
        for high in [true, false] {
            let room = rules::peel_room(high, n, edges.len());
            for solution in around(n) {
                for (p, q) in around(room.0).flat_map(|p| around(room.1).map(move |q| (p, q))) {
                    tally.meet(Case::Peel(Graph { high, n, edges: edges.clone() }, PeelAreas { solution: vec![8; solution], numbers: vec![8; p], bytes: vec![8; q] }));
                }
            }
        }
    }
}

// ---- random ones

fn three(r: &mut Random, n: usize, from: usize, width: usize) -> [u32; 3] {
    loop {
        let mut at = || ((from + r.below(width)) % n) as u32;
        let v = [at(), at(), at()];
        if v[0] != v[1] && v[0] != v[2] && v[1] != v[2] {
            return v;
        }
    }
}

/// Edges over at least three vertices.
fn random_edges(r: &mut Random, n: usize, m: usize, way: usize) -> Vec<[u32; 3]> {
    let mut edges: Vec<[u32; 3]> = vec![];
    for i in 0..m {
        let e = match way {
            // neighbours, as a fuse graph has them
            1 => { let from = r.below(n); three(r, n, from, 8.min(n)) }
            // one new vertex an edge: these all peel, but where the tail is closed
            2 if i + 3 <= n => { let mut e = three(r, i + 3, 0, i + 3); if !e.contains(&(i as u32 + 2)) { e[r.below(3)] = i as u32 + 2 } e }
            // one that was there before, its vertices in another order
            3 if i > 0 && r.below(4) == 0 => { let mut e = edges[r.below(i)]; e.rotate_left(r.below(3)); if r.below(2) == 0 { e.swap(0, 1) } e }
            // a vertex that many edges share
            4 => { let mut e = three(r, n, 0, n); if !e.contains(&0) && r.below(8) > 0 { e[r.below(3)] = 0 } e }
            _ => three(r, n, 0, n),
        };
        edges.push(e);
    }
    edges
}

fn random_graph(r: &mut Random) -> (usize, Vec<Edge>) {
    let way = r.below(6);
    let n = match r.below(8) { 0..=4 => 3 + r.below(9), 5 => 3 + r.below(30), 6 => r.pick(&[3, 63, 64, 65, 127, 128, 129]), _ => 3 + r.below(127) };
    let m = match (way, r.below(6)) {
        (4, 0..=2) => r.pick(&[60, 62, 63, 64, 65, 66, 70]),
        (_, 0) => r.below(n + 3),
        (_, 1) => r.below(4),
        _ => (n * r.pick(&[4, 6, 7, 8, 9]) / 10).max(1),
    };
    let mask = !0u64 >> (64 - r.pick(&[1, 8, 32, 63, 64]));
    let edges = random_edges(r, n, m, way).into_iter().map(|vertices| Edge { vertices, value: r.word() & mask }).collect();
    (n, edges)
}

/// Both peelers on one random graph, and a lookup.
pub fn random_cases(r: &mut Random) -> Vec<Case> {
    let (n, edges) = random_graph(r);
    let mut all = vec![];
    for high in [true, false] {
        let room = rules::peel_room(high, n, edges.len());
        let (p, q) = (r.below(4), r.below(4));
        let bytes = (0..room.1 + q).map(|_| r.word() as u8).collect();
        all.push(Case::Peel(Graph { high, n, edges: edges.clone() }, PeelAreas { solution: r.words(n), numbers: list(r, room.0 + p), bytes }));
    }
    let most = n + r.below(2);
    let cells = [0; 3].map(|_: u32| r.below(most) as u32);
    all.push(Case::Lookup { table: r.words(n), cells });
    all
}

// ---- damaged ones

fn damage_graph(r: &mut Random, g: &mut Graph, a: &mut PeelAreas) {
    let m = g.edges.len();
    match r.below(9) {
        0 => resized(r, &mut a.solution, 5),
        1 => resized(r, &mut a.numbers, 5),
        2 => resized(r, &mut a.bytes, 5),
        3 => g.n = r.pick(&[0, 1, g.n.wrapping_add(1), g.n.saturating_sub(1), 16_384, 16_385, usize::MAX]),
        4 if r.below(50) == 0 => g.edges.resize(r.pick(&[16_384, 16_385]), Edge { vertices: [0, 1, 2], value: 1 }),
        5..=7 if m > 0 => {
            let (i, side, other) = (r.below(m), r.below(3), r.below(3));
            g.edges[i].vertices[side] = r.pick(&[g.n as u32, g.n.wrapping_sub(1) as u32, u32::MAX, g.edges[i].vertices[other]]);
        }
        _ => g.edges.push(Edge { vertices: [1, 0, r.below(g.n.min(1 << 20)) as u32], value: 1 }),
    }
}

/// The calls of one random graph, each with one to three things wrong.
pub fn damaged_cases(r: &mut Random) -> Vec<Case> {
    let mut all = random_cases(r);
    for case in &mut all {
        for _ in 0..1 + r.below(3) {
            match case {
                Case::Peel(g, a) => damage_graph(r, g, a),
                Case::Lookup { table, cells } => match r.below(4) {
                    0 if r.below(50) == 0 => table.resize(r.pick(&[16_383, 16_384, 16_385]), 3),
                    0 => resized(r, table, 3),
                    _ => cells[r.below(3)] = r.pick(&[table.len() as u32, table.len().wrapping_sub(1) as u32, u32::MAX, cells[0]]),
                },
                _ => (),
            }
        }
    }
    all
}

// ---- the largest ones

/// The largest n, m and degree, and one above each.
pub fn largest(tally: &mut Tally) {
    let mut r = Random(2);
    for n in [16_383, 16_384, 16_385] {
        for m in [4, n * 7 / 10, n * 9 / 10] {
            meet_both(n, random_edges(&mut r, n, m, 0).into_iter().map(|vertices| Edge { vertices, value: r.word() }).collect(), 1, tally);
        }
        for cells in [[0, 1, n as u32 - 1], [n as u32, 1, 2]] {
            tally.meet(Case::Lookup { table: r.words(n), cells });
        }
    }
    for m in [16_383, 16_384, 16_385] {
        meet_both(1000, random_edges(&mut r, 1000, m, 0).into_iter().map(|vertices| Edge { vertices, value: 1 }).collect(), 1, tally);
        meet_both(16_384, random_edges(&mut r, 16_384, m, 2).into_iter().map(|vertices| Edge { vertices, value: r.word() }).collect(), 1, tally);
    }
    for m in [62, 63, 64, 65, 255, 256, 257] {
        // the hub is vertex 2, at each side
        for side in 0..3 {
            let edge = |i: usize| { let mut v = [3 + 2 * i as u32, 4 + 2 * i as u32, 2]; v.rotate_left(side); v };
            meet_both(3 + 2 * m, (0..m).map(|i| Edge { vertices: edge(i), value: r.word() }).collect(), 0, tally);
        }
    }
}

/// Graphs with an edge or a vertex fewer, or a plainer value.
pub fn simpler(g: &Graph) -> Vec<Case> {
    if rules::edges(g.n, &g.edges).is_err() {
        return vec![];
    }
    let mut all = vec![g.clone()];
    for i in 0..g.edges.len() {
        let mut fewer = g.clone();
        fewer.edges.remove(i);
        all.push(fewer);
        for value in [0, 1] {
            let mut plainer = g.clone();
            plainer.edges[i].value = value;
            all.push(plainer);
        }
    }
    for v in (0..g.n as u32).filter(|v| g.edges.iter().all(|e| !e.vertices.contains(v))) {
        let mut lower = g.clone();
        lower.n -= 1;
        lower.edges.iter_mut().for_each(|e| e.vertices = e.vertices.map(|u| if u > v { u - 1 } else { u }));
        all.push(lower);
    }
    all.into_iter().map(|g| { let a = exact(&g); Case::Peel(g, a) }).collect()
}
