//! Runs of calls on one graph or stack. A call is four numbers, its operation first; a reply is three: 0, 10 where the Rust panics
//! or 11 for an empty stack, then up to two values. Each run ends with calls that bring the whole state to light.
use crate::inputs::Random;
use crate::write::{Case, DOUBLE, FAST, GRAPH, did};
use original::{Double, Fast, Graph};

const EMPTY: u64 = 11;

#[derive(Default)]
struct Run {
    calls: Vec<u64>,
    replies: Vec<u64>,
}

impl Run {
    fn called(&mut self, call: [u64; 4], reply: Option<[u64; 3]>) {
        self.calls.extend(call);
        self.replies.extend(reply.unwrap_or([10, 0, 0]));
    }
    fn case(self, kind: u8, n: usize) -> Case {
        Case::new(kind, vec![vec![n as u64], self.calls, self.replies])
    }
}

const ADD: u64 = 0;
const REMOVE: u64 = 1;
const ZERO: u64 = 2;
const DEGREE: u64 = 3;
const EDGE: u64 = 4;
const OVERFLOW: u64 = 5;

fn graph_call(g: &mut Graph, [op, v, x, side]: [u64; 4]) -> [u64; 3] {
    let at = v as usize;
    match op {
        ADD => g.add(at, x as u32, side as usize),
        REMOVE => g.remove(at, x as u32, side as usize),
        ZERO => g.zero(at),
        DEGREE => return [0, g.degree(at) as u64, 0],
        EDGE => { let (e, side) = g.edge_and_side(at); return [0, e as u64, side as u64] }
        _ => return [0, g.overflow() as u64, 0],
    }
    [0, 0, 0]
}

pub fn graph(r: &mut Random) -> Case {
    let n = r.pick(&[0, 1, 2, 3, 5, 8]);
    let (mut g, mut run) = (Graph::new(n), Run::default());
    // every tenth run fills one vertex up
    let (count, adds) = if r.below(10) == 0 { (90, 11) } else { (r.below(30), 6) };
    let hub = r.below(n);
    let mut calls: Vec<[u64; 4]> = (0..count).map(|_| {
        let v = match r.below(16) { 0 => n, 1..=8 => r.below(n), _ => hub };
        let side = if r.below(24) == 0 { 3 } else { r.below(3) };
        let op = match r.below(12) { k if k < adds => ADD, 6 | 7 => REMOVE, 8 => ZERO, 9 => DEGREE, _ => EDGE };
        [op, v as u64, r.below(256) as u64, side as u64]
    }).collect();
    calls.push([OVERFLOW, 0, 0, 0]);
    // zeroing keeps edge and side, so they can then be read at any degree
    (0..n as u64).for_each(|v| calls.extend([[DEGREE, v, 0, 0], [ZERO, v, 0, 0], [EDGE, v, 0, 0]]));
    for call in calls {
        let reply = did(|| graph_call(&mut g, call));
        run.called(call, reply);
    }
    run.case(GRAPH, n)
}

const PUSH: u64 = 0;
const POP: u64 = 1;
const LEN: u64 = 2;

pub fn fast(r: &mut Random) -> Case {
    let n = r.pick(&[0, 1, 2, 3, 5, 8]);
    let (mut s, mut run) = (Fast::new(n), Run::default());
    for _ in 0..r.below(12) {
        let x = r.below(256) as u64;
        let reply = did(|| s.push(x as u32)).map(|_| [0, 0, 0]);
        run.called([PUSH, x, 0, 0], reply);
        run.called([LEN, 0, 0, 0], Some([0, s.len() as u64, 0]));
    }
    s.all().iter().rev().for_each(|&x| run.called([POP, 0, 0, 0], Some([0, x as u64, 0])));
    run.called([POP, 0, 0, 0], Some([EMPTY, 0, 0]));
    run.case(FAST, n)
}

const PUSH_LOWER: u64 = 0;
const PUSH_UPPER: u64 = 1;
const POP_LOWER: u64 = 2;
const POP_UPPER: u64 = 3;
const UPPER_LEN: u64 = 4;

fn double_call(s: &mut Double, op: u64, x: u64) -> [u64; 3] {
    match op {
        PUSH_LOWER => s.push_lower(x as u32),
        PUSH_UPPER => s.push_upper(x as u32),
        POP_LOWER => return s.pop_lower().map_or([EMPTY, 0, 0], |x| [0, x as u64, 0]),
        _ => return [0, s.upper_len() as u64, 0],
    }
    [0, 0, 0]
}

pub fn double(r: &mut Random) -> Case {
    let n = r.pick(&[0, 1, 2, 3, 5, 8]);
    let (mut s, mut run) = (Double::new(n), Run::default());
    let mut calls: Vec<u64> = (0..r.below(20)).map(|_| r.pick(&[PUSH_LOWER, PUSH_LOWER, PUSH_UPPER, POP_LOWER, UPPER_LEN])).collect();
    calls.extend(vec![POP_LOWER; n + 1]);
    for op in calls {
        let x = if op < POP_LOWER { r.below(256) as u64 } else { 0 };
        let reply = did(|| double_call(&mut s, op, x));
        run.called([op, x, 0, 0], reply);
    }
    s.upper().iter().for_each(|&x| run.called([POP_UPPER, 0, 0, 0], Some([0, x as u64, 0])));
    run.called([POP_UPPER, 0, 0, 0], Some([EMPTY, 0, 0]));
    run.case(DOUBLE, n)
}
