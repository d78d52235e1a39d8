//! One input, given to the Rust and to the proved call: the instructions between two calls of `bench_mark` are one phase's.
//! With the name of a phase that one alone is run, and with `none` none: the difference of two such runs is the phase, too.
use crate::calls::{self, Edge, Lent, LentAreas, LentPeelAreas};
use crate::generate::{Random, rows_of};
use crate::rules;
use crate::shrink::system;
use original::Eq;
use std::hint::black_box;

/// Ends a phase: the counter tells here what was counted since the call before.
#[unsafe(no_mangle)]
#[inline(never)]
pub extern "C" fn bench_mark(k: u64) -> u64 {
    black_box(k)
}

/// Counts `work` as a phase of this name.
fn phase(only: &str, name: &str, work: impl FnOnce()) {
    let wanted = black_box(only == "all" || only == name);
    println!("{name}");
    bench_mark(0);
    if wanted {
        work();
    }
    bench_mark(1);
}

/// Random edges whose values are those of planted cells; up to 0.8 of the vertices such that they can be peeled.
fn planted_edges(n: usize, m: usize, seed: u64) -> Vec<Edge> {
    let mut r = Random(seed);
    let planted = r.words(n);
    loop {
        let vertices: Vec<[u32; 3]> = (0..m).map(|_| three(&mut r, n)).collect();
        let edges: Vec<Edge> = vertices.iter().map(|&v| Edge { vertices: v, value: v.iter().fold(0, |c, &u| c ^ planted[u as usize]) }).collect();
        let values: Vec<u64> = edges.iter().map(|e| e.value).collect();
        if 10 * m > 8 * n || original::run(original::ready(n, vertices, &values), true, &mut original::Log::default()).is_some() {
            return edges;
        }
    }
}

fn three(r: &mut Random, n: usize) -> [u32; 3] {
    loop {
        let v = [0; 3].map(|_: u32| r.below(n) as u32);
        if v[0] != v[1] && v[0] != v[2] && v[1] != v[2] {
            return v;
        }
    }
}

/// Unusual systems, with the values of planted cells: `long` has rows of 9 variables or more, `falling` has rows of 9 of which each begins with a lower variable than the one before, `gaps` has every second row empty, `tail` has single
/// variables and then as many empty rows, `far` has rows of two variables m apart.
fn unusual(shape: &str, n: usize, m: usize, seed: u64) -> Vec<Eq> {
    let mut r = Random(seed);
    let planted = r.words(n);
    let with_value = |v: Vec<u32>| { let c = v.iter().fold(0, |c, &u| c ^ planted[u as usize]); (v, c) };
    (0..m).map(|i| with_value(match shape {
        "long" => { let count = 9 + r.below(n - 9); rising(&mut r, n, count) }
        "falling" => (0..9).map(|k| (m - 1 - i + k) as u32).collect(),
        "gaps" => if i % 2 == 1 { vec![] } else { rising(&mut r, n, 3) },
        "tail" => if 2 * i >= m { vec![] } else { vec![i as u32] },
        "far" => vec![i as u32, (m + i) as u32],
        _ => panic!("no such shape"),
    })).collect()
}

fn lent(solution: usize, room: (usize, usize)) -> LentAreas {
    LentAreas { solution: Lent::new(&vec![7; solution]), numbers: Lent::new(&vec![7; room.0]), words: Lent::new(&vec![7; room.1]) }
}

fn zeroing<T, U>(only: &str, numbers: &[T], rest: &[U]) {
    let zero = |at: *mut u8, len: usize| unsafe { std::ptr::write_bytes(at, 0, black_box(len)) };
    phase(only, "zeroing", || {
        zero(numbers.as_ptr() as *mut u8, size_of_val(numbers));
        zero(rest.as_ptr() as *mut u8, size_of_val(rest));
    });
}

/// The phases of a solver: the Rust, the call, the call refused once the rules were tried, and the zeroing of its room.
fn solver(only: &str, n: usize, room: (usize, usize), rust: impl FnOnce() -> bool, call: impl Fn(&mut LentAreas) -> u32) {
    let (mut areas, mut refused) = (lent(n, room), lent(n + 1, room));
    phase(only, "rust", || assert!(black_box(rust())));
    phase(only, "here", || assert!(black_box(call(&mut areas)) == 0));
    phase(only, "rules", || assert!(black_box(call(&mut refused)) == 4));
    zeroing(only, refused.numbers.cells(), refused.words.cells());
}

/// The phases of the sum of two lists of m variables below n: an output one number short is refused once both lists were tried.
fn sum(only: &str, n: usize, m: usize, seed: u64) {
    let mut r = Random(seed);
    let (left, right) = (rising(&mut r, n, m), rising(&mut r, n, m));
    let (mut rust, other) = (original::make_equation(&(left.clone(), 6)), original::make_equation(&(right.clone(), 5)));
    let (mut out, mut short) = (Lent::new(&vec![7; 2 * m]), Lent::new(&vec![7; 2 * m - 1]));
    phase(only, "rust", || original::add(&mut rust, &other));
    phase(only, "here", || assert!(black_box(calls::sum(&left, &right, 6, 5, &mut out).0.0) == 0));
    phase(only, "rules", || assert!(black_box(calls::sum(&left, &right, 6, 5, &mut short).0.0) == 5));
    zeroing::<u32, u32>(only, out.cells(), &[]);
    black_box(rust);
}

/// m different numbers below n, in rising order.
fn rising(r: &mut Random, n: usize, m: usize) -> Vec<u32> {
    let mut drawn = std::collections::BTreeSet::new();
    while drawn.len() < m {
        drawn.insert(r.below(n) as u32);
    }
    drawn.into_iter().collect()
}

fn peeler(only: &str, high: bool, n: usize, edges: &[Edge]) {
    let room = rules::peel_room(high, n, edges.len());
    let lent = |cells: usize| LentPeelAreas { solution: Lent::new(&vec![7; cells]), numbers: Lent::new(&vec![7; room.0]), bytes: Lent::new(&vec![7; room.1]) };
    let (mut areas, mut refused, mut log) = (lent(n), lent(n + 1), original::Log::default());
    let ready = original::ready(n, edges.iter().map(|e| e.vertices).collect(), &edges.iter().map(|e| e.value).collect::<Vec<u64>>());
    phase(only, "rust", || assert!(black_box(original::run(ready, !high, &mut log).is_some())));
    phase(only, "here", || assert!(black_box(calls::peel(high, n, edges, &mut areas).number) == 0));
    phase(only, "rules", || assert!(black_box(calls::peel(high, n, edges, &mut refused).number) == 4));
    zeroing(only, refused.numbers.cells(), refused.bytes.cells());
    let (shard, shards) = (black_box(0usize), black_box(1usize));
    // the three lines that the Rust makes for its log
    phase(only, "log", || {
        drop(black_box(format!("Generating graph for shard {}/{}...", shard + 1, shards)));
        drop(black_box(format!("Peeling graph for shard {}/{} by signatures (low-mem)...", shard + 1, shards)));
        drop(black_box(format!("Assigning values for shard {}/{}...", shard + 1, shards)));
    });
}

fn equations(edges: &[Edge]) -> Vec<Eq> {
    edges.iter().map(|e| { let mut v = e.vertices.to_vec(); v.sort(); (v, e.value) }).collect()
}

/// The equations of an input: of random edges, or, behind the engine's name and a slash, of an unusual shape.
fn input(name: &str, n: usize, m: usize, seed: u64) -> Vec<Eq> {
    match name.split_once('/') {
        Some((_, shape)) => unusual(shape, n, m, seed),
        None => equations(&planted_edges(n, m, seed)),
    }
}

pub fn run(name: &str, n: usize, m: usize, seed: u64, only: &str) {
    let engine = name.split('/').next().unwrap();
    match engine {
        "sum" => return sum(only, n, m, seed),
        "high" | "low" => return peeler(only, engine == "high", n, &planted_edges(n, m, seed)),
        _ => {}
    }
    let eqs = input(name, n, m, seed);
    let (s, w) = (system(n, &eqs), n.div_ceil(64));
    match engine {
        "sparse" => { let mut rust = original::make_system(n, &eqs); solver(only, n, rules::sparse_room(n, m), || original::solve(&mut rust), |a| calls::sparse(&s, a).0.0) }
        "lazy" => { let mut rust = original::make_system(n, &eqs); solver(only, n, rules::lazy_room(n, m, s.vars.len()), || original::solve_lazily(&mut rust), |a| calls::lazy(&s, a).0.0) }
        // the Rust has one dense engine, and both of ours stand beside it
        _ => {
            let rows = rows_of(n, w, &eqs, |v| v as usize);
            let (mut rust, mut constants) = (rows.rows.clone(), rows.constants.clone());
            let call = if engine == "slow" { calls::slow } else { calls::dense };
            solver(only, n, rules::dense_room(m, w), || original::dense(&mut rust, &mut constants, m, w, n).is_some(), |a| call(&rows, a).0)
        }
    }
}

/// This thread's CPU time in nanoseconds.
fn cpu() -> u64 {
    unsafe extern "C" {
        fn clock_gettime(clock: i32, time: *mut [i64; 2]) -> i32;
    }
    let mut time = [0; 2];
    assert!(unsafe { clock_gettime(3, &mut time) } == 0);
    time[0] as u64 * 1_000_000_000 + time[1] as u64
}

/// CPU time of the Rust, the call, the refused call and the zeroing, in turn and so many times: a line each time.
fn timed<R>(runs: usize, n: usize, room: (usize, usize), made: impl Fn() -> R, rust: impl Fn(&mut R) -> bool, call: impl Fn(&mut LentAreas) -> u32) {
    let (mut areas, mut refused) = (lent(n, room), lent(n + 1, room));
    for _ in 0..runs {
        let mut system = made();
        let start = cpu();
        assert!(black_box(rust(&mut system)));
        let rust_done = cpu();
        drop(system);
        let here = cpu();
        assert!(black_box(call(&mut areas)) == 0);
        let here_done = cpu();
        assert!(black_box(call(&mut refused)) == 4);
        let rules_done = cpu();
        for (at, len) in [(refused.numbers.cells().as_ptr() as *mut u8, 4 * room.0), (refused.words.cells().as_ptr() as *mut u8, 8 * room.1)] {
            unsafe { std::ptr::write_bytes(at, 0, black_box(len)) }
        }
        println!("{} {} {} {}", rust_done - start, here_done - here, rules_done - here_done, cpu() - rules_done);
    }
}

pub fn time(name: &str, n: usize, m: usize, seed: u64, runs: usize) {
    let eqs = input(name, n, m, seed);
    let (s, w) = (system(n, &eqs), n.div_ceil(64));
    match name.split('/').next().unwrap() {
        "sparse" => timed(runs, n, rules::sparse_room(n, m), || original::make_system(n, &eqs), |r| original::solve(r), |a| calls::sparse(&s, a).0.0),
        "lazy" => timed(runs, n, rules::lazy_room(n, m, s.vars.len()), || original::make_system(n, &eqs), |r| original::solve_lazily(r), |a| calls::lazy(&s, a).0.0),
        "dense" => {
            let rows = rows_of(n, w, &eqs, |v| v as usize);
            timed(runs, n, rules::dense_room(m, w), || (rows.rows.clone(), rows.constants.clone()), |r| original::dense(&mut r.0, &mut r.1, m, w, n).is_some(), |a| calls::dense(&rows, a).0)
        }
        _ => panic!("time is taken of sparse, lazy and dense"),
    }
}
