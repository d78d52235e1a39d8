//! The Rust original, unchanged, over shims. `build` makes gen/ from the Rust text:
//!   gen/mod2_sys.rs  the whole of utils/mod2_sys.rs, a byte for byte copy
//!   gen/peeling.rs   the whole of func/peeling.rs, a byte for byte copy
//!   gen/vbuilder.rs  vbuilder_head.rs, then three whole functions of func/vbuilder.rs, byte for byte, then a closing brace
//! Not the original's: this file and the files beside it.

/// Shim for `crate::traits`.
pub mod traits {
    use std::fmt::Debug;
    use std::ops::{BitXor, BitXorAssign};
    pub trait Word: Copy + Eq + Debug + BitXor<Output = Self> + BitXorAssign {
        const ZERO: Self;
    }
    impl Word for u64 { const ZERO: u64 = 0; }
    impl Word for usize { const ZERO: usize = 0; }
    pub trait BitVecOps { fn get(&self, i: usize) -> bool; }
    pub trait BitVecOpsMut { fn set(&mut self, i: usize, b: bool); }
    /// Shim for sux's BitVec: packed in words, an index past the length panics, as there.
    pub struct Bits { words: Vec<usize>, len: usize }
    impl Bits {
        pub fn new(b: bool, len: usize) -> Bits { Bits { words: vec![if b { !0 } else { 0 }; len.div_ceil(64)], len } }
    }
    impl BitVecOps for Bits {
        #[inline(always)]
        fn get(&self, i: usize) -> bool { assert!(i < self.len); self.words[i / 64] >> (i % 64) & 1 != 0 }
    }
    impl BitVecOpsMut for Bits {
        #[inline(always)]
        fn set(&mut self, i: usize, b: bool) {
            assert!(i < self.len);
            if b { self.words[i / 64] |= 1 << (i % 64) } else { self.words[i / 64] &= !(1 << (i % 64)) }
        }
    }
}
#[macro_export]
macro_rules! bit_vec { (true; $n:expr) => { $crate::traits::Bits::new(true, $n) }; }

#[allow(dead_code)]
#[path = "gen/mod2_sys.rs"]
pub mod mod2_sys;
#[allow(dead_code, unused_imports)]
#[path = "gen/peeling.rs"]
mod peeling;
#[allow(dead_code)]
#[path = "gen/vbuilder.rs"]
mod vbuilder;

use mod2_sys::{Modulo2Equation, Modulo2System};
pub type Eq = (Vec<u32>, u64);

fn system(n: usize, eqs: &[Eq]) -> Modulo2System<u64> {
    let e = eqs.iter().map(make_equation).collect();
    unsafe { Modulo2System::from_parts(n, e) }
}
/// `gaussian_elimination`; None: unsolvable.
pub fn sparse(n: usize, eqs: &[Eq]) -> Option<Vec<u64>> { system(n, eqs).gaussian_elimination().ok() }
/// `lazy_gaussian_elimination`
pub fn lazy(n: usize, eqs: &[Eq]) -> Option<Vec<u64>> { system(n, eqs).lazy_gaussian_elimination().ok() }
/// `check`
pub fn check(n: usize, eqs: &[Eq], sol: &[u64]) -> bool { system(n, eqs).check(sol) }
/// `dense_gaussian_elimination`; rows and constants are changed, as in the original.
pub fn dense(rows: &mut [u64], rhs: &mut [u64], m: usize, w: usize, n: usize) -> Option<Vec<u64>> {
    mod2_sys::dense_gaussian_elimination(rows, rhs, m, w, n)
}
/// `add`; the answer is read from the equation's Debug text, its fields being private.
pub fn sum(a: &Eq, b: &Eq) -> String {
    let mut x = make_equation(a);
    x.add(&make_equation(b));
    format!("{x:?}")
}
pub fn make_equation(e: &Eq) -> Modulo2Equation<u64> { unsafe { Modulo2Equation::from_parts(e.0.clone(), e.1) } }
pub use vbuilder::{Log, Ready, ready, run};
pub fn make_system(n: usize, eqs: &[Eq]) -> Modulo2System<u64> { system(n, eqs) }

/// `add`, `gaussian_elimination` and `lazy_gaussian_elimination` of what was made before: compiled in this crate, so that their cost does not depend on the program.
#[inline(never)]
pub fn add(to: &mut Modulo2Equation<u64>, from: &Modulo2Equation<u64>) { to.add(from) }
#[inline(never)]
pub fn solve(s: &mut Modulo2System<u64>) -> bool { s.gaussian_elimination().is_ok() }
#[inline(never)]
pub fn solve_lazily(s: &mut Modulo2System<u64>) -> bool { s.lazy_gaussian_elimination().is_ok() }

/// `XorGraph` of edge numbers, `FastStack` and `DoubleStack` of numbers: each call is the original's.
pub struct Graph(peeling::XorGraph<u32>);
impl Graph {
    pub fn new(n: usize) -> Graph { Graph(peeling::XorGraph::new(n)) }
    pub fn add(&mut self, v: usize, x: u32, side: usize) { self.0.add(v, x, side) }
    pub fn remove(&mut self, v: usize, x: u32, side: usize) { self.0.remove(v, x, side) }
    pub fn zero(&mut self, v: usize) { self.0.zero(v) }
    pub fn edge_and_side(&self, v: usize) -> (u32, usize) { self.0.edge_and_side(v) }
    pub fn degree(&self, v: usize) -> u8 { self.0.degree(v) }
    pub fn degrees(&self) -> Vec<u8> { self.0.degrees().collect() }
    pub fn overflow(&self) -> bool { self.0.overflow }
}
pub struct Fast(peeling::FastStack<u32>);
impl Fast {
    pub fn new(n: usize) -> Fast { Fast(peeling::FastStack::new(n)) }
    pub fn push(&mut self, x: u32) { self.0.push(x) }
    pub fn len(&self) -> usize { self.0.len() }
    pub fn all(&self) -> Vec<u32> { self.0.iter().copied().collect() }
}
pub struct Double(peeling::DoubleStack<u32>);
impl Double {
    pub fn new(n: usize) -> Double { Double(peeling::DoubleStack::new(n)) }
    pub fn push_lower(&mut self, x: u32) { self.0.push_lower(x) }
    pub fn push_upper(&mut self, x: u32) { self.0.push_upper(x) }
    pub fn pop_lower(&mut self) -> Option<u32> { self.0.pop_lower() }
    pub fn upper_len(&self) -> usize { self.0.upper_len() }
    pub fn upper(&self) -> Vec<u32> { self.0.iter_upper().copied().collect() }
}
