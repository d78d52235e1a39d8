//! The proved calls of the crates `exports_c` and `peel_exports_c`, lent memory with marks on both sides.

unsafe extern "C" {
    fn orohkaril_sum(left: *const u32, left_len: usize, right: *const u32, right_len: usize, left_c: u64, right_c: u64, out: *mut u32, out_len: usize, len: *mut usize, constant: *mut u64, cancelled: *mut usize, place: *mut usize) -> u32;
    fn orohkaril_check(n: usize, m: usize, starts: *const u32, starts_len: usize, vars: *const u32, vars_len: usize, constants: *const u64, constants_len: usize, solution: *const u64, solution_len: usize, place: *mut usize) -> u32;
    fn orohkaril_sparse(n: usize, m: usize, starts: *const u32, starts_len: usize, vars: *const u32, vars_len: usize, constants: *const u64, constants_len: usize, solution: *mut u64, solution_len: usize, numbers: *mut u32, numbers_len: usize, words: *mut u64, words_len: usize, cancelled: *mut u64, place: *mut usize) -> u32;
    fn orohkaril_lazy(n: usize, m: usize, starts: *const u32, starts_len: usize, vars: *const u32, vars_len: usize, constants: *const u64, constants_len: usize, solution: *mut u64, solution_len: usize, numbers: *mut u32, numbers_len: usize, words: *mut u64, words_len: usize, cancelled: *mut u64, place: *mut usize) -> u32;
    fn orohkaril_dense(n: usize, m: usize, w: usize, rows: *const u64, rows_len: usize, constants: *const u64, constants_len: usize, solution: *mut u64, solution_len: usize, numbers: *mut u32, numbers_len: usize, words: *mut u64, words_len: usize, place: *mut usize) -> u32;
    fn orohkaril_slow(n: usize, m: usize, w: usize, rows: *const u64, rows_len: usize, constants: *const u64, constants_len: usize, solution: *mut u64, solution_len: usize, numbers: *mut u32, numbers_len: usize, words: *mut u64, words_len: usize, place: *mut usize) -> u32;
    fn orohkaril_peel_high(n: usize, edges: *const Edge, edges_len: usize, solution: *mut u64, solution_len: usize, numbers: *mut u32, numbers_len: usize, bytes: *mut u8, bytes_len: usize, peeled: *mut usize, total: *mut usize, unpeeled: *mut f64, place: *mut usize) -> u32;
    fn orohkaril_peel_low(n: usize, edges: *const Edge, edges_len: usize, solution: *mut u64, solution_len: usize, numbers: *mut u32, numbers_len: usize, bytes: *mut u8, bytes_len: usize, peeled: *mut usize, total: *mut usize, unpeeled: *mut f64, place: *mut usize) -> u32;
    fn orohkaril_lookup(table: *const u64, table_len: usize, a: u32, b: u32, c: u32, bib: *mut u64, place: *mut usize) -> u32;
}

/// Number and place of an answer.
#[derive(Clone, Copy, PartialEq, Debug)]
pub struct Answer(pub u32, pub usize);

const MARGIN: usize = 4;

/// A copy of lent cells between two margins, which no call may touch.
pub struct Lent<T>(Vec<T>);

impl<T: Copy + PartialEq + From<u8>> Lent<T> {
    pub fn new(cells: &[T]) -> Self {
        let mut all = Vec::with_capacity(cells.len() + 2 * MARGIN);
        all.resize(MARGIN, T::from(0xA5));
        all.extend_from_slice(cells);
        all.resize(cells.len() + 2 * MARGIN, T::from(0x5A));
        Lent(all)
    }
    pub fn len(&self) -> usize {
        self.0.len() - 2 * MARGIN
    }
    fn at(&mut self) -> *mut T {
        unsafe { self.0.as_mut_ptr().add(MARGIN) }
    }
    pub fn cells(&self) -> &[T] {
        &self.0[MARGIN..self.0.len() - MARGIN]
    }
    pub fn margins_kept(&self) -> bool {
        let end = self.0.len() - MARGIN;
        self.0[..MARGIN].iter().all(|&x| x == T::from(0xA5)) && self.0[end..].iter().all(|&x| x == T::from(0x5A))
    }
}

/// A sparse system as it is lent.
#[derive(Clone, Debug)]
pub struct System {
    pub n: usize,
    pub m: usize,
    pub starts: Vec<u32>,
    pub vars: Vec<u32>,
    pub constants: Vec<u64>,
}

pub use crate::shared::Rows;

/// An edge as it is lent: 24 bytes, the vertices at 0, 4 and 8, the value at 16.
#[repr(C)]
#[derive(Clone, Copy, PartialEq, Debug)]
pub struct Edge {
    pub vertices: [u32; 3],
    pub value: u64,
}

/// What a peeler tells: number and place, then the report.
#[derive(Clone, Copy, Debug)]
pub struct Told {
    pub number: u32,
    pub place: usize,
    pub peeled: usize,
    pub edges: usize,
    pub unpeeled: f64,
}

impl PartialEq for Told {
    fn eq(&self, o: &Told) -> bool {
        (self.number, self.place, self.peeled, self.edges, self.unpeeled.to_bits()) == (o.number, o.place, o.peeled, o.edges, o.unpeeled.to_bits())
    }
}

pub struct LentAreas {
    pub solution: Lent<u64>,
    pub numbers: Lent<u32>,
    pub words: Lent<u64>,
}

/// The answer, and how many variables cancelled.
pub fn sparse(s: &System, a: &mut LentAreas) -> (Answer, u64) {
    let (mut place, mut cancelled) = (usize::MAX, u64::MAX);
    let number = unsafe {
        orohkaril_sparse(s.n, s.m, s.starts.as_ptr(), s.starts.len(), s.vars.as_ptr(), s.vars.len(), s.constants.as_ptr(), s.constants.len(), a.solution.at(), a.solution.len(), a.numbers.at(), a.numbers.len(), a.words.at(), a.words.len(), &mut cancelled, &mut place)
    };
    (Answer(number, place), cancelled)
}

/// The answer, and how many variables cancelled.
pub fn lazy(s: &System, a: &mut LentAreas) -> (Answer, u64) {
    let (mut place, mut cancelled) = (usize::MAX, u64::MAX);
    let number = unsafe {
        orohkaril_lazy(s.n, s.m, s.starts.as_ptr(), s.starts.len(), s.vars.as_ptr(), s.vars.len(), s.constants.as_ptr(), s.constants.len(), a.solution.at(), a.solution.len(), a.numbers.at(), a.numbers.len(), a.words.at(), a.words.len(), &mut cancelled, &mut place)
    };
    (Answer(number, place), cancelled)
}

pub fn dense(s: &Rows, a: &mut LentAreas) -> Answer {
    let mut place = usize::MAX;
    let number = unsafe {
        orohkaril_dense(s.n, s.m, s.w, s.rows.as_ptr(), s.rows.len(), s.constants.as_ptr(), s.constants.len(), a.solution.at(), a.solution.len(), a.numbers.at(), a.numbers.len(), a.words.at(), a.words.len(), &mut place)
    };
    Answer(number, place)
}

pub fn slow(s: &Rows, a: &mut LentAreas) -> Answer {
    let mut place = usize::MAX;
    let number = unsafe {
        orohkaril_slow(s.n, s.m, s.w, s.rows.as_ptr(), s.rows.len(), s.constants.as_ptr(), s.constants.len(), a.solution.at(), a.solution.len(), a.numbers.at(), a.numbers.len(), a.words.at(), a.words.len(), &mut place)
    };
    Answer(number, place)
}

pub fn check(s: &System, solution: &[u64]) -> Answer {
    let mut place = usize::MAX;
    let number = unsafe { orohkaril_check(s.n, s.m, s.starts.as_ptr(), s.starts.len(), s.vars.as_ptr(), s.vars.len(), s.constants.as_ptr(), s.constants.len(), solution.as_ptr(), solution.len(), &mut place) };
    Answer(number, place)
}

/// The answer, the sum's length, its constant and how many variables cancelled.
pub fn sum(left: &[u32], right: &[u32], left_c: u64, right_c: u64, out: &mut Lent<u32>) -> (Answer, usize, u64, usize) {
    let (mut place, mut len, mut constant, mut cancelled) = (usize::MAX, usize::MAX, u64::MAX, usize::MAX);
    let number = unsafe { orohkaril_sum(left.as_ptr(), left.len(), right.as_ptr(), right.len(), left_c, right_c, out.at(), out.len(), &mut len, &mut constant, &mut cancelled, &mut place) };
    (Answer(number, place), len, constant, cancelled)
}

pub struct LentPeelAreas {
    pub solution: Lent<u64>,
    pub numbers: Lent<u32>,
    pub bytes: Lent<u8>,
}

pub fn peel(high: bool, n: usize, edges: &[Edge], a: &mut LentPeelAreas) -> Told {
    let call = if high { orohkaril_peel_high } else { orohkaril_peel_low };
    let mut told = Told { number: u32::MAX, place: usize::MAX, peeled: usize::MAX, edges: usize::MAX, unpeeled: f64::NAN };
    told.number = unsafe {
        call(n, edges.as_ptr(), edges.len(), a.solution.at(), a.solution.len(), a.numbers.at(), a.numbers.len(), a.bytes.at(), a.bytes.len(), &mut told.peeled, &mut told.edges, &mut told.unpeeled, &mut told.place)
    };
    told
}

/// The answer and the bib.
pub fn lookup(table: &[u64], cells: [u32; 3]) -> (Answer, u64) {
    let (mut place, mut bib) = (usize::MAX, u64::MAX);
    let number = unsafe { orohkaril_lookup(table.as_ptr(), table.len(), cells[0], cells[1], cells[2], &mut bib, &mut place) };
    (Answer(number, place), bib)
}
