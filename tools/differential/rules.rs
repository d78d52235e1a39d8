//! The numbers 1 to 5 and 7, worked out from the rules on paper and from nothing of the proved code.
use crate::calls::{Answer, Edge, Rows, System};

const MAX_VARIABLES: usize = 16_384;
const MAX_EQUATIONS: usize = 16_384;
const MAX_LISTED: usize = 65_536;
const MAX_ROW_WORDS: usize = 256;

fn strictly_increasing(list: &[u32]) -> bool {
    list.windows(2).all(|p| p[0] < p[1])
}

fn refuse(number: u32, place: usize) -> Result<(), Answer> {
    Err(Answer(number, place))
}

pub fn sparse(s: &System) -> Result<(), Answer> {
    if s.n > MAX_VARIABLES || s.m > MAX_EQUATIONS || s.vars.len() > MAX_LISTED {
        return refuse(1, 0);
    }
    let starts_kept = s.starts.len() == s.m + 1 && s.starts[0] == 0 && s.starts.windows(2).all(|p| p[0] <= p[1]) && s.starts[s.m] as usize == s.vars.len();
    if !starts_kept || s.constants.len() != s.m {
        return refuse(2, 0);
    }
    for i in 0..s.m {
        let list = &s.vars[s.starts[i] as usize..s.starts[i + 1] as usize];
        if !strictly_increasing(list) || list.iter().any(|&v| v as usize >= s.n) {
            return refuse(3, i);
        }
    }
    Ok(())
}

pub fn dense(s: &Rows) -> Result<(), Answer> {
    if s.n > MAX_VARIABLES || s.m > MAX_EQUATIONS || s.w > MAX_ROW_WORDS {
        return refuse(1, 0);
    }
    if s.rows.len() < s.m * s.w || s.constants.len() < s.m || s.n > 64 * s.w {
        return refuse(2, 0);
    }
    for i in 0..s.m {
        let row = &s.rows[i * s.w..(i + 1) * s.w];
        if (s.n..64 * s.w).any(|c| row[c / 64] >> (c % 64) & 1 == 1) {
            return refuse(3, i);
        }
    }
    Ok(())
}

pub fn solution(n: usize, len: usize) -> Result<(), Answer> {
    if len == n { Ok(()) } else { refuse(4, 0) }
}

pub fn room(numbers: (usize, usize), words: (usize, usize)) -> Result<(), Answer> {
    if numbers.0 < numbers.1 || words.0 < words.1 { refuse(5, 0) } else { Ok(()) }
}

fn vertices_kept(n: usize, v: [u32; 3]) -> bool {
    v.iter().all(|&v| (v as usize) < n) && v[0] != v[1] && v[0] != v[2] && v[1] != v[2]
}

pub fn edges(n: usize, edges: &[Edge]) -> Result<(), Answer> {
    if n > MAX_VARIABLES || edges.len() > MAX_EQUATIONS {
        return refuse(1, 0);
    }
    match edges.iter().position(|e| !vertices_kept(n, e.vertices)) {
        Some(i) => refuse(3, i),
        None => Ok(()),
    }
}

/// The lowest vertex on 64 edges or more.
pub fn crowded(n: usize, edges: &[Edge]) -> Option<usize> {
    let mut degrees = vec![0; n];
    edges.iter().for_each(|e| e.vertices.iter().for_each(|&v| degrees[v as usize] += 1));
    degrees.iter().position(|&d| d >= 64)
}

pub fn lookup(table: &[u64], cells: [u32; 3]) -> Result<(), Answer> {
    if table.len() > MAX_VARIABLES {
        return refuse(1, 0);
    }
    if vertices_kept(table.len(), cells) { Ok(()) } else { refuse(3, 0) }
}

pub fn sum(left: &[u32], right: &[u32], out: usize) -> Result<(), Answer> {
    if left.len() > MAX_LISTED || right.len() > MAX_LISTED {
        return refuse(1, 0);
    }
    if !strictly_increasing(left) {
        return refuse(3, 0);
    }
    if !strictly_increasing(right) {
        return refuse(3, 1);
    }
    if out < left.len() + right.len() { refuse(5, 0) } else { Ok(()) }
}

/// Numbers and words of each engine.
pub fn sparse_room(n: usize, m: usize) -> (usize, usize) {
    (m * n + n + m, m)
}

pub fn lazy_room(n: usize, m: usize, t: usize) -> (usize, usize) {
    (2 * m * n + t + 6 * n + 7 * m + 2, 2 * m)
}

/// Numbers and bytes of each peeler.
pub fn peel_room(high: bool, n: usize, m: usize) -> (usize, usize) {
    if high { (2 * n + m, n + m) } else { (2 * n, n) }
}

pub fn dense_room(m: usize, w: usize) -> (usize, usize) {
    (m, m * w + m)
}
