//! Sparse and lazy elimination in plain lines, with what the Rust does not tell: how many variables cancelled in the sums,
//! and of which equations a row that no values meet is the sum. It is held to the Rust first; then its word is taken.
use original::Eq;

/// An equation as it stands, with the numbers of those that it is the sum of.
#[derive(Clone)]
struct Row {
    vars: Vec<u32>,
    c: u64,
    of: Vec<u32>,
}

/// Values that meet every equation, or the numbers of equations that quarrel.
pub type End = Result<Vec<u64>, Vec<u32>>;

/// Counts what cancels in the sums that are made through it.
struct Sums(u64);

/// What stands in one of two lists only, in order, and how many numbers stand in both.
fn apart(left: &[u32], right: &[u32]) -> (Vec<u32>, usize) {
    let mut all = [left, right].concat();
    all.sort();
    let groups: Vec<&[u32]> = all.chunk_by(|a, b| a == b).collect();
    let once = groups.iter().filter(|g| g.len() == 1).map(|g| g[0]).collect();
    (once, groups.iter().filter(|g| g.len() == 2).count())
}

impl Sums {
    fn add(&mut self, left: &Row, right: &Row) -> Row {
        let (vars, both) = apart(&left.vars, &right.vars);
        self.0 += both as u64;
        Row { vars, c: left.c ^ right.c, of: apart(&left.of, &right.of).0 }
    }
}

impl Row {
    /// Refuses an equation without variables whose constant is not 0.
    fn possible(&self) -> Result<(), Vec<u32>> {
        if self.vars.is_empty() && self.c != 0 { Err(self.of.clone()) } else { Ok(()) }
    }
    /// What is missing to meet the equation.
    fn missing(&self, values: &[u64]) -> u64 {
        self.vars.iter().fold(self.c, |c, &v| c ^ values[v as usize])
    }
}

fn rows(equations: &[Eq]) -> Vec<Row> {
    equations.iter().zip(0..).map(|((vars, c), e)| Row { vars: vars.clone(), c: *c, of: vec![e] }).collect()
}

fn eliminate(n: usize, mut rows: Vec<Row>, sums: &mut Sums) -> End {
    'rows: for i in 0..rows.len().saturating_sub(1) {
        rows[i].possible()?;
        if rows[i].vars.is_empty() {
            continue;
        }
        for j in i + 1..rows.len() {
            rows[j].possible()?;
            if rows[j].vars.is_empty() {
                continue;
            }
            if rows[i].vars[0] == rows[j].vars[0] {
                rows[i] = sums.add(&rows[i], &rows[j]);
                rows[i].possible()?;
                if rows[i].vars.is_empty() {
                    continue 'rows;
                }
            }
            if rows[i].vars[0] > rows[j].vars[0] {
                rows.swap(i, j);
            }
        }
    }
    rows.iter().try_for_each(Row::possible)?;
    let mut values = vec![0; n];
    for row in rows.iter().rev().filter(|r| !r.vars.is_empty()) {
        values[row.vars[0] as usize] = row.missing(&values);
    }
    Ok(values)
}

/// The end of sparse elimination, and how many variables cancelled.
pub fn sparse(n: usize, equations: &[Eq]) -> (End, u64) {
    let mut sums = Sums(0);
    (eliminate(n, rows(equations), &mut sums), sums.0)
}

/// The end of lazy elimination, and how many variables cancelled.
pub fn lazy(n: usize, equations: &[Eq]) -> (End, u64) {
    let mut sums = Sums(0);
    (lazily(n, rows(equations), &mut sums), sums.0)
}

fn lazily(n: usize, mut rows: Vec<Row>, sums: &mut Sums) -> End {
    let mut listing = vec![vec![]; n];
    rows.iter().enumerate().for_each(|(e, row)| row.vars.iter().for_each(|&v| listing[v as usize].push(e)));
    let mut weight: Vec<usize> = listing.iter().map(Vec::len).collect();
    // taken from the end: the heaviest variable, of the highest number; the equation of the lowest number
    let mut variables: Vec<usize> = (0..n).collect();
    variables.sort_by_key(|&v| weight[v]);
    let mut priority: Vec<usize> = rows.iter().map(|row| row.vars.len()).collect();
    let mut ready: Vec<usize> = (0..rows.len()).rev().filter(|&e| priority[e] <= 1).collect();
    let (mut idle, mut dense, mut solved) = (vec![true; n], vec![], vec![]);
    let mut left = rows.len();
    while left > 0 {
        let Some(e) = ready.pop() else {
            let v = variables.pop().expect("a variable to make active");
            if weight[v] > 0 {
                idle[v] = false;
                listing[v].iter().for_each(|&f| lower(&mut priority, &mut ready, f));
            }
            continue;
        };
        left -= 1;
        if priority[e] == 0 {
            rows[e].possible()?;
            if !rows[e].vars.is_empty() {
                dense.push(rows[e].clone());
            }
            continue;
        }
        let v = *rows[e].vars.iter().find(|&&v| idle[v as usize]).expect("one idle variable") as usize;
        solved.push((e, v));
        weight[v] = 0;
        for &f in listing[v].iter().filter(|&&f| f != e) {
            rows[f] = sums.add(&rows[f], &rows[e]);
            lower(&mut priority, &mut ready, f);
        }
    }
    let mut values = eliminate(n, dense, sums)?;
    for (e, v) in solved {
        values[v] = rows[e].missing(&values);
    }
    Ok(values)
}

/// An equation with one idle variable less is ready when one is left.
fn lower(priority: &mut [usize], ready: &mut Vec<usize>, e: usize) {
    priority[e] -= 1;
    if priority[e] == 1 {
        ready.push(e);
    }
}

/// Holds an end to the Rust's: the same values, or a quarrel whose equations sum up to one that no values meet.
pub fn held(end: &End, equations: &[Eq], rust: Option<&[u64]>) -> Result<(), String> {
    match (end, rust) {
        (Ok(values), Some(x)) if values == x => Ok(()),
        (Err(quarrel), None) => {
            let all = rows(equations);
            let sum = quarrel.iter().map(|&e| &all[e as usize]).fold(Row { vars: vec![], c: 0, of: vec![] }, |s, row| Sums(0).add(&s, row));
            if sum.vars.is_empty() && sum.c != 0 { Ok(()) } else { Err(format!("the reference: equations {quarrel:?} do not quarrel")) }
        }
        (here, _) => Err(format!("the reference ends with {here:?}, the Rust with {rust:?}")),
    }
}
