//! The baseline of `bench/cut`: reads cut lines and prints the certificate of the best segmentation at a penalty, by the
//! textbook pruned recurrence (PELT) with a least length of segments. At each place all open places are evaluated, and
//! those that were dear are dropped a least length later.
//! `rustc -O --edition 2021 cut_baseline.rs`; usage: `cut_baseline PENALTY [LENGTH] <LINES`.
use std::io::{self, BufWriter, Read, Write};

/// The count, the sum and the sum of squares of the values of the first positions.
#[derive(Clone, Copy)]
pub struct Sums {
    count: i128,
    sum: i128,
    squares: i128,
}

/// The least sum of squares about a whole number, of the segment between two prefixes.
fn cost(from: &Sums, to: &Sums) -> i128 {
    let count = to.count - from.count;
    let sum = to.sum - from.sum;
    let squares = to.squares - from.squares;
    let centre = (2 * sum + count - 1).div_euclid(2 * count);
    squares - centre * (2 * sum - count * centre)
}

/// The orders and the values of some cut lines.
pub fn lines_of(text: &str) -> impl Iterator<Item = (u64, i128)> + '_ {
    text.lines().filter_map(|line| {
        let mut words = line.split_ascii_whitespace();
        let first = words.next().filter(|word| !word.starts_with('#'))?;
        let commit = first.parse().expect("an order");
        Some((commit, words.next().expect("a value").parse().expect("a whole number")))
    })
}

/// The prefix sums of the positions of some cut lines.
pub fn prefix_sums(text: &str) -> Vec<Sums> {
    let mut sums = vec![Sums { count: 0, sum: 0, squares: 0 }];
    let mut order = None;
    for (commit, value) in lines_of(text) {
        if order != Some(commit) {
            order = Some(commit);
            sums.push(sums[sums.len() - 1]);
        }
        let last = sums.last_mut().expect("the empty prefix");
        last.count += 1;
        last.sum += value;
        last.squares += value * value;
    }
    sums
}

/// The least totals, the last cuts and the places of pruning.
pub struct Tables {
    pub least: Vec<i128>,
    pub back: Vec<usize>,
    pub pruned: Vec<usize>,
}

impl Tables {
    /// The best cut list of all positions.
    pub fn cuts(&self) -> Vec<usize> {
        let mut cuts: Vec<usize> =
            std::iter::successors(self.back.last().copied(), |&t| Some(self.back[t])).take_while(|&t| t > 0).collect();
        cuts.reverse();
        cuts
    }

    /// Its total, 0 where there are no positions.
    pub fn total(&self) -> i128 {
        if self.least.len() == 1 { 0 } else { self.least[self.least.len() - 1] }
    }
}

pub fn tables(sums: &[Sums], penalty: i128, length: usize) -> Tables {
    let mut least = vec![-penalty];
    let mut back = vec![0];
    let mut pruned = vec![0; sums.len()];
    let mut open = vec![0];
    let mut made = Vec::new();
    for t in 1..sums.len() {
        made.clear();
        made.extend(open.iter().map(|&s: &usize| least[s] + cost(&sums[s], &sums[t])));
        let ready = |i: usize| open[i] == 0 || open[i] + length <= t;
        let (best, total) = (0..made.len()).filter(|&i| ready(i)).map(|i| (i, made[i])).min_by_key(|&(i, total)| (total, i)).expect("a candidate");
        let bound = total + penalty;
        least.push(bound);
        back.push(open[best]);
        let mut i = 0;
        open.retain(|&s| {
            if made[i] > bound && pruned[s] == 0 {
                pruned[s] = t;
            }
            i += 1;
            pruned[s] == 0 || t + 1 < pruned[s] + length
        });
        if t >= length {
            open.push(t);
        }
    }
    Tables { least, back, pruned }
}

fn put_row<T: std::fmt::Display>(out: &mut impl Write, name: &str, items: &[T]) -> io::Result<()> {
    write!(out, "{name}")?;
    for item in items {
        write!(out, " {item}")?;
    }
    writeln!(out)
}

/// The text of a certificate.
pub fn put_certificate(out: &mut impl Write, penalty: i128, length: usize, tables: &Tables) -> io::Result<()> {
    put_row(out, "points", &[tables.least.len() - 1])?;
    put_row(out, "penalty", &[penalty])?;
    if length > 1 {
        put_row(out, "length", &[length])?;
    }
    put_row(out, "cuts", &tables.cuts())?;
    put_row(out, "total", &[tables.total()])?;
    put_row(out, "least", &tables.least)?;
    put_row(out, "back", &tables.back)?;
    put_row(out, "pruned", &tables.pruned)
}

/// The whole standard input.
pub fn input() -> io::Result<String> {
    let mut text = String::new();
    io::stdin().read_to_string(&mut text)?;
    Ok(text)
}

/// The word of this number as a whole number.
pub fn number(word: usize) -> Option<i128> {
    std::env::args().nth(word).map(|word| word.parse().expect("a whole number"))
}

fn main() -> io::Result<()> {
    let penalty = number(1).expect("a penalty");
    let length = number(2).unwrap_or(1) as usize;
    let sums = prefix_sums(&input()?);
    let mut out = BufWriter::new(io::stdout().lock());
    put_certificate(&mut out, penalty, length, &tables(&sums, penalty, length))?;
    out.flush()
}
