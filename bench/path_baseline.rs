//! The baseline of `bench/path`: reads cut lines and prints their path over a range of penalties, by the same search as
//! `path`, with tables by the textbook pruned recurrence of `cut_baseline.rs`. Tells on standard error how many stretches
//! there are, and how many tables were made.
//! `rustc -O --edition 2021 path_baseline.rs`; usage: `path_baseline LOW HIGH <LINES`.
use cut::{input, number, prefix_sums, put_certificate, tables, Sums, Tables};
use std::io::{self, BufWriter, Write};

#[allow(dead_code)]
#[path = "cut_baseline.rs"]
mod cut;

/// The tables for a penalty, and their cuts.
struct Found {
    penalty: i128,
    cuts: Vec<usize>,
    tables: Tables,
}

impl Found {
    fn at(sums: &[Sums], penalty: i128, made: &mut u64) -> Found {
        *made += 1;
        let tables = tables(sums, penalty, 1);
        Found { penalty, cuts: tables.cuts(), tables }
    }

    /// What the segments cost.
    fn costs(&self) -> i128 {
        self.tables.total() - self.cuts.len() as i128 * self.penalty
    }

    /// A penalty between this one and that of fewer cuts: where their totals cross, as far as it is between.
    fn middle(&self, next: &Found) -> i128 {
        let more = self.cuts.len() as i128 - next.cuts.len() as i128;
        (next.costs() - self.costs()).div_euclid(more).clamp(self.penalty + 1, next.penalty - 1)
    }
}

fn main() -> io::Result<()> {
    let low = number(1).expect("the least penalty");
    let high = number(2).expect("the greatest penalty");
    let sums = prefix_sums(&input()?);
    let mut made = 0;
    // The stretches, each as what was found at its two ends; the second end is that of the first where there is none.
    let mut stretches: Vec<(Found, Option<Found>)> = vec![(Found::at(&sums, low, &mut made), None)];
    let mut ahead = Vec::new();
    if low < high {
        ahead.push(Found::at(&sums, high, &mut made));
    }
    while let Some(next) = ahead.pop() {
        let (first, last) = stretches.last_mut().expect("a stretch");
        let now = last.as_ref().unwrap_or(first);
        if now.cuts == next.cuts {
            *last = Some(next);
        } else if next.penalty == now.penalty + 1 {
            stretches.push((next, None));
        } else {
            let between = Found::at(&sums, now.middle(&next), &mut made);
            ahead.push(next);
            ahead.push(between);
        }
    }
    let mut out = BufWriter::new(io::stdout().lock());
    writeln!(out, "stretches {}", stretches.len())?;
    for (first, last) in &stretches {
        writeln!(out, "stretch {} {}", first.penalty, last.as_ref().unwrap_or(first).penalty)?;
        for end in std::iter::once(first).chain(last) {
            put_certificate(&mut out, end.penalty, 1, &end.tables)?;
        }
    }
    eprintln!("{} {}", stretches.len(), made);
    out.flush()
}
