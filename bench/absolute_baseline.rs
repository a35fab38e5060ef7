//! The baseline of `bench/absolute`: reads cut lines and prints the certificate of the best segmentation by distances at a
//! penalty, by the textbook recurrence with a least length of segments. For each end the first place of the last segment
//! moves down over all places, and the values go one by one into two heaps, whose tops are the middle.
//! `rustc -O --edition 2021 absolute_baseline.rs`; usage: `absolute_baseline PENALTY [LENGTH] <LINES`.
use cut::{input, lines_of, number, put_certificate, Tables};
use std::cmp::Reverse;
use std::collections::BinaryHeap;
use std::io::{self, BufWriter, Write};

#[allow(dead_code)]
#[path = "cut_baseline.rs"]
mod cut;

/// Values, in two heaps, and the sums of both.
#[derive(Default)]
struct Middle {
    low: BinaryHeap<i128>,
    high: BinaryHeap<Reverse<i128>>,
    low_sum: i128,
    high_sum: i128,
}

impl Middle {
    fn add(&mut self, value: i128) {
        if self.low.peek().is_some_and(|&middle| value > middle) {
            self.high.push(Reverse(value));
            self.high_sum += value;
        } else {
            self.low.push(value);
            self.low_sum += value;
        }
        if self.low.len() > self.high.len() + 1 {
            let moved = self.low.pop().expect("a low value");
            self.low_sum -= moved;
            self.high.push(Reverse(moved));
            self.high_sum += moved;
        } else if self.high.len() > self.low.len() {
            let Reverse(moved) = self.high.pop().expect("a high value");
            self.high_sum -= moved;
            self.low.push(moved);
            self.low_sum += moved;
        }
    }

    /// The sum of the distances from the middle, the lower of two.
    fn cost(&self) -> i128 {
        let middle = self.low.peek().expect("a value");
        middle * (self.low.len() as i128 - self.high.len() as i128) - self.low_sum + self.high_sum
    }

    fn clear(&mut self) {
        self.low.clear();
        self.high.clear();
        self.low_sum = 0;
        self.high_sum = 0;
    }
}

/// The values of the positions of some cut lines.
fn positions(text: &str) -> Vec<Vec<i128>> {
    let mut positions: Vec<Vec<i128>> = Vec::new();
    let mut order = None;
    for (commit, value) in lines_of(text) {
        if order != Some(commit) {
            order = Some(commit);
            positions.push(Vec::new());
        }
        positions.last_mut().expect("a position").push(value);
    }
    positions
}

fn tables(positions: &[Vec<i128>], penalty: i128, length: usize) -> Tables {
    let n = positions.len();
    let mut least = vec![-penalty];
    let mut back = vec![0];
    let mut pruned = vec![0; n + 1];
    let mut middle = Middle::default();
    let mut made = vec![0; n];
    for t in 1..=n {
        middle.clear();
        for s in (0..t).rev() {
            positions[s].iter().for_each(|&value| middle.add(value));
            made[s] = least[s] + middle.cost();
        }
        let may_begin = |s: usize| s == 0 || s >= length;
        let ready = |s: usize| s == 0 || (s >= length && s + length <= t);
        let (total, best) = (0..t).filter(|&s| ready(s)).map(|s| (made[s], s)).min().expect("a candidate");
        let bound = total + penalty;
        least.push(bound);
        back.push(best);
        for s in 0..t {
            if pruned[s] == 0 && may_begin(s) && made[s] > bound {
                pruned[s] = t;
            }
        }
    }
    Tables { least, back, pruned }
}

fn main() -> io::Result<()> {
    let penalty = number(1).expect("a penalty");
    let length = number(2).unwrap_or(1) as usize;
    let positions = positions(&input()?);
    let mut out = BufWriter::new(io::stdout().lock());
    put_certificate(&mut out, penalty, length, &tables(&positions, penalty, length))?;
    out.flush()
}
