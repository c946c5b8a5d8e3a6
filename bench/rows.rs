//! The flow of rows of `row_flow`, written by hand over the maps of std: the same rows come, find partners and go, and the same line is
//! written at the end.
//!
//!     rows ROWS HELD order|late|key
use std::collections::{BTreeSet, HashMap, VecDeque};
use std::hint::black_box;
use std::process::exit;

const MOST_ROWS: u64 = 100_000_000;
const REACH: u64 = 100;
const MOST_PARTNERS: usize = 4;

/// A key and a time.
type Row = (i64, u64);

/// How often each row is there, the times of the rows of each key, and the rows that are held, the first to come in front.
#[derive(Default)]
struct Flow {
    counts: HashMap<Row, u64>,
    times: HashMap<i64, BTreeSet<u64>>,
    held: VecDeque<Row>,
}

impl Flow {
    // The number of partners that are taken.
    fn join(&self, (key, time): Row) -> usize {
        let Some(times) = self.times.get(&key) else {
            return 0;
        };
        let mut taken = 0;
        for &before in times.range(time.saturating_sub(REACH)..time).take(MOST_PARTNERS) {
            black_box((key, before, time));
            taken += 1;
        }
        taken
    }

    fn come(&mut self, row: Row) {
        let count = self.counts.entry(row).or_insert(0);
        *count += 1;
        if *count == 1 {
            self.times.entry(row.0).or_default().insert(row.1);
        }
        self.held.push_back(row);
    }

    fn take_first(&mut self) {
        let Some(row) = self.held.pop_front() else {
            return;
        };
        let Some(count) = self.counts.get_mut(&row) else {
            return;
        };
        *count -= 1;
        if *count > 0 {
            return;
        }
        self.counts.remove(&row);
        if let Some(times) = self.times.get_mut(&row.0) {
            times.remove(&row.1);
            if times.is_empty() {
                self.times.remove(&row.0);
            }
        }
    }
}

fn row_of(order: &str, n: u64) -> Row {
    let time = 1000 + n / 20;
    match order {
        "order" => ((n % 1000) as i64, time),
        "late" if n % 7 == 0 => ((n % 1000) as i64, time - n * 7919 % 101),
        "late" => ((n % 1000) as i64, time),
        _ => (0, n),
    }
}

fn number_of(word: &str) -> Option<u64> {
    word.parse().ok().filter(|&number| number > 0 && number <= MOST_ROWS)
}

fn job_of(words: &[String]) -> Option<(u64, usize, &str)> {
    match words {
        [rows, held, order] if ["order", "late", "key"].contains(&order.as_str()) => {
            Some((number_of(rows)?, number_of(held)? as usize, order))
        }
        _ => None,
    }
}

fn main() {
    let words: Vec<String> = std::env::args().skip(1).collect();
    let Some((rows, most, order)) = job_of(&words) else {
        eprintln!("rows: usage: rows ROWS HELD order|late|key");
        exit(2);
    };
    let mut flow = Flow::default();
    let mut found = 0;
    for n in 0..rows {
        let row = row_of(order, n);
        found += flow.join(row);
        flow.come(row);
        if flow.held.len() > most {
            flow.take_first();
        }
    }
    println!("rows {rows} found {found} held {}", flow.counts.len());
}
