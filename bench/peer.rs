//! The query `ab(X) <- a(X) SEQ b(X).`, with or without a WITHIN around its pattern, written by hand for nothing else: what a
//! programmer would write in the place of a rule file. It reads the lines of `etalis run` and writes the same replies.
//!
//!     peer WITHIN LATE < lines        `-` stands for none
use std::collections::{BTreeMap, BTreeSet, HashMap};
use std::io::{BufRead, BufWriter, Write};

/// The times of the events of one key, by their name.
#[derive(Default)]
struct Times {
    firsts: BTreeSet<u64>,
    seconds: BTreeSet<u64>,
}

/// What of an event the query has a use for.
#[derive(Clone, Copy)]
enum Part {
    First(i64),
    Second(i64),
    None,
}

#[derive(Default)]
struct Query {
    within: Option<u64>,
    late: Option<u64>,
    bound: u64,
    copies: BTreeMap<u64, HashMap<Vec<u8>, u64>>,
    times: HashMap<i64, Times>,
    // What is to be dropped once the bound has passed a time by the window.
    ends: BTreeMap<u64, Vec<Part>>,
}

fn part_of(atom: &[u8]) -> Part {
    let number = |digits: &[u8]| std::str::from_utf8(digits).ok().and_then(|text| text.parse::<i64>().ok());
    match atom {
        [b'a', b'(', digits @ .., b')'] => number(digits).map_or(Part::None, Part::First),
        [b'b', b'(', digits @ .., b')'] => number(digits).map_or(Part::None, Part::Second),
        _ => Part::None,
    }
}

impl Query {
    // The spans that an event at this time has with its partners, in order.
    fn spans(&self, part: Part, time: u64) -> Vec<(u64, u64)> {
        let window = self.within.unwrap_or(u64::MAX);
        match part {
            Part::First(key) => self.times.get(&key).map_or(Vec::new(), |times| {
                times.seconds.range(time + 1..=time.saturating_add(window)).map(|&end| (time, end)).collect()
            }),
            Part::Second(key) => self.times.get(&key).map_or(Vec::new(), |times| {
                times.firsts.range(time.saturating_sub(window)..time).map(|&start| (start, time)).collect()
            }),
            Part::None => Vec::new(),
        }
    }

    fn put(&mut self, part: Part, time: u64) {
        match part {
            Part::First(key) => drop(self.times.entry(key).or_default().firsts.insert(time)),
            Part::Second(key) => drop(self.times.entry(key).or_default().seconds.insert(time)),
            Part::None => return,
        }
        if self.within.is_some() {
            self.ends.entry(time).or_default().push(part);
        }
    }

    fn remove(&mut self, part: Part, time: u64) {
        let (Part::First(key) | Part::Second(key)) = part else { return };
        if let Some(times) = self.times.get_mut(&key) {
            match part {
                Part::First(_) => times.firsts.remove(&time),
                _ => times.seconds.remove(&time),
            };
            if times.firsts.is_empty() && times.seconds.is_empty() {
                self.times.remove(&key);
            }
        }
    }

    fn raise(&mut self, bound: u64) {
        if bound <= self.bound {
            return;
        }
        self.bound = bound;
        while let Some(entry) = self.copies.first_entry() {
            if *entry.key() >= bound {
                break;
            }
            entry.remove();
        }
        let Some(window) = self.within else { return };
        while let Some(entry) = self.ends.first_entry() {
            let time = *entry.key();
            if time + window >= bound {
                break;
            }
            for part in entry.remove() {
                self.remove(part, time);
            }
        }
    }

    fn answer(&mut self, number: u64, line: &[u8], out: &mut impl Write) -> std::io::Result<()> {
        let digits = line[2..].iter().take_while(|byte| byte.is_ascii_digit()).count();
        let time: u64 = std::str::from_utf8(&line[2..2 + digits]).unwrap().parse().unwrap();
        let atom = line.get(3 + digits..).unwrap_or(&[]);
        if time < self.bound {
            return writeln!(out, "no {number} below {}", self.bound);
        }
        let part = part_of(atom);
        match line[0] {
            b'+' => {
                let copies = self.copies.entry(time).or_default();
                match copies.get_mut(atom) {
                    Some(copies) => *copies += 1,
                    None => {
                        copies.insert(atom.to_vec(), 1);
                        self.tell(b'+', part, time, out)?;
                        self.put(part, time);
                    }
                }
                if let Some(late) = self.late {
                    self.raise(time.saturating_sub(late));
                }
            }
            b'-' => {
                let copies = self.copies.entry(time).or_default();
                match copies.get_mut(atom) {
                    None => return writeln!(out, "no {number} absent"),
                    Some(1) => {
                        copies.remove(atom);
                        self.remove(part, time);
                        self.tell(b'-', part, time, out)?;
                    }
                    Some(copies) => *copies -= 1,
                }
            }
            _ => self.raise(time),
        }
        writeln!(out, "ok {number}")
    }

    fn tell(&self, sign: u8, part: Part, time: u64, out: &mut impl Write) -> std::io::Result<()> {
        let (Part::First(key) | Part::Second(key)) = part else { return Ok(()) };
        for (start, end) in self.spans(part, time) {
            writeln!(out, "{} {start} {end} ab({key})", sign as char)?;
        }
        Ok(())
    }
}

fn main() -> std::io::Result<()> {
    let word = |at: usize| std::env::args().nth(at).and_then(|word| word.parse::<u64>().ok());
    let mut query = Query { within: word(1), late: word(2), ..Query::default() };
    let mut out = BufWriter::with_capacity(1 << 16, std::io::stdout().lock());
    let mut input = std::io::stdin().lock();
    let mut line = Vec::new();
    let mut number = 0;
    while input.read_until(b'\n', &mut line)? > 0 {
        if line.last() == Some(&b'\n') {
            line.pop();
        }
        number += 1;
        query.answer(number, &line, &mut out)?;
        line.clear();
    }
    writeln!(out, "end {number}")?;
    out.flush()
}
