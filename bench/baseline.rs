//! The baseline of the benchmark: eleven sets of IDs, each a `BTreeMap` from the low end of a maximal range to its high end,
//! with a limit on the number of ranges in all.
//!
//!     rustc -O baseline.rs
//!     ./baseline RUNS < WORKLOAD
//!
//! prints the digest of a run of the workload, and then the nanoseconds that each of RUNS further runs took. Crate `storebench`
//! does the same over the proved stores.

use std::collections::BTreeMap;
use std::error::Error;
use std::hint::black_box;
use std::time::Instant;

const COUNTERS: u64 = 1 << 48;
const SET_COUNT: usize = 11;
const LIMIT: usize = 65_535;

/// The set that the workloads fill, and the one that it is moved to.
const SET: usize = 0;
const OTHER: usize = 1;

/// A set: the high end of each maximal range by its low end.
type Ranges = BTreeMap<u64, u64>;

/// The last range that does not begin above `n`.
fn last_begun(ranges: &Ranges, n: u64) -> Option<(u64, u64)> {
    ranges.range(..=n).next_back().map(|(&low, &high)| (low, high))
}

/// The ID behind `id`, if it is of the same REPLID.
fn successor(id: u64) -> Option<u64> {
    id.checked_add(1).filter(|next| next % COUNTERS != 0)
}

/// The highest low end that a range can have which joins one that ends with `high`.
fn reach(high: u64) -> u64 {
    successor(high).unwrap_or(high)
}

/// Whether a range that ends with `end` joins one that begins with `low` and does not end before it begins.
fn touches(end: u64, low: u64) -> bool {
    end >= low || successor(end) == Some(low)
}

/// Puts one range in the place of `low` to `high` and all that join it, and tells how many fewer there are then.
fn join(ranges: &mut Ranges, mut low: u64, mut high: u64) -> usize {
    let before = ranges.len();
    let reach = reach(high);
    while let Some((&begin, &end)) = ranges.range(..=reach).next_back() {
        if !touches(end, low) {
            break;
        }
        ranges.remove(&begin);
        low = low.min(begin);
        high = high.max(end);
    }
    ranges.insert(low, high);
    before - ranges.len()
}

struct Store {
    sets: [Ranges; SET_COUNT],
    total: usize,
    limit: usize,
}

impl Store {
    fn new(limit: usize) -> Store {
        Store { sets: Default::default(), total: 0, limit }
    }

    /// Adds the IDs `low` to `high` of one REPLID; false, and nothing changed, where the ranges would pass the limit.
    fn put(&mut self, set: usize, low: u64, high: u64) -> bool {
        let ranges = &mut self.sets[set];
        match ranges.range_mut(..=reach(high)).next_back() {
            Some((&begin, end)) if touches(*end, low) => {
                if begin <= low {
                    *end = high.max(*end);
                } else {
                    self.total -= join(ranges, low, high);
                }
            }
            _ if self.total == self.limit => return false,
            _ => {
                ranges.insert(low, high);
                self.total += 1;
            }
        }
        true
    }

    /// Removes the IDs `low` to `high`; false, and nothing changed, where the ranges would pass the limit.
    fn take(&mut self, set: usize, low: u64, high: u64) -> bool {
        let ranges = &mut self.sets[set];
        while let Some((&begin, end)) = ranges.range_mut(..=high).next_back() {
            let last = *end;
            if last < low {
                break;
            }
            if begin < low {
                if last > high {
                    if self.total == self.limit {
                        return false;
                    }
                    *end = low - 1;
                    ranges.insert(high + 1, last);
                    self.total += 1;
                } else {
                    *end = low - 1;
                }
                break;
            }
            ranges.remove(&begin);
            if last > high {
                ranges.insert(high + 1, last);
            } else {
                self.total -= 1;
            }
        }
        true
    }

    fn move_set(&mut self, from: usize, to: usize) {
        if from != to {
            self.total -= self.sets[to].len();
            self.sets[to] = std::mem::take(&mut self.sets[from]);
        }
    }

    fn holds(&self, set: usize, n: u64) -> bool {
        last_begun(&self.sets[set], n).is_some_and(|(_, high)| n <= high)
    }

    /// The lowest range whose high end is not below `n`.
    fn next(&self, set: usize, n: u64) -> Option<(u64, u64)> {
        let ranges = &self.sets[set];
        match last_begun(ranges, n) {
            Some((low, high)) if n <= high => Some((low, high)),
            _ => ranges.range(n..).next().map(|(&low, &high)| (low, high)),
        }
    }
}

// A workload: a call to a line, and a line `time` between the calls that come before and those that are timed.

#[derive(Clone, Copy)]
enum Call {
    Put(u64, u64),
    Take(u64, u64),
    Hold(u64),
    Walk,
    Move(u64),
}

#[derive(Default)]
struct Workload {
    before: Vec<Call>,
    timed: Vec<Call>,
}

/// Two IDs of one REPLID, the first not above the second.
fn read_range(low: &str, high: &str) -> Option<(u64, u64)> {
    let (low, high) = (low.parse().ok()?, high.parse().ok()?);
    (low >= COUNTERS && low <= high && low / COUNTERS == high / COUNTERS).then_some((low, high))
}

fn read_call(line: &str) -> Option<Call> {
    let words: Vec<&str> = line.split(' ').collect();
    match words[..] {
        ["put", low, high] => read_range(low, high).map(|(low, high)| Call::Put(low, high)),
        ["take", low, high] => read_range(low, high).map(|(low, high)| Call::Take(low, high)),
        ["hold", n] => n.parse().ok().map(Call::Hold),
        ["walk"] => Some(Call::Walk),
        ["move", times] => times.parse().ok().map(Call::Move),
        _ => None,
    }
}

fn read_workload() -> Result<Workload, Box<dyn Error>> {
    let mut workload = Workload::default();
    for line in std::io::read_to_string(std::io::stdin())?.lines() {
        if line == "time" {
            workload.before.append(&mut workload.timed);
        } else {
            workload.timed.push(read_call(line).ok_or_else(|| format!("no call of a workload: {line}"))?);
        }
    }
    Ok(workload)
}

// A run, and the digest of its answers.

fn mixed(digest: u64, value: u64) -> u64 {
    (digest ^ value).wrapping_mul(0x100_0000_01b3)
}

/// A digest with every range of a set more, by nexts from 0 on, each from right behind the range before, until there is none.
fn walked(store: &Store, set: usize, mut digest: u64) -> u64 {
    let mut from = Some(0);
    while let Some((low, high)) = from.and_then(|n| store.next(set, n)) {
        digest = mixed(mixed(digest, low), high);
        from = high.checked_add(1);
    }
    mixed(digest, 0)
}

/// Makes a call, and gives the digest with its answer more.
fn perform(store: &mut Store, call: Call, digest: u64) -> u64 {
    let answer = match call {
        Call::Put(low, high) => store.put(SET, low, high),
        Call::Take(low, high) => store.take(SET, low, high),
        Call::Hold(n) => store.holds(SET, n),
        Call::Walk => return walked(store, SET, digest),
        Call::Move(times) => {
            for _ in 0..times {
                black_box(&mut *store).move_set(SET, OTHER);
                black_box(&mut *store).move_set(OTHER, SET);
            }
            store.move_set(SET, OTHER);
            return digest;
        }
    };
    mixed(digest, u64::from(answer))
}

fn perform_all(store: &mut Store, calls: &[Call], digest: u64) -> u64 {
    calls.iter().fold(digest, |digest, &call| perform(store, call, digest))
}

/// A digest with the total more, and every range of every set.
fn with_all_ranges(store: &Store, digest: u64) -> u64 {
    (0..SET_COUNT).fold(mixed(digest, store.total as u64), |digest, set| walked(store, set, digest))
}

/// Makes the calls of a workload, and gives the digest of the answers and the nanoseconds of the timed ones.
fn run(workload: &Workload, store: &mut Store) -> (u64, u128) {
    let before = perform_all(store, &workload.before, 1);
    let store = black_box(store);
    let start = Instant::now();
    let answers = black_box(perform_all(store, black_box(&workload.timed), before));
    (answers, start.elapsed().as_nanos())
}

fn main() -> Result<(), Box<dyn Error>> {
    let words: Vec<String> = std::env::args().skip(1).collect();
    let [runs] = words.as_slice() else {
        return Err("usage: baseline RUNS < WORKLOAD".into());
    };
    let runs: u32 = runs.parse()?;
    let workload = read_workload()?;
    let mut store = Store::new(LIMIT);
    let (answers, _) = run(&workload, &mut store);
    println!("digest {}", with_all_ranges(&store, answers));
    for _ in 0..runs {
        let (again, nanoseconds) = run(&workload, &mut Store::new(LIMIT));
        if again != answers {
            return Err("two runs answered differently".into());
        }
        println!("nanoseconds {nanoseconds}");
    }
    Ok(())
}
