// Times the proved stores beside a BTreeSet<u32> and a scanned Vec<u32> of codes, in one run.
use std::collections::{BTreeSet, HashSet};
use std::hint::black_box;
use std::time::Instant;

unsafe extern "C" {
    fn list_work(kind: u8, stored: *const u8, n: usize, asked: *const u8, m: usize, rounds: u64) -> u64;
    fn cube_work(kind: u8, stored: *const u8, n: usize, asked: *const u8, m: usize, rounds: u64) -> u64;
}

type Foreign = unsafe extern "C" fn(u8, *const u8, usize, *const u8, usize, u64) -> u64;

struct Random(u64);

impl Random {
    fn below(&mut self, n: u32) -> u32 {
        self.0 = self.0.wrapping_mul(6364136223846793005).wrapping_add(1442695040888963407);
        ((self.0 >> 33) % u64::from(n)) as u32
    }

    fn code(&mut self, side: u32) -> u32 {
        (self.below(side) << 16) | (self.below(side) << 8) | self.below(side)
    }
}

fn bytes(codes: &[u32]) -> Vec<u8> {
    codes.iter().flat_map(|c| [(c >> 16) as u8, (c >> 8) as u8, *c as u8, 0]).collect()
}

fn foreign(work: Foreign, kind: u8, stored: &[u8], asked: &[u8], rounds: u64) -> u64 {
    unsafe { work(kind, stored.as_ptr(), stored.len(), asked.as_ptr(), asked.len(), rounds) }
}

fn tree(kind: u8, stored: &[u32], asked: &[u32], rounds: u64) -> u64 {
    let mut set = BTreeSet::new();
    let mut sum = 0;
    if kind == 0 {
        for _ in 0..rounds {
            set.clear();
            set.extend_one_by_one(stored);
            sum += set.len() as u64;
        }
        return sum;
    }
    set.extend_one_by_one(stored);
    for _ in 0..rounds {
        for c in asked {
            if kind == 1 {
                sum += u64::from(set.contains(c));
            } else if let Some(f) = set.range(c & !255..).next().filter(|f| *f >> 8 == c >> 8) {
                sum += u64::from(f & 255) + 1;
            }
        }
    }
    sum
}

trait OneByOne {
    fn extend_one_by_one(&mut self, codes: &[u32]);
}

impl OneByOne for BTreeSet<u32> {
    fn extend_one_by_one(&mut self, codes: &[u32]) {
        for c in codes {
            self.insert(*c);
        }
    }
}

impl OneByOne for Vec<u32> {
    fn extend_one_by_one(&mut self, codes: &[u32]) {
        for c in codes {
            if position(self, *c).is_none() {
                self.push(*c);
            }
        }
    }
}

// A scan record by record. `contains` of the library compares many numbers at a time.
fn position(list: &[u32], code: u32) -> Option<usize> {
    list.iter().position(|c| *c == code)
}

fn scan(kind: u8, stored: &[u32], asked: &[u32], rounds: u64) -> u64 {
    let mut list = Vec::with_capacity(65_536);
    let mut sum = 0;
    if kind == 0 {
        for _ in 0..rounds {
            list.clear();
            list.extend_one_by_one(stored);
            sum += list.len() as u64;
        }
        return sum;
    }
    list.extend_one_by_one(stored);
    for _ in 0..rounds {
        for c in asked {
            if kind == 1 {
                sum += u64::from(position(&list, *c).is_some());
            } else if let Some(f) = list.iter().filter(|f| **f >> 8 == c >> 8).min() {
                sum += u64::from(f & 255) + 1;
            }
        }
    }
    sum
}

type Run<'a> = (u64, Box<dyn Fn(u64) -> u64 + 'a>);

fn seconds(run: impl Fn() -> u64) -> f64 {
    let start = Instant::now();
    black_box(run());
    start.elapsed().as_secs_f64()
}

// Operations a second of each run: the best time of its rounds less the best time of none, out of nine, the runs in turn.
fn speeds(operations: usize, runs: &[Run]) -> Vec<f64> {
    let mut best = vec![(f64::MAX, f64::MAX); runs.len()];
    for _ in 0..9 {
        for ((none, all), (rounds, run)) in best.iter_mut().zip(runs) {
            *none = none.min(seconds(|| run(black_box(0))));
            *all = all.min(seconds(|| run(black_box(*rounds))));
        }
    }
    best.iter().zip(runs).map(|((none, all), (rounds, _))| operations as f64 * *rounds as f64 / (all - none)).collect()
}

fn main() {
    println!("| call | triples | list | cube | BTreeSet | Vec scan | list / Vec | cube / BTreeSet |");
    println!("|---|---|---|---|---|---|---|---|");
    for (n, side) in [(100, 64), (1_000, 64), (4_096, 64), (65_536, 256)] {
        let mut random = Random(n as u64);
        let mut seen = HashSet::new();
        let mut fresh = || loop {
            let c = random.code(side);
            if seen.insert(c) {
                return c;
            }
        };
        let stored: Vec<u32> = (0..n).map(|_| fresh()).collect();
        let asked: Vec<u32> = (0..1_000).map(|i| if i % 2 == 0 { stored[i * 7919 % n] } else { fresh() }).collect();
        let (s, a) = (bytes(&stored), bytes(&asked));
        for (kind, name) in [(0, "add"), (1, "has"), (2, "next")] {
            let operations = if kind == 0 { n } else { asked.len() };
            let slow = (150_000_000 / (operations * n) as u64).max(if kind == 0 { 1 } else { 10 });
            let fast = (10_000_000 / operations as u64).max(1);
            let mut runs: Vec<Run> = vec![
                (slow, Box::new(|r| foreign(list_work, kind, &s, &a, r))),
                (slow, Box::new(|r| scan(kind, &stored, &asked, r))),
                (fast, Box::new(|r| tree(kind, &stored, &asked, r))),
            ];
            if side == 64 {
                runs.push((fast, Box::new(|r| foreign(cube_work, kind, &s, &a, r))));
            }
            for (_, run) in &runs {
                assert_eq!(run(1), tree(kind, &stored, &asked, 1));
            }
            let v = speeds(operations, &runs);
            let (cube, ratio) = match v.get(3) {
                Some(c) => (format!("{c:.2e}"), format!("{:.2}", c / v[2])),
                None => ("-".into(), "-".into()),
            };
            println!("| {name} | {n} | {:.2e} | {cube} | {:.2e} | {:.2e} | {:.2} | {ratio} |", v[0], v[2], v[1], v[0] / v[1]);
        }
    }
}
