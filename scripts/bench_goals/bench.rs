// Times answers to hostile goals over closures of some 4,096 triples. The closure is computed here, row by row of the
// entailment patterns, over terms below 64.
use std::collections::BTreeSet;
use std::time::Instant;

unsafe extern "C" {
    fn list_goal(stored: *const u8, n: usize, rows: *const u8, m: usize, rounds: u64) -> u64;
    fn cube_goal(stored: *const u8, n: usize, rows: *const u8, m: usize, rounds: u64) -> u64;
}

type Foreign = unsafe extern "C" fn(*const u8, usize, *const u8, usize, u64) -> u64;
type Triple = (u8, u8, u8);

const TYPE: u8 = 0;
const PROPERTY: u8 = 1;
const DOMAIN: u8 = 21;
const RANGE: u8 = 22;
const CLASS: u8 = 16;
const RESOURCE: u8 = 15;
const SUB_CLASS: u8 = 23;
const SUB_PROPERTY: u8 = 24;

// Properties, each below the next; the first has edges between nodes, so all have. Nodes are the terms from 34 on; the first are
// classes.
const PROPERTIES: [u8; 8] = [30, 31, 32, 33, 26, 27, 28, 29];
const LINKS: u8 = 30;
const FIRST_NODE: u8 = 34;
const NODES: u8 = 30;

struct Random(u64);

impl Random {
    fn below(&mut self, n: u32) -> u32 {
        self.0 = self.0.wrapping_mul(6364136223846793005).wrapping_add(1442695040888963407);
        ((self.0 >> 33) % u64::from(n)) as u32
    }
}

// What follows from one triple beside all others.
fn follow(set: &BTreeSet<Triple>, (x, a, y): Triple, out: &mut Vec<Triple>) {
    out.push((a, TYPE, PROPERTY));
    out.push((x, TYPE, RESOURCE));
    out.push((y, TYPE, RESOURCE));
    let with = |s: u8, p: u8| set.range((s, p, 0)..=(s, p, 255)).map(|t| t.2);
    out.extend(with(a, DOMAIN).map(|c| (x, TYPE, c)));
    out.extend(with(a, RANGE).map(|c| (y, TYPE, c)));
    out.extend(with(a, SUB_PROPERTY).map(|b| (x, b, y)));
    match a {
        SUB_PROPERTY => out.extend(with(y, SUB_PROPERTY).map(|c| (x, a, c))),
        SUB_CLASS => out.extend(with(y, SUB_CLASS).map(|c| (x, a, c))),
        TYPE => {
            out.extend(with(y, SUB_CLASS).map(|d| (x, TYPE, d)));
            match y {
                PROPERTY => out.push((x, SUB_PROPERTY, x)),
                CLASS => out.extend([(x, SUB_CLASS, RESOURCE), (x, SUB_CLASS, x)]),
                _ => {}
            }
        }
        _ => {}
    }
}

fn closure(kept: &[Triple]) -> Vec<u8> {
    let mut set: BTreeSet<Triple> = kept.iter().copied().collect();
    set.extend([(SUB_CLASS, DOMAIN, CLASS), (SUB_CLASS, RANGE, CLASS), (TYPE, RANGE, CLASS), (SUB_PROPERTY, DOMAIN, PROPERTY)]);
    loop {
        let mut out = Vec::new();
        for t in &set {
            follow(&set, *t, &mut out);
        }
        let before = set.len();
        set.extend(out);
        if set.len() == before {
            return set.iter().flat_map(|(s, p, o)| [*s, *p, *o]).collect();
        }
    }
}

// Kept triples: edges between nodes where the test says so, n properties, a chain of classes, a class for each node.
fn kept(n: usize, edge: impl Fn(u8, u8) -> bool) -> Vec<Triple> {
    let mut kept: Vec<Triple> = PROPERTIES[..n].windows(2).map(|p| (p[0], SUB_PROPERTY, p[1])).collect();
    for i in 0..NODES {
        for j in 0..NODES {
            if i != j && edge(i, j) {
                kept.push((FIRST_NODE + i, LINKS, FIRST_NODE + j));
            }
        }
        kept.push((FIRST_NODE + i, TYPE, FIRST_NODE + i % 6));
    }
    for i in 0..5 {
        kept.push((FIRST_NODE + i, SUB_CLASS, FIRST_NODE + i + 1));
    }
    kept
}

fn blank(k: u8) -> u8 {
    248 + k
}

fn clique(n: u8) -> Vec<Triple> {
    (0..n).flat_map(|i| (0..n).filter(move |j| *j != i).map(move |j| (blank(i), LINKS, blank(j)))).collect()
}

// The goal with rows of names before it, which hold, so that it has 32 rows.
fn padded(goal: &[Triple]) -> Vec<u8> {
    let rows = (0..32 - goal.len() as u8).map(|i| (FIRST_NODE + i % NODES, TYPE, RESOURCE));
    rows.chain(goal.iter().copied()).flat_map(|(s, p, o)| [s, p, o]).collect()
}

fn call(f: Foreign, stored: &[u8], rows: &[u8], rounds: u64) -> u64 {
    unsafe { f(stored.as_ptr(), stored.len(), rows.as_ptr(), rows.len(), rounds) }
}

// The median time of an answer in milliseconds, out of eleven runs less the time to fill the store; the time of one run where
// that takes a second.
fn median(f: Foreign, stored: &[u8], rows: &[u8]) -> f64 {
    let timed = |rounds: u64| {
        let start = Instant::now();
        call(f, stored, rows, rounds);
        start.elapsed().as_secs_f64()
    };
    let once = timed(1);
    if once > 1.0 {
        return once * 1000.0;
    }
    let mut rounds = 1;
    while timed(rounds + 1) - timed(1) < 0.02 && rounds < 4096 {
        rounds *= 2;
    }
    let mut times: Vec<f64> = (0..11).map(|_| (timed(rounds + 1) - timed(1)) / rounds as f64 * 1000.0).collect();
    times.sort_by(f64::total_cmp);
    times[5]
}

fn main() {
    let mut random = Random(1);
    let mut linked = [[false; NODES as usize]; NODES as usize];
    for i in 0..NODES as usize {
        for j in 0..i {
            linked[i][j] = random.below(100) < 55;
            linked[j][i] = linked[i][j];
        }
    }
    let scattered = closure(&kept(8, |i, j| linked[i as usize][j as usize]));
    let parted = closure(&kept(5, |i, j| i % 5 != j % 5));
    let chain: Vec<Triple> = (0..7).map(|i| (blank(i), LINKS, blank(i + 1))).collect();
    let apart = [
        (blank(0), LINKS, blank(1)),
        (blank(2), TYPE, blank(3)),
        (blank(4), SUB_CLASS, blank(5)),
        (blank(6), LINKS, blank(6)),
    ];
    let ends = [chain.clone(), vec![(blank(7), SUB_PROPERTY, blank(0))]].concat();
    let goals: [(&str, &[u8], Vec<Triple>); 7] = [
        ("a row that fails after three unrelated rows", &scattered, apart.to_vec()),
        ("`_:x p _:x`", &scattered, vec![(blank(6), LINKS, blank(6))]),
        ("a chain of 8 blanks", &scattered, chain),
        ("a chain of 8 blanks whose ends do not meet", &scattered, ends),
        ("a clique of 5 among 30 terms", &scattered, clique(5)),
        ("a clique of 6 among 30 terms", &scattered, clique(6)),
        ("a clique of 6 where there are only such of 5", &parted, clique(6)),
    ];
    println!("{} and {} triples", scattered.len() / 3, parted.len() / 3);
    println!("| goal | answer | questions | list, ms | cube, ms |\n|---|---|---|---|---|");
    for (name, stored, goal) in goals {
        let rows = padded(&goal);
        let asked = call(cube_goal, stored, &rows, 0);
        let (questions, answer) = (asked / 2, if asked % 2 == 1 { "yes" } else { "no" });
        let list = if questions < 100_000 { format!("{:.3}", median(list_goal, stored, &rows)) } else { "-".into() };
        println!("| {name} | {answer} | {questions} | {list} | {:.3} |", median(cube_goal, stored, &rows));
    }
}
