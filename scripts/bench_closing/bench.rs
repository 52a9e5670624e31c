// Times closing over the list store and over the cube beside clingo, in one run, on a few graphs, in regime RDFS.
use std::process::Command;
use std::time::Instant;

unsafe extern "C" {
    fn list_close(bytes: *const u8, n: usize, more: usize, rounds: u64) -> u64;
    fn cube_close(bytes: *const u8, n: usize, more: usize, rounds: u64) -> u64;
    fn list_calls(bytes: *const u8, n: usize, more: usize) -> u64;
    fn cube_calls(bytes: *const u8, n: usize, more: usize) -> u64;
}

type Close = unsafe extern "C" fn(*const u8, usize, usize, u64) -> u64;
type Triple = (u8, u8, u8);

const TYPE: u8 = 0;
const DOMAIN: u8 = 21;
const RANGE: u8 = 22;
const SC: u8 = 23;
const SP: u8 = 24;

struct Random(u64);

impl Random {
    fn below(&mut self, n: usize) -> u8 {
        self.0 = self.0.wrapping_mul(6364136223846793005).wrapping_add(1442695040888963407);
        ((self.0 >> 33) % n as u64) as u8
    }
}

struct Graph {
    name: &'static str,
    more: usize,
    kept: Vec<Triple>,
}

// FamilyPass SC Pass, Pass SC Item, opens domain Pass, opens range Hall, card opens Ropes.
fn halls() -> Graph {
    let kept = vec![(30, SC, 31), (31, SC, 32), (33, DOMAIN, 31), (33, RANGE, 34), (35, 33, 36)];
    Graph { name: "the halls", more: 7, kept }
}

// A chain of subclass steps, with instances of its first class.
fn chain(name: &'static str, steps: u8, instances: u8) -> Graph {
    let mut kept: Vec<Triple> = (0..steps).map(|i| (30 + i, SC, 31 + i)).collect();
    kept.extend((0..instances).map(|i| (31 + steps + i, TYPE, 30)));
    Graph { name, more: usize::from(steps) + 1 + usize::from(instances), kept }
}

// Random triples over some names, of which the first few are predicates; one in eight is a schema triple.
fn random(name: &'static str, triples: usize, names: usize) -> Graph {
    let mut random = Random(7);
    let mut kept = Vec::new();
    while kept.len() < triples {
        let s = 30 + random.below(names);
        let o = 30 + random.below(names);
        let p = match random.below(32) {
            0 => DOMAIN,
            1 => RANGE,
            2 => SC,
            3 => SP,
            4..8 => TYPE,
            _ => 30 + random.below(16),
        };
        let s = if matches!(p, DOMAIN | RANGE | SP) { 30 + random.below(16) } else { s };
        let o = if p == SP { 30 + random.below(16) } else { o };
        if !kept.contains(&(s, p, o)) {
            kept.push((s, p, o));
        }
    }
    Graph { name, more: names, kept }
}

// The least of some runs, in milliseconds.
fn least(runs: usize, mut run: impl FnMut() -> f64) -> f64 {
    (0..runs).map(|_| run()).fold(f64::INFINITY, f64::min)
}

fn ours(close: Close, bytes: &[u8], more: usize) -> (f64, u64) {
    let mut answer = 0;
    let mut once = || {
        let start = Instant::now();
        answer = unsafe { close(bytes.as_ptr(), bytes.len(), more, 1) };
        start.elapsed().as_secs_f64() * 1e3
    };
    let first = once();
    let runs = (1000.0 / first).clamp(3.0, 300.0) as usize;
    (least(runs, once).min(first), answer)
}

// The total time that clingo tells, and the size that it found.
fn clingo(graph: &Graph, rows: &str) -> (f64, u64) {
    let facts: String = graph.kept.iter().map(|(s, p, o)| format!("t({s},{p},{o}). ")).collect();
    let path = std::env::temp_dir().join(format!("bench_closing_{}.lp", std::process::id()));
    std::fs::write(&path, format!("#const n = {}. {facts}", 30 + graph.more)).unwrap();
    let mut size = 0;
    let time = least(30, || {
        let out = Command::new("clingo").args([rows, path.to_str().unwrap()]).output().unwrap();
        let text = String::from_utf8(out.stdout).unwrap();
        let at = text.find("size(").unwrap() + 5;
        size = text[at..].split(')').next().unwrap().parse().unwrap();
        let at = text.find("Time").unwrap();
        text[at..].split(':').nth(1).unwrap().trim().split('s').next().unwrap().parse::<f64>().unwrap() * 1e3
    });
    let _ = std::fs::remove_file(path);
    (time, size)
}

fn main() {
    let rows = std::env::args().nth(1).unwrap();
    println!("ms, least of many runs; the buffers are made and cleared in each run; the 100 classes only with --long");
    println!("{:32} {:>6} {:>9} {:>9} {:>7} {:>9} {:>9} {:>7} {:>9}", "graph", "size", "clingo", "list", "ratio", "calls", "cube", "ratio", "calls");
    for graph in [
        halls(),
        chain("16 steps, 17 instances", 16, 17),
        chain("30 classes, 30 instances", 29, 30),
        random("300 random over 120 names", 300, 120),
        random("512 random over 200 names", 512, 200),
        chain("100 classes, 100 instances", 99, 100),
    ] {
        if graph.more > 198 && graph.kept.len() < 200 && std::env::args().nth(2).is_none() {
            continue;
        }
        let bytes: Vec<u8> = graph.kept.iter().flat_map(|(s, p, o)| [*s, *p, *o, 0]).collect();
        let (theirs, size) = clingo(&graph, &rows);
        let (list, found) = ours(list_close, &bytes, graph.more);
        assert_eq!(size, found);
        let calls = unsafe { list_calls(bytes.as_ptr(), bytes.len(), graph.more) };
        print!("{:32} {size:6} {theirs:9.3} {list:9.3} {:7.3} {calls:9}", graph.name, list / theirs);
        if graph.more <= 34 {
            let (cube, found) = ours(cube_close, &bytes, graph.more);
            assert_eq!(size, found);
            let calls = unsafe { cube_calls(bytes.as_ptr(), bytes.len(), graph.more) };
            print!(" {cube:9.3} {:7.3} {calls:9}", cube / theirs);
        }
        println!();
    }
}
