//! coupe's answers to requests on standard input, a request a line.
//!
//! `oracle answer` prints each request with its answer behind ` = `. `oracle compare` reads such lines from another
//! program, answers the requests itself, and prints how many agree of each kind and the first differences.
//!
//! | request | answer |
//! |---|---|
//! | `deposit SOURCE MASK` | number |
//! | `slow ZORDER ORDER STATE` | digits, end state |
//! | `encode2 X Y ORDER`, `encode3 X Y Z ORDER` | index |
//! | `cell LOW HIGH ORDER VALUE` (f64 as the decimal number of its bits) | cell |
//! | `median W W ..`, `median_in THREADS W W ..` (with so many threads) | cut, left weight |
//! | `rcb2 WIDTH HEIGHT DEPTH W W ..`, `rcb3 WIDTH HEIGHT LAYERS DEPTH W W ..` | splits by node, `/`, ids |

#![allow(dead_code, unexpected_cfgs, clippy::all)]

mod cartesian;
mod hilbert_curve;
mod nextafter;
mod stubs;

pub use nextafter::nextafter;
pub use stubs::*;

use cartesian::{Grid, IterationResult};
use std::collections::BTreeMap;
use std::io::{self, BufRead, BufWriter, Write};
use std::num::NonZeroUsize;

const UNCUT: u64 = 4294967295;

/// The pools of threads made so far, by their count.
struct Pools(BTreeMap<usize, rayon::ThreadPool>);

impl Pools {
    /// Runs `f` with more threads than half of `side`, so that each chunk of the median is one line.
    fn run<R: Send>(&mut self, side: usize, f: impl FnOnce() -> R + Send) -> R {
        self.run_in((side / 2 + 1).next_power_of_two(), f)
    }

    fn run_in<R: Send>(&mut self, threads: usize, f: impl FnOnce() -> R + Send) -> R {
        self.0
            .entry(threads)
            .or_insert_with(|| {
                rayon::ThreadPoolBuilder::new()
                    .num_threads(threads)
                    .build()
                    .expect("threads")
            })
            .install(f)
    }
}

/// Writes the cuts of a tree into heap order: node `node` at place `node - 1`.
fn place(tree: &IterationResult, node: usize, splits: &mut [u64]) {
    if let IterationResult::Split {
        position,
        left,
        right,
    } = tree
    {
        splits[node - 1] = *position as u64;
        place(left, 2 * node, splits);
        place(right, 2 * node + 1, splits);
    }
}

fn tree_answer(tree: &IterationResult, depth: usize, ids: Vec<usize>) -> Vec<String> {
    let mut splits = vec![UNCUT; (1 << depth) - 1];
    place(tree, 1, &mut splits);
    let mut words: Vec<String> = splits.iter().map(u64::to_string).collect();
    words.push("/".to_string());
    words.extend(ids.iter().map(usize::to_string));
    words
}

fn answer(request: &str, pools: &mut Pools) -> Option<String> {
    let mut words = request.split_ascii_whitespace();
    let kind = words.next()?;
    let n: Vec<u64> = words.map(|w| w.parse().ok()).collect::<Option<_>>()?;
    let f = |i: usize| f64::from_bits(n[i]);
    let side = |i: usize| NonZeroUsize::new(n[i] as usize);
    let said = match (kind, n.len()) {
        ("deposit", 2) => vec![hilbert_curve::door_deposit(n[0], n[1]).to_string()],
        ("slow", 3) => {
            let (digits, state) = hilbert_curve::door_slow(n[0], n[1] as usize, n[2] as usize);
            vec![digits.to_string(), state.to_string()]
        }
        ("encode2", 3) => vec![hilbert_curve::door_encode_2d(n[0], n[1], n[2] as usize).to_string()],
        ("encode3", 4) => {
            vec![hilbert_curve::door_encode_3d(n[0], n[1], n[2], n[3] as usize).to_string()]
        }
        ("cell", 4) => vec![hilbert_curve::door_cell(f(0), f(1), n[2] as usize, f(3)).to_string()],
        ("median", 1..) => {
            let (at, left) =
                pools.run(n.len(), || cartesian::door_median(&n, n.iter().sum::<u64>()));
            vec![at.to_string(), left.to_string()]
        }
        ("median_in", 2..) => {
            let weights = &n[1..];
            let (at, left) = pools.run_in(n[0] as usize, || {
                cartesian::door_median(weights, weights.iter().sum::<u64>())
            });
            vec![at.to_string(), left.to_string()]
        }
        ("rcb2", 3..) => {
            let grid = Grid::new_2d(side(0)?, side(1)?);
            let (depth, weights) = (n[2] as usize, &n[3..]);
            pools.run(n[0].max(n[1]) as usize, || {
                let tree = cartesian::door_tree_2d(grid, weights, depth);
                let mut ids = vec![0; weights.len()];
                grid.rcb(&mut ids, weights, depth);
                tree_answer(&tree, depth, ids)
            })
        }
        ("rcb3", 4..) => {
            let grid = Grid::new_3d(side(0)?, side(1)?, side(2)?);
            let (depth, weights) = (n[3] as usize, &n[4..]);
            pools.run(n[0].max(n[1]).max(n[2]) as usize, || {
                let tree = cartesian::door_tree_3d(grid, weights, depth);
                let mut ids = vec![0; weights.len()];
                grid.rcb(&mut ids, weights, depth);
                tree_answer(&tree, depth, ids)
            })
        }
        _ => return None,
    };
    Some(said.join(" "))
}

fn main() -> io::Result<()> {
    let compare = match std::env::args().nth(1).as_deref() {
        Some("answer") => false,
        Some("compare") => true,
        _ => {
            eprintln!("usage: oracle answer|compare <REQUESTS");
            std::process::exit(2);
        }
    };
    let mut out = BufWriter::new(io::stdout().lock());
    let mut pools = Pools(BTreeMap::new());
    let mut counts: BTreeMap<String, (u64, u64)> = BTreeMap::new();
    let mut shown = 0;
    for (i, line) in io::stdin().lock().lines().enumerate() {
        let line = line?;
        if line.is_empty() || line.starts_with('#') {
            continue;
        }
        let (request, theirs) = line.split_once(" = ").unwrap_or((&line, ""));
        let Some(ours) = answer(request, &mut pools) else {
            eprintln!("oracle: line {}: no request: {request}", i + 1);
            std::process::exit(1);
        };
        if !compare {
            writeln!(out, "{request} = {ours}")?;
            continue;
        }
        let kind = request.split(' ').next().unwrap_or("").to_string();
        let count = counts.entry(kind).or_default();
        if ours == theirs {
            count.0 += 1;
        } else {
            count.1 += 1;
            if shown < 20 {
                shown += 1;
                let cut = |s: &str| s.chars().take(300).collect::<String>();
                writeln!(out, "differs: {}\n  coupe: {}\n  here:  {}", cut(request), cut(&ours), cut(theirs))?;
            }
        }
    }
    let (mut same, mut other) = (0, 0);
    for (kind, (a, b)) in &counts {
        writeln!(out, "{kind}: {a} agree, {b} differ")?;
        same += a;
        other += b;
    }
    if compare {
        writeln!(out, "all: {same} agree, {other} differ")?;
    }
    out.flush()?;
    std::process::exit(if other == 0 { 0 } else { 1 })
}
