//! The engine's speed beside hand-written versions, on the largest lists of several families.
//!
//!     engine-bench [--rounds N] [--only TEXT] [--edition N]   medians of times
//!     engine-bench --instructions [..]                        instructions per call, by valgrind's callgrind
//!     engine-bench --store [..]                               medians of times of the desk's calls
//!
//! (`--calls WHICH FAMILY N` is what `--instructions` runs under valgrind.)

mod hand;
mod hand_store;
mod store;

use std::hint::black_box;
use std::process::{exit, Command};
use std::time::Instant;

use engine_tests::families::{Extent, FAMILIES};
use engine_tests::records::{list_bytes, listed, Edition, List, EDITIONS, ONE};
use engine_tests::rng::Rng;
use sulgheti::ffi;

/// Calls under valgrind.
const CALLS: usize = 10;

/// How many calls are timed together, at least this long in nanoseconds.
const BATCH: u128 = 40_000;

fn main() {
    let words: Vec<String> = std::env::args().skip(1).collect();
    let (mut rounds, mut only, mut editions) = (1001, String::new(), EDITIONS.to_vec());
    let (mut instructions, mut desk) = (false, false);
    let mut rest = words.iter().map(String::as_str);
    while let Some(word) = rest.next() {
        match word {
            "--instructions" => instructions = true,
            "--store" => desk = true,
            "--rounds" => rounds = figure(rest.next()),
            "--edition" => {
                let number = figure(rest.next());
                editions.retain(|e| e.number == number);
                if editions.is_empty() {
                    usage()
                }
            }
            "--only" => only = rest.next().unwrap_or_else(|| usage()).to_string(),
            "--calls" => {
                let (which, family) = (rest.next().unwrap_or_else(|| usage()), figure(rest.next()));
                return calls(which, &inputs()[family], figure(rest.next()));
            }
            _ => usage(),
        }
    }
    let inputs: Vec<Input> = inputs();
    for (edition, rolled) in editions.into_iter().flat_map(|e| [false, true].map(|rolled| (e, rolled))) {
        let of = |input: &&Input| (input.edition, input.rolled) == (edition, rolled) && input.name.contains(&only);
        let chosen: Vec<&Input> = inputs.iter().filter(of).collect();
        if chosen.is_empty() {
            continue;
        }
        println!("edition {}{}", edition.number, if rolled { ", with a roll" } else { "" });
        if desk {
            store::measure(edition, &chosen, rounds);
        } else if instructions {
            measure(&chosen, &counted, ["instructions"; 2], 1.0, 0);
        } else {
            measure(&chosen, &|input| timed(input, rounds), ["ns", "µs"], 1000.0, 1);
            if edition == ONE {
                converted(&chosen, rounds);
            }
        }
    }
}

/// The table of Check and Make: Make's figures are divided by the scale and have so many digits behind the point.
fn measure(inputs: &[&Input], measured: &dyn Fn(&Input) -> [f64; 4], unit: [&str; 2], scale: f64, digits: usize) {
    println!(
        "| family | sites | depots | groups | check, {0} | by hand | ratio | make, {1} | by hand | ratio |",
        unit[0], unit[1]
    );
    println!("|---|---|---|---|---|---|---|---|---|---|");
    let (mut check, mut make) = (Vec::new(), Vec::new());
    for input in inputs {
        compare(input);
        let [a, b, c, d] = measured(input);
        check.push(a / b);
        make.push(c / d);
        println!(
            "| {} | {} | {} | {} | {a:.0} | {b:.0} | {:.2} | {:.digits$} | {:.digits$} | {:.2} |",
            input.name,
            input.sites,
            input.depots,
            input.groups,
            a / b,
            c / scale,
            d / scale,
            c / d
        );
    }
    println!("check: {}; make: {}", summary(&check), summary(&make));
}

fn usage() -> ! {
    eprintln!("usage: engine-bench [--instructions | --store] [--rounds N] [--only TEXT] [--edition N]");
    exit(2)
}

fn figure(word: Option<&str>) -> usize {
    word.and_then(|w| w.parse().ok()).unwrap_or_else(|| usage())
}

/// The geometric mean and the worst of some ratios.
fn summary(ratios: &[f64]) -> String {
    let mean = (ratios.iter().map(|r| r.ln()).sum::<f64>() / ratios.len() as f64).exp();
    format!("ratio {mean:.2} in the mean, {:.2} at worst", ratios.iter().fold(0.0, |a, &b| b.max(a)))
}

/// A largest list and a plan of it.
struct Input {
    edition: Edition,
    rolled: bool,
    name: String,
    number: usize,
    sites: usize,
    depots: u32,
    groups: usize,
    list: Vec<u8>,
    plan: Vec<u8>,
}

/// The lists, the same bytes in every run, with plans of the hand-written Make: in edition 1 with litres to 3 and to
/// 65,535, in edition 2 to 4,294,967,295, without a roll and with one of 1 to 9 crews.
fn inputs() -> Vec<Input> {
    let mut inputs: Vec<Input> = Vec::new();
    for edition in EDITIONS {
        let most = edition.most();
        let kinds = if edition == ONE { [(3, false), (most, false)] } else { [(most, false), (most, true)] };
        for (name, family) in FAMILIES {
            for (litres, rolled) in kinds {
                let sites = family(&mut Rng::new(1), Extent { edition, sites: 512, depots: 64, litres });
                let of = List { sites, roll: rolled.then(|| std::array::from_fn(|d| 1 + (5 * d % 9) as u8)) };
                let list = list_bytes(edition, &of);
                if inputs.iter().any(|i| i.list == list) {
                    continue;
                }
                let plan = hand_made(&list);
                inputs.push(Input {
                    edition,
                    rolled,
                    name: format!("{name}, to {}", of.iter().map(|s| s.litres).max().unwrap_or(0)),
                    number: inputs.len(),
                    sites: of.len(),
                    depots: listed(&of).count_ones(),
                    groups: usize::from(plan[2]),
                    list,
                    plan,
                });
            }
        }
    }
    inputs
}

/// The plan of the hand-written Make.
fn hand_made(list: &[u8]) -> Vec<u8> {
    let mut plan = vec![0; sulgheti::PLAN2_MAX];
    let length = hand::make(list, &mut plan);
    plan.truncate(usize::try_from(length).expect("a list that reads"));
    plan
}

/// Both versions of Make must give the same groups, and each plan must pass both versions of Check.
fn compare(input: &Input) {
    let mut plan = vec![0; input.plan.len()];
    assert_eq!(engine_make(&input.list, &mut plan), plan.len() as i64, "the engine's make on {}", input.name);
    let end = 5 + 10 * input.groups;
    assert_eq!(plan[..end], input.plan[..end], "the groups of {}", input.name);
    for p in [&plan, &input.plan] {
        assert_eq!(engine_check(&input.list, p), 0, "the engine's check on {}", input.name);
        assert_eq!(hand_check(&input.list, p), 0, "the hand-written check on {}", input.name);
    }
}

fn engine_check(list: &[u8], plan: &[u8]) -> i64 {
    // SAFETY: both slices are valid for their lengths.
    unsafe { ffi::sulgheti_check(list.as_ptr(), list.len(), plan.as_ptr(), plan.len()) }
}

fn engine_make(list: &[u8], out: &mut [u8]) -> i64 {
    // SAFETY: both slices are valid for their lengths, and `out` overlaps nothing.
    unsafe { ffi::sulgheti_make(list.as_ptr(), list.len(), out.as_mut_ptr(), out.len()) }
}

/// Under a plain name, for callgrind.
#[no_mangle]
#[inline(never)]
fn hand_check(list: &[u8], plan: &[u8]) -> i64 {
    hand::check(list, plan)
}

/// Under a plain name, for callgrind.
#[no_mangle]
#[inline(never)]
fn hand_make(list: &[u8], out: &mut [u8]) -> i64 {
    hand::make(list, out)
}

/// Calls one version n times.
fn calls(which: &str, input: &Input, n: usize) {
    let mut out = vec![0; sulgheti::PLAN2_MAX];
    for _ in 0..n {
        black_box(match which {
            "sulgheti_check" => engine_check(black_box(&input.list), black_box(&input.plan)),
            "hand_check" => hand_check(black_box(&input.list), black_box(&input.plan)),
            "sulgheti_make" => engine_make(black_box(&input.list), black_box(&mut out)),
            "hand_make" => hand_make(black_box(&input.list), black_box(&mut out)),
            _ => usage(),
        });
    }
}

const VERSIONS: [&str; 4] = ["sulgheti_check", "hand_check", "sulgheti_make", "hand_make"];

/// Nanoseconds per call of the four versions.
fn timed(input: &Input, rounds: usize) -> [f64; 4] {
    medians(rounds, &mut |i, n| calls(VERSIONS[i], input, n))
}

type Convert = fn(&[u8], &[u8], &mut [u8], &mut [u8]) -> Result<(usize, usize), i64>;

/// Lists with their plans from edition 1 to edition 2, and what that gives back to edition 1.
fn converted(inputs: &[&Input], rounds: usize) {
    let up: [Convert; 2] = [|a, b, c, d| sulgheti::upgrade_plan(a, b, c, d).map_err(|row| row.0.into()), hand::upgrade];
    let back: [Convert; 2] =
        [|a, b, c, d| sulgheti::downgrade_plan(a, b, c, d).map_err(|row| row.0.into()), hand::downgrade];
    let mut new: Vec<[Vec<u8>; 2]> = inputs.iter().map(|input| [input.list.clone(), input.plan.clone()]).collect();
    for (name, versions) in [("upgrade_plan", up), ("downgrade_plan", back)] {
        let (mut times, mut ratios) = ([0.0; 2], Vec::new());
        for given in &mut new {
            let mut outs = [vec![0; sulgheti::LIST2_MAX], vec![0; sulgheti::PLAN2_MAX]];
            let outputs = versions.map(|convert| {
                let [list_out, plan_out] = &mut outs;
                let (n, m) = convert(&given[0], &given[1], list_out, plan_out).expect("a list and its plan");
                [list_out[..n].to_vec(), plan_out[..m].to_vec()]
            });
            assert_eq!(outputs[0], outputs[1], "{name}");
            let [list_out, plan_out] = &mut outs;
            let pair = medians::<2>(rounds, &mut |i, n| {
                for _ in 0..n {
                    let given = black_box(&*given);
                    let _ = black_box(versions[i](&given[0], &given[1], black_box(list_out), black_box(plan_out)));
                }
            });
            times = [times[0] + pair[0], times[1] + pair[1]];
            ratios.push(pair[0] / pair[1]);
            *given = outputs.into_iter().next().expect("two outputs");
        }
        let [engine, hand] = times.map(|t| t / new.len() as f64);
        println!("{name}: {engine:.0} ns, by hand {hand:.0} ns; {}", summary(&ratios));
    }
}

/// Nanoseconds per call of N versions, of which `run` calls one so many times: medians of batches, the versions in turn.
fn medians<const N: usize>(rounds: usize, run: &mut dyn FnMut(usize, usize)) -> [f64; N] {
    let batches: [usize; N] = std::array::from_fn(|i| {
        let start = Instant::now();
        run(i, 20);
        let each = (start.elapsed().as_nanos() / 20).max(1);
        (BATCH / each).max(1) as usize
    });
    let mut times: [Vec<f64>; N] = std::array::from_fn(|_| Vec::new());
    for _ in 0..rounds {
        for (i, &batch) in batches.iter().enumerate() {
            let start = Instant::now();
            run(i, batch);
            times[i].push(start.elapsed().as_nanos() as f64 / batch as f64);
        }
    }
    times.map(|mut t| {
        t.sort_by(f64::total_cmp);
        t[t.len() / 2]
    })
}

/// Instructions per call of the four versions, with the functions that they call.
fn counted(input: &Input) -> [f64; 4] {
    VERSIONS.map(|which| under_valgrind(which, input) / CALLS as f64)
}

fn under_valgrind(which: &str, input: &Input) -> f64 {
    let file = std::env::temp_dir().join(format!("engine-bench.{}.callgrind", std::process::id()));
    let run = Command::new("valgrind")
        .arg("--tool=callgrind")
        .arg(format!("--toggle-collect={which}"))
        .arg(format!("--callgrind-out-file={}", file.display()))
        .arg(std::env::current_exe().expect("this program's path"))
        .args(["--calls", which, &input.number.to_string(), &CALLS.to_string()])
        .output()
        .unwrap_or_else(|e| {
            eprintln!("valgrind cannot be run: {e}");
            exit(2)
        });
    let written = std::fs::read_to_string(&file).unwrap_or_default();
    let _ = std::fs::remove_file(&file);
    let total = written.lines().find_map(|l| l.strip_prefix("totals: ").or(l.strip_prefix("summary: ")));
    match total.and_then(|t| t.trim().parse().ok()) {
        Some(count) if run.status.success() => count,
        _ => {
            eprintln!("{}", String::from_utf8_lossy(&run.stderr));
            exit(2)
        }
    }
}
