//! The desk's calls beside hand-written ones over the same bytes.

use std::hint::black_box;
use std::time::Instant;

use engine_tests::damage::{list_rows, reordered, rows, spoil, Base};
use engine_tests::families::{rolled, scattered, Extent, FAMILIES};
use engine_tests::records::{list_bytes, listed, members, number, plan_bytes, Edition, Plan, Site, ONE};
use engine_tests::reference::read_list;
use engine_tests::rng::Rng;
use sulgheti::{ffi, PLAN2_MAX};

use crate::{hand_made, hand_store, Input, BATCH};

/// How many desks the calls of a batch go round, so that what a call writes is put back between batches.
const DESKS: usize = 16;

/// How many random desks both versions must agree on before anything is measured.
const CASES: usize = 4000;

/// The bytes of a store and its table, of an edition.
#[derive(Clone, PartialEq, Debug)]
struct Desk {
    edition: Edition,
    store: Vec<u8>,
    table: Vec<u8>,
}

/// A call, and what it is given beside store and table.
#[derive(Clone, Debug)]
enum Call {
    Fresh,
    Load(Vec<u8>),
    Change(usize, u32),
    Add(u8, u8, u32),
    Propose(Vec<u8>),
    Share(usize),
    Depot(u8),
    Difference(u8, u8),
    Written(usize),
    AtLeast(u32),
    List(usize),
}

/// What a call writes beside store and table.
#[derive(Clone, PartialEq, Debug)]
struct Out {
    figures: [u64; 2],
    difference: i64,
    buffer: Vec<u8>,
}

impl Out {
    fn new() -> Out {
        Out { figures: [0xA5A5; 2], difference: 0x5A5A, buffer: vec![0xA5; PLAN2_MAX] }
    }
}

type Version = fn(&Call, &mut Desk, &mut Out) -> i64;

const VERSIONS: [Version; 2] = [by_engine, by_hand];

fn by_engine(call: &Call, desk: &mut Desk, out: &mut Out) -> i64 {
    let first_edition = desk.edition == ONE;
    let (store, n, table, m) = (desk.store.as_mut_ptr(), desk.store.len(), desk.table.as_mut_ptr(), desk.table.len());
    let [one, two] = &mut out.figures;
    // SAFETY: all parts are valid for their lengths and overlap nothing.
    unsafe {
        match call {
            Call::Fresh if first_edition => ffi::sulgheti_fresh(store, n),
            Call::Fresh => ffi::sulgheti_fresh2(store, n),
            Call::Load(list) => ffi::sulgheti_load(store, n, table, m, list.as_ptr(), list.len()),
            Call::Change(site, w) if first_edition => ffi::sulgheti_change(store, n, table, m, *site, *w as u16),
            Call::Change(site, w) => ffi::sulgheti_change2(store, n, table, m, *site, *w),
            Call::Add(a, b, w) if first_edition => ffi::sulgheti_add(store, n, table, m, *a, *b, *w as u16),
            Call::Add(a, b, w) => ffi::sulgheti_add2(store, n, table, m, *a, *b, *w),
            Call::Propose(plan) => ffi::sulgheti_propose(store, n, table, m, plan.as_ptr(), plan.len()),
            Call::Share(site) => ffi::sulgheti_share(store, n, table, m, *site, one, two),
            Call::Depot(depot) => ffi::sulgheti_depot(store, n, table, m, *depot, one, two),
            Call::Difference(a, b) => ffi::sulgheti_difference(store, n, table, m, *a, *b, &mut out.difference, one),
            Call::Written(length) => {
                let buffer = &mut out.buffer[..*length];
                ffi::sulgheti_written(store, n, table, m, buffer.as_mut_ptr(), buffer.len())
            }
            Call::AtLeast(mark) => ffi::sulgheti_at_least(store, n, table, m, *mark, one),
            Call::List(length) => {
                let buffer = &mut out.buffer[..*length];
                ffi::sulgheti_list(store, n, table, m, buffer.as_mut_ptr(), buffer.len())
            }
        }
    }
}

fn by_hand(call: &Call, desk: &mut Desk, out: &mut Out) -> i64 {
    let Desk { store, table, .. } = desk;
    let [one, two] = &mut out.figures;
    match call {
        Call::Fresh => hand_store::fresh(store),
        Call::Load(list) => hand_store::load(store, table, list),
        Call::Change(site, litres) => hand_store::change(store, table, *site, *litres),
        Call::Add(first, second, litres) => hand_store::add(store, table, *first, *second, *litres),
        Call::Propose(plan) => hand_store::propose(store, table, plan),
        Call::Share(site) => hand_store::share(store, table, *site, one, two),
        Call::Depot(depot) => hand_store::depot(store, table, *depot, one, two),
        Call::Difference(a, b) => hand_store::difference(store, table, *a, *b, &mut out.difference, one),
        Call::Written(length) => hand_store::written(store, table, &mut out.buffer[..*length]),
        Call::AtLeast(mark) => hand_store::at_least(store, table, *mark, one),
        Call::List(length) => hand_store::list(store, table, &mut out.buffer[..*length]),
    }
}

/// Calls both versions at equal bytes; code, figures, store, table and buffer must be the same. Answers the code.
fn agree(call: &Call, desk: &mut Desk) -> i64 {
    let mut other = desk.clone();
    let (mut out, mut other_out) = (Out::new(), Out::new());
    let code = by_engine(call, desk, &mut out);
    let other_code = by_hand(call, &mut other, &mut other_out);
    assert_eq!(code, other_code, "engine and hand on {call:?} at {desk:?}");
    assert!(out == other_out, "what engine and hand write on {call:?} at {desk:?}");
    assert!(*desk == other, "store and table after {call:?}: engine {desk:?}, hand {other:?}");
    code
}

/// A desk with a table of so many bytes that has loaded a list and holds a plan, where one is given. Sites
/// stand in the other places too.
fn holding(edition: Edition, bytes: usize, list: &[u8], plan: Option<&[u8]>) -> Desk {
    let mut desk = Desk { edition, store: vec![0xA5; edition.store_bytes()], table: vec![1; bytes] };
    assert_eq!(agree(&Call::Fresh, &mut desk), 0);
    assert_eq!(agree(&Call::Load(list.to_vec()), &mut desk), 0);
    if let Some(plan) = plan {
        assert_eq!(agree(&Call::Propose(plan.to_vec()), &mut desk), 0);
    }
    desk
}

/// A line of the table: what it is called, the desk before each call, and the calls, one for each desk.
struct Line {
    name: &'static str,
    desk: Desk,
    calls: Vec<Call>,
    /// Whether a call leaves the desk as the next one needs it.
    stays: bool,
}

fn lines(input: &Input) -> Vec<Line> {
    let (e, list, plan) = (input.edition, &input.list, &input.plan);
    let table = e.place_bytes() * input.sites;
    let full = holding(e, table, list, Some(plan));
    let planless = holding(e, table, list, None);
    // without its last site
    let mut shorter = read_list(e, list).expect("a list that reads");
    let depots = members(listed(&shorter));
    let last = shorter.sites.pop().expect("a site");
    let shorter = list_bytes(e, &shorter);
    let room = holding(e, table, &shorter, Some(&hand_made(&shorter)));
    let (list_room, plan_room) = (e.longest_list(), e.plan_length(64, 512));
    let site = |i: usize| i * input.sites / DESKS;
    let depot = |i: usize| depots[i * depots.len() / DESKS] as u8;
    // W/q of a depot, rounded down: its group and all before it are read
    let mark = |i: usize| {
        let (mut litres, mut size) = (0, 0);
        assert_eq!(hand_store::depot(&full.store, &full.table, depot(i), &mut litres, &mut size), 0);
        u32::try_from(litres / size).unwrap_or(u32::MAX)
    };
    let line = |name, desk: &Desk, stays, call: &dyn Fn(usize) -> Call| Line {
        name,
        desk: desk.clone(),
        calls: (0..DESKS).map(call).collect(),
        stays,
    };
    vec![
        line("fresh", &full, true, &|_| Call::Fresh),
        line("load", &full, true, &|_| Call::Load(list.clone())),
        line("change", &full, false, &|i| Call::Change(site(i), 1 + i as u32)),
        line("add", &room, false, &|_| Call::Add(last.first, last.second, last.litres)),
        line("propose, a plan held", &full, true, &|_| Call::Propose(plan.clone())),
        line("propose, none held", &planless, false, &|_| Call::Propose(plan.clone())),
        line("share", &full, true, &|i| Call::Share(site(i))),
        line("depot", &full, true, &|i| Call::Depot(depot(i))),
        line("difference", &full, true, &|i| Call::Difference(depot(i), depot(DESKS - 1 - i))),
        line("written", &full, true, &|_| Call::Written(plan_room)),
        line("at_least", &full, true, &|i| Call::AtLeast(mark(i))),
        line("list, a plan held", &full, true, &|_| Call::List(list_room)),
        line("list, none held", &planless, true, &|_| Call::List(list_room)),
    ]
}

/// Nanoseconds per call by engine and by hand: medians of batches, the versions in turn. A batch is one or
/// more rounds over the desks; they are put back before it, outside the time.
fn timed(line: &Line, rounds: usize) -> [f64; 2] {
    let mut desks = vec![line.desk.clone(); DESKS];
    let mut out = Out::new();
    let mut batch = |version: Version, turns: usize| {
        if !line.stays {
            for desk in &mut desks {
                desk.store.copy_from_slice(&line.desk.store);
                desk.table.copy_from_slice(&line.desk.table);
            }
        }
        let start = Instant::now();
        for _ in 0..turns {
            for (call, desk) in line.calls.iter().zip(&mut desks) {
                let answer = version(black_box(call), black_box(desk), &mut out);
                assert!(answer >= 0, "{} is refused by {answer}", line.name);
            }
        }
        start.elapsed().as_nanos() as f64 / (turns * DESKS) as f64
    };
    let turns = VERSIONS.map(|version| {
        let each = batch(version, 1).min(batch(version, 1)).max(1.0);
        if line.stays {
            (BATCH as f64 / (each * DESKS as f64)).ceil() as usize
        } else {
            1
        }
    });
    let mut times: [Vec<f64>; 2] = Default::default();
    for _ in 0..rounds {
        for (i, version) in VERSIONS.into_iter().enumerate() {
            times[i].push(batch(version, turns[i]));
        }
    }
    times.map(|mut t| {
        t.sort_by(f64::total_cmp);
        t[t.len() / 2]
    })
}

/// The table: for each call the means over the lists, and the list with the worst ratio.
pub fn measure(edition: Edition, inputs: &[&Input], rounds: usize) {
    compare(edition, inputs);
    let mut rows: Vec<(&str, Vec<[f64; 2]>)> = Vec::new();
    for input in inputs {
        for (i, line) in lines(input).iter().enumerate() {
            if rows.len() == i {
                rows.push((line.name, Vec::new()));
            }
            rows[i].1.push(timed(line, rounds));
        }
    }
    println!("| call | ns | by hand | ratio | worst ratio |");
    println!("|---|---|---|---|---|");
    for (name, times) in rows {
        let n = times.len() as f64;
        let [engine, hand] = [0, 1].map(|v| times.iter().map(|t| t[v]).sum::<f64>() / n);
        let ratios: Vec<f64> = times.iter().map(|t| t[0] / t[1]).collect();
        let mean = (ratios.iter().map(|r| r.ln()).sum::<f64>() / n).exp();
        let worst = (0..ratios.len()).max_by(|&i, &j| ratios[i].total_cmp(&ratios[j])).expect("a list");
        println!("| {name} | {engine:.0} | {hand:.0} | {mean:.2} | {:.2} ({}) |", ratios[worst], inputs[worst].name);
    }
}

/// Every call that is measured, and calls at random desks, some of them damaged: both versions must agree.
fn compare(edition: Edition, inputs: &[&Input]) {
    for input in inputs {
        for line in lines(input) {
            for call in &line.calls {
                assert!(agree(call, &mut line.desk.clone()) >= 0, "{} on {}", line.name, input.name);
            }
        }
    }
    let mut rng = Rng::new(1);
    let (mut calls, mut granted, mut refused) = (0, 0, [0; 24]);
    for _ in 0..CASES {
        let base = random_base(&mut rng, edition);
        let (list, plan) = (list_bytes(edition, &base.list), plan_bytes(edition, &base.plan));
        let place = edition.place_bytes();
        let bytes = place * (base.list.len() + *rng.pick(&[0, 1, 2, 600])) + rng.below(place);
        let mut desk = holding(edition, bytes, &list, rng.percent(80).then_some(&plan));
        if rng.percent(60) {
            for _ in 0..rng.from_to(1, 2) {
                damage(&mut rng, &mut desk);
            }
        }
        for _ in 0..12 {
            let mut after = desk.clone();
            let code = agree(&random_call(&mut rng, &base), &mut after);
            calls += 1;
            match code {
                0.. => granted += 1,
                -256 => refused[0] += 1,
                _ => refused[code.unsigned_abs() as usize] += 1,
            }
            if rng.percent(30) {
                desk = after;
            }
        }
    }
    let mut never = [vec![0, 17, 18, 19, 20], rows(edition)].concat();
    never.retain(|&row| refused[usize::from(row)] == 0);
    assert!(never.is_empty() && granted > 0, "rows never met: {never:?}");
    eprintln!("engine and hand agree on {calls} calls: {granted} granted, refused by row {refused:?}");
}

fn random_base(rng: &mut Rng, edition: Edition) -> Base {
    let (most, depots) = *rng.pick(&[(6, 3), (6, 3), (20, 7), (20, 7), (100, 30), (512, 64)]);
    let sites = if rng.percent(20) { most } else { rng.from_to(0, most) };
    let e = Extent { edition, sites, depots: rng.from_to(1, depots), litres: *rng.pick(&[3, 100, edition.most()]) };
    let family = rng.pick(&FAMILIES).1;
    let sites = family(rng, e);
    let sites: Vec<Site> = if rng.percent(50) { scattered(rng, &sites) } else { sites };
    let list = rolled(rng, edition, sites);
    let bytes = hand_made(&list_bytes(edition, &list));
    let grouped = usize::from(bytes[2]);
    let (front, back) = bytes[5..].split_at(10 * grouped);
    let groups = front.chunks(10).map(|r| number(&r[2..])).collect();
    let shares = back.chunks(edition.share_bytes).map(|r| number(&r[2..])).collect();
    Base { edition, list, plan: Plan { groups, shares } }
}

/// Changes the figures of the store, a place, or any bytes; never the store's length.
fn damage(rng: &mut Rng, desk: &mut Desk) {
    let put = |bytes: &mut [u8], at: usize, with: &[u8]| bytes[at..at + with.len()].copy_from_slice(with);
    let (e, place) = (desk.edition, desk.edition.place_bytes());
    let places = (desk.table.len() / place) as u64;
    let count = u64::from(desk.store[0]) | u64::from(desk.store[1]) << 8;
    let grouped = u64::from(desk.store[16]).clamp(1, 64) as usize;
    let near = (count as usize).clamp(1, 512);
    match rng.below(if e.has_rolls() { 12 } else { 10 }) {
        0 => {
            let figure = *rng.pick(&[0, 1, count.wrapping_sub(1), count + 1, places, places + 1, 512, 513, 1 << 32]);
            put(&mut desk.store, 0, &figure.to_le_bytes());
        }
        1 => put(&mut desk.store, 8, &rng.pick(&[0u64, 1, 2, 256, 1 << 63]).to_le_bytes()),
        2 => {
            let figure = *rng.pick(&[0, 1, grouped as u64 - 1, grouped as u64 + 1, 63, 64, 65, 1 << 40]);
            put(&mut desk.store, 16, &figure.to_le_bytes());
        }
        3 => {
            let at = 24 + 8 * rng.below(grouped) + rng.below(8);
            desk.store[at] ^= 1 << rng.below(8);
        }
        4 => {
            let at = e.store_share(rng.below(near));
            let share = *rng.pick(&[0, 1, 40, 64 * u64::from(e.most()), e.most_share()]);
            put(&mut desk.store, at, &e.s(share));
        }
        5 => {
            let at = e.store_share(rng.below(near));
            desk.store[at] = desk.store[at].wrapping_add(*rng.pick(&[1, 255]));
        }
        6 if places > 0 => {
            let at = place * rng.below(near.min(places as usize));
            if rng.percent(30) {
                put(&mut desk.table, at + 2, &e.litres(0));
            } else {
                desk.table[at + rng.below(place)] = *rng.pick(&[0, 1, 2, 63, 64, 255]);
            }
        }
        7 => {
            let length = desk.table.len();
            desk.table.truncate(length - rng.below(2 * place + 1).min(length));
        }
        8 if rng.percent(20) => desk.store.iter_mut().for_each(|b| *b = rng.byte()),
        10 => put(&mut desk.store, e.store_roll(), &rng.pick(&[0u64, 1, 1, 2, 1 << 40]).to_le_bytes()),
        11 => {
            let at = e.store_roll() + 8 + rng.below(64);
            desk.store[at] = *rng.pick(&[0, 1, 9, 10, 255]);
        }
        _ => {
            let at = rng.below(desk.store.len());
            desk.store[at] ^= 1 << rng.below(8);
        }
    }
}

fn random_call(rng: &mut Rng, base: &Base) -> Call {
    let near = base.list.len() + 2;
    let depots = members(listed(&base.list));
    let depot = |rng: &mut Rng| match rng.below(20) {
        0 => rng.byte(),
        1 => rng.below(64) as u8,
        _ if depots.is_empty() => 0,
        _ => *rng.pick(&depots) as u8,
    };
    let litres = |rng: &mut Rng| *rng.pick(&[0, 1, 2, 7, 100, 65_535, base.edition.most()]);
    // around the W/q of a group, or anywhere
    let mark = |rng: &mut Rng| {
        let groups = &base.plan.groups;
        if groups.is_empty() || rng.percent(20) {
            let any = rng.word() as u32;
            return *rng.pick(&[0, 1, 65_535, 65_536, u32::MAX, any]);
        }
        let k = rng.below(groups.len());
        let place = |depot: u8| groups.iter().position(|g| g >> depot & 1 == 1);
        let carried = base.list.iter().filter(|s| place(s.first).max(place(s.second)) == Some(k));
        let w: u64 = carried.map(|s| u64::from(s.litres)).sum();
        let q = base.list.size(groups[k]);
        let near = *rng.pick(&[w / q, w.div_ceil(q), (w / q).saturating_sub(1), w / q + 1, 65_536 + w / q]);
        u32::try_from(near).unwrap_or(u32::MAX)
    };
    let e = base.edition;
    let (mut list, mut plan) = (list_bytes(e, &base.list), plan_bytes(e, &base.plan));
    match rng.below(15) {
        0 if rng.percent(20) => Call::Fresh,
        0 | 1 => {
            if rng.percent(70) {
                let row = *rng.pick(&list_rows(e));
                spoil(rng, row, base, &mut list, &mut plan);
            }
            Call::Load(list)
        }
        2 => Call::Change(rng.below(near), litres(rng)),
        3 => Call::Add(depot(rng), depot(rng), litres(rng)),
        4..=6 => {
            if rng.percent(60) {
                // the later row first: it counts on bytes that the earlier one may cut off
                let row = 7 + rng.below(9) as u8;
                spoil(rng, row, base, &mut list, &mut plan);
                if row > 7 && rng.percent(30) {
                    let earlier = 7 + rng.below(usize::from(row) - 7) as u8;
                    spoil(rng, earlier, base, &mut list, &mut plan);
                }
            } else if rng.percent(30) {
                if let Some(other) = reordered(rng, base) {
                    plan = plan_bytes(e, &other);
                }
            }
            Call::Propose(plan)
        }
        7 => Call::Share(if rng.percent(3) { rng.word() as usize } else { rng.below(near) }),
        8 => Call::Depot(depot(rng)),
        9 | 10 => Call::Difference(depot(rng), depot(rng)),
        11 | 12 => Call::AtLeast(mark(rng)),
        13 => Call::List((list.len() + rng.below(4)).saturating_sub(2)),
        _ => Call::Written((plan.len() + rng.below(4)).saturating_sub(2).min(PLAN2_MAX)),
    }
}
