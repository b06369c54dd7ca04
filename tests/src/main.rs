//! Runs the engine beside the independent implementation.
//!
//!     engine-tests [--cases N] [--seed S]
//!
//! First what is fixed: document 01's lists and examples, every byte of small inputs changed, all small
//! networks with all plans, the largest lists, every pair of rows. Then random cases, N in all; lists and plans that are
//! converted, N / 4 at random beside what is fixed; desk calls, a quarter as many and at least 60,000, in both editions;
//! and as many around steps of desks of edition 1 to edition 2. The others are done in both editions too, or their cases
//! are shared between them. In edition 2 lists have a roll or none.

use std::time::Instant;

use engine_tests::convert;
use engine_tests::damage::{kept, list_rows, reordered, rows, spoil, Base};
use engine_tests::decompose::shares;
use engine_tests::desk;
use engine_tests::families::{extent, random, roll, rolled, scattered, union, Extent, FAMILIES, LARGEST};
use engine_tests::known;
use engine_tests::migrate;
use engine_tests::near::{misplaced, miss, next_season};
use engine_tests::records::{
    isolated, list_bytes, listed, plan_bytes, site, Edition, List, Plan, Site, EDITIONS, ONE, TWO,
};
use engine_tests::reference::read_plan;
use engine_tests::run::Run;

/// The longest plan of either edition, in bytes.
const ROOM: usize = sulgheti::PLAN2_MAX;

fn main() {
    let (mut cases, mut seed) = (200_000, 20_260_101);
    let mut words = std::env::args().skip(1);
    while let Some(word) = words.next() {
        let figure = words.next().and_then(|w| w.parse::<u64>().ok());
        match (word.as_str(), figure) {
            ("--cases", Some(n)) => cases = n as usize,
            ("--seed", Some(n)) => seed = n,
            _ => {
                eprintln!("usage: engine-tests [--cases N] [--seed S]");
                std::process::exit(2);
            }
        }
    }
    let start = Instant::now();
    let mut run = Run::new(seed);
    println!("seed {seed}");
    let part = |name: &str, run: &mut Run, work: &mut dyn FnMut(&mut Run)| {
        let (before, since) = (run.cases, Instant::now());
        work(run);
        println!("{name}: {} cases, {:.1} s", run.cases - before, since.elapsed().as_secs_f64());
    };
    part("document 01", &mut run, &mut document);
    part("every byte", &mut run, &mut every_byte);
    part("all small networks, all plans", &mut run, &mut all_small);
    part("all small networks, make", &mut run, &mut all_lists);
    part("largest lists", &mut run, &mut largest);
    part("pairs of rows", &mut run, &mut all_pairs);
    part("random", &mut run, &mut |run| {
        let end = run.cases + cases;
        while run.cases < end {
            random_list(run);
        }
    });
    part("between editions", &mut run, &mut |run| convert::conversions(run, cases / 4));
    let mut seen = desk::NONE;
    part("desk", &mut run, &mut |run| seen = desk::histories(run, 60_000.max(cases / 4)));
    let mut steps = migrate::NONE;
    part("desks go over", &mut run, &mut |run| steps = migrate::steps(run, 60_000.max(cases / 4), &mut seen));
    println!("to edition 2, steps by row (30: success, 31: no store): {}", by_row(&steps));
    if let Some(row) = migrate::ROWS.iter().find(|&&row| steps[row] == 0) {
        run.fail(&format!("a step to edition 2 never answered row {row} (30: success, 31: no store)"), &[]);
    }
    for (edition, kind, row) in desk::missing(&seen) {
        let what = format!("edition {edition}, desk call {kind} never answered row {row} (30: success, 31: no store)");
        run.fail(&what, &[]);
    }

    for e in EDITIONS {
        let n = e.number - 1;
        let (checks, makes) = (run.checks[n], run.makes[n]);
        println!("edition {}, check, cases by row (0 passes): {}", e.number, by_row(&checks));
        println!("edition {}, make, cases by row (0 makes): {}", e.number, by_row(&makes));
        let calls: [usize; desk::PLACES] = std::array::from_fn(|r| seen[n].iter().map(|calls| calls[r]).sum());
        println!("edition {}, desk, calls by row (30: success, 31: no store): {}", e.number, by_row(&calls));
        let never = |rows: Vec<u8>, seen: &[usize]| rows.into_iter().any(|row| seen[usize::from(row)] == 0);
        if never([vec![0], rows(e)].concat(), &checks) || never([vec![0, 20], list_rows(e)].concat(), &makes) {
            run.fail(&format!("edition {}: a row was never answered", e.number), &[]);
        }
        for (what, with_plan) in [("list alone", false), ("list and plan", true)] {
            let rows = run.converted[n][usize::from(with_plan)];
            println!("from edition {}, {what}, cases by row (0 converts): {}", e.number, by_row(&rows));
            if let Some(row) = convert::ROWS[n][usize::from(with_plan)].iter().find(|&&r| rows[r] == 0) {
                run.fail(&format!("from edition {}, {what}: row {row} was never answered", e.number), &[]);
            }
        }
    }
    println!("{} lists counted over all sets; {} plans judged by the definition", run.counted, run.judged);
    println!("{} lists and plans answered alike without a roll and with one of ones", run.alike);
    println!("{} plans judged beside their lists without isolated depots", run.apart);
    println!("{} cases, {} failed, {:.0} s", run.cases, run.failed, start.elapsed().as_secs_f64());
    std::process::exit(i32::from(run.failed > 0));
}

/// The rows that were answered, each with how often.
fn by_row(cases: &[usize]) -> String {
    let rows = cases.iter().enumerate().filter(|(_, &n)| n > 0).map(|(r, n)| format!("{r}:{n}"));
    rows.collect::<Vec<String>>().join(" ")
}

/// The lists with known plans and the examples of the table, in each edition.
fn document(run: &mut Run) {
    for e in EDITIONS {
        for known in known::lists(e) {
            let list = list_bytes(e, &known.list);
            let groups = run.groups(&known.list);
            if groups != known.groups {
                run.fail("the groups are not the document's", &[("list", &list)]);
            }
            let own = run.plan(&known.list);
            run.check(&list, &plan_bytes(e, &own));
            across(run, e, &known.list, &own);
            misplace(run, e, &known.list, &own);
            if let Some(shares) = known.shares {
                if run.check(&list, &plan_bytes(e, &Plan { groups, shares })) != 0 {
                    run.fail("the document's plan does not pass", &[("list", &list)]);
                }
            }
            if let Some(plan) = run.make(&list, &[], ROOM) {
                run.check(&list, &plan);
            }
        }
        for (row, list, plan) in known::refusals(e) {
            if run.check(&list, &plan) != row {
                let what = format!("the example of row {row} is answered otherwise");
                run.fail(&what, &[("list", &list), ("plan", &plan)]);
            }
            run.make(&list, &[], 25);
        }
        let (t, plan) = known::t(e);
        run.make(&t, &[], plan.len() - 1);
        if run.make(&t, &[], plan.len()) != Some(plan) {
            run.fail("make on T is not T's plan", &[]);
        }
    }
}

/// A list with its isolated depots otherwise than as the last group of its true plan.
fn misplace(run: &mut Run, e: Edition, of: &List, plan: &Plan) {
    let list = list_bytes(e, of);
    for (row, plan) in misplaced(of, plan) {
        let plan = plan_bytes(e, &plan);
        if run.check(&list, &plan) != row {
            run.fail(
                &format!("isolated depots misplaced are not refused by row {row}"),
                &[("list", &list), ("plan", &plan)],
            );
        }
    }
}

/// A list of an edition with the other edition's plan, and with its head alone, on the list and on the plan; and with
/// heads of neither edition.
fn across(run: &mut Run, e: Edition, of: &List, plan: &Plan) {
    let (list, bytes) = (list_bytes(e, of), plan_bytes(e, plan));
    if run.check(&list, &plan_bytes(e.other(), plan)) != 7 {
        run.fail("the other edition's plan is not refused by row 7", &[("list", &list)]);
    }
    let headed = |bytes: &[u8], mark: [u8; 2]| [&mark[..], &bytes[2..]].concat();
    if run.check(&list, &headed(&bytes, e.other().plan)) != 7 {
        run.fail("the other edition's head of a plan is not refused by row 7", &[("list", &list)]);
    }
    // without sites and a roll, the other edition's list: then row 7
    let other = headed(&list, e.other().list);
    if run.check(&other, &bytes) != if list.len() == 4 { 7 } else { 3 } {
        run.fail("the other edition's head of a list is answered otherwise", &[("list", &other)]);
    }
    run.make(&other, &[], bytes.len());
    let third = headed(&list, *run.rng.pick(&[*b"L3", *b"L1", *b"LT", *b"M2", *b"2L", *b"P2", *b"S2"]));
    if run.check(&third, &bytes) != 1 {
        run.fail("a head of neither edition is not refused by row 1", &[("list", &third)]);
    }
    run.make(&third, &[], bytes.len());
}

/// Every byte of small lists and plans changed in nine ways, every prefix, and bytes added.
fn every_byte(run: &mut Run) {
    for e in EDITIONS {
        let lists = known::lists(e).into_iter().map(|k| k.list);
        let mut small: Vec<List> = lists.filter(|s| s.len() < 20).collect();
        for _ in 0..10 {
            let (sites, depots) = (run.rng.from_to(1, 8), run.rng.from_to(1, 6));
            let sites = random(&mut run.rng, Extent { edition: e, sites, depots, litres: 9 });
            small.push(rolled(&mut run.rng, e, sites));
        }
        for list in small {
            let (list, plan) = (list_bytes(e, &list), plan_bytes(e, &run.plan(&list)));
            change_each(run, &list, &plan);
        }
    }
}

fn change_each(run: &mut Run, list: &[u8], plan: &[u8]) {
    let flips = [1, 2, 4, 8, 16, 32, 64, 128, 255];
    for i in 0..list.len() {
        for flip in flips {
            let mut changed = list.to_vec();
            changed[i] ^= flip;
            run.check(&changed, plan);
            run.make(&changed, &[], 100);
        }
        run.check_before(&list[..i], &list[i..], plan, &[]);
        run.make(&list[..i], &list[i..], 100);
    }
    for i in 0..plan.len() {
        for flip in flips {
            let mut changed = plan.to_vec();
            changed[i] ^= flip;
            run.check(list, &changed);
        }
        run.check_before(list, &[], &plan[..i], &plan[i..]);
        run.make(list, &[], i);
    }
    for more in 1..14 {
        let tail = vec![0; more];
        run.check(&[list, &tail].concat(), plan);
        run.make(&[list, &tail].concat(), &[], 100);
        run.check(list, &[plan, &tail].concat());
        run.make(list, &[], plan.len() + more);
    }
}

/// All lists of at most two sites on three depots with litres 1 and 2, in each edition, and in edition 2 with a roll of 1
/// or 2 crews for each of the three too, and of none or as many for one that no site names, each with all orders of all
/// groupings and all shares from 0 to one too many.
fn all_small(run: &mut Run) {
    let mut choices = Vec::new();
    for first in 0..3 {
        for second in 0..3 {
            choices.extend([site(first, second, 1), site(first, second, 2)]);
        }
    }
    let mut lists: Vec<Vec<Site>> = vec![vec![]];
    lists.extend(choices.iter().map(|&a| vec![a]));
    lists.extend(choices.iter().flat_map(|&a| choices.iter().map(move |&b| vec![a, b])));
    for sites in lists {
        all_plans(run, ONE, &sites.clone().into());
        all_plans(run, TWO, &sites.clone().into());
        let crews = [0; 3].map(|_| run.rng.from_to(1, 2) as u8);
        let rolled = List { roll: Some(std::array::from_fn(|d| *crews.get(d).unwrap_or(&0))), sites };
        all_plans(run, TWO, &rolled);
        let mut fewer = rolled.clone();
        for d in 0..3 {
            if isolated(&rolled) >> d & 1 == 1 {
                fewer.roll.as_mut().expect("a roll")[d] = run.rng.below(3) as u8;
            }
        }
        if fewer != rolled {
            all_plans(run, TWO, &fewer);
        }
    }
}

/// A list with all orders of all groupings and all shares from 0 to one too many.
fn all_plans(run: &mut Run, e: Edition, of: &List) {
    let list = list_bytes(e, of);
    run.groups(of);
    run.make(&list, &[], ROOM);
    let mut passed = 0;
    for groups in orders(listed(of)) {
        let most = groups.iter().map(|&g| of.size(g)).max().unwrap_or(0);
        let mut shares = vec![0; of.len()];
        loop {
            let plan = Plan { groups: groups.clone(), shares: shares.clone() };
            passed += usize::from(run.check(&list, &plan_bytes(e, &plan)) == 0);
            // the next choice of shares
            let Some(i) = (0..of.len()).find(|&i| shares[i] <= most * u64::from(of[i].litres)) else {
                break;
            };
            shares[i] += 1;
            shares[..i].fill(0);
        }
    }
    if passed == 0 {
        run.fail("no plan passes", &[("list", &list)]);
    }
}

/// Make on all lists of three sites on four depots with litres 1 and 2, in each edition, and with a roll.
fn all_lists(run: &mut Run) {
    let mut choices = Vec::new();
    for first in 0..4 {
        for second in 0..4 {
            choices.extend([site(first, second, 1), site(first, second, 2)]);
        }
    }
    for &a in &choices {
        for &b in &choices {
            for &c in &choices {
                let list: List = vec![a, b, c].into();
                for e in EDITIONS {
                    run.make(&list_bytes(e, &list), &[], e.plan_length(4, 3));
                }
                let crews = roll(&mut run.rng, &list);
                // a group more, of depots that no site names
                run.make(&list_bytes(TWO, &List { roll: Some(crews), ..list }), &[], TWO.plan_length(5, 3));
            }
        }
    }
}

/// All orders of all groupings of a set.
fn orders(set: u64) -> Vec<Vec<u64>> {
    if set == 0 {
        return vec![vec![]];
    }
    let mut all = Vec::new();
    let mut first = set;
    while first != 0 {
        for rest in orders(set & !first) {
            all.push([vec![first], rest].concat());
        }
        first = (first - 1) & set;
    }
    all
}

/// The largest list of each family: its plans, near misses, damage and buffers of each kind; in edition 2 also with nine
/// crews at each depot, with any crews, and with one depot that has more than the others.
fn largest(run: &mut Run) {
    for (_, family) in FAMILIES {
        for (edition, litres) in [(ONE, 1), (TWO, 3), (ONE, 100), (ONE, 65_535), (TWO, 65_536), (TWO, u32::MAX)] {
            let sites = family(&mut run.rng, Extent { edition, litres, ..LARGEST });
            work_on(run, edition, &sites.clone().into(), 6);
            if edition == TWO {
                let crews = match litres {
                    3 => std::array::from_fn(|d| if d == 5 { 9 } else { 1 }),
                    65_536 => roll(&mut run.rng, &sites),
                    _ => [9; 64],
                };
                work_on(run, edition, &List { sites, roll: Some(crews) }, 3);
            }
        }
    }
}

/// For every two rows of Check's, and those of the list with 20 for Make: inputs to which both apply get the earlier.
fn all_pairs(run: &mut Run) {
    for e in EDITIONS {
        let rows = rows(e);
        let pairs: Vec<(u8, u8)> = (1..rows.len())
            .flat_map(|k| rows[..k].iter().map(move |&early| (early, k)))
            .map(|(a, k)| (a, rows[k]))
            .collect();
        let mut seen = vec![0; pairs.len()];
        for _ in 0..4_000 {
            let base = parts(run, e);
            for (n, &(early, late)) in seen.iter_mut().zip(&pairs) {
                *n += usize::from(pair(run, &base, early, late));
            }
            if seen.iter().all(|&n| n >= 12) {
                break;
            }
        }
        let least = seen.iter().min().unwrap_or(&0);
        println!("edition {}: {} pairs of rows, each in at least {least} inputs", e.number, pairs.len());
        for (n, (early, late)) in seen.iter().zip(&pairs) {
            if *n == 0 {
                run.fail(&format!("edition {}: rows {early} and {late} were never in one input", e.number), &[]);
            }
        }
    }
}

/// A list in two parts with no site between them, in a random order of its sites, and its true plan.
fn parts(run: &mut Run, edition: Edition) -> Base {
    let part = |run: &mut Run| {
        let litres = *run.rng.pick(&[20, 20, edition.most()]);
        let e = Extent { edition, sites: run.rng.from_to(1, 6), depots: run.rng.from_to(1, 4), litres };
        let family = run.rng.pick(&FAMILIES).1;
        family(&mut run.rng, e)
    };
    let both = union(&part(run), 4, &part(run));
    let sites = scattered(&mut run.rng, &both);
    let list = rolled(&mut run.rng, edition, sites);
    let plan = run.plan(&list);
    Base { edition, list, plan }
}

/// Damage for a later row and then for an earlier one. False where the base does not allow both, or where the second
/// damage takes back some of the first.
fn pair(run: &mut Run, base: &Base, early: u8, late: u8) -> bool {
    let e = base.edition;
    let mut list = list_bytes(e, &base.list);
    let whole = [list.clone(), plan_bytes(e, &base.plan)];
    let reordered = if late == 16 { reordered(&mut run.rng, base) } else { None };
    if late == 16 && reordered.is_none() {
        return false;
    }
    let plan = reordered.unwrap_or_else(|| base.plan.clone());
    let base = &Base { edition: e, list: base.list.clone(), plan };
    let mut plan = plan_bytes(e, &base.plan);
    if late != 16 && !spoil(&mut run.rng, late, base, &mut list, &mut plan) {
        return false;
    }
    if run.check(&list, &plan) != late {
        run.fail(&format!("the damage for row {late} gives another"), &[("list", &list), ("plan", &plan)]);
    }
    let once = [list.clone(), plan.clone()];
    if !spoil(&mut run.rng, early, base, &mut list, &mut plan) {
        return false;
    }
    if run.check(&list, &plan) != early {
        run.fail(&format!("the damage for rows {early} and {late} gives another"), &[("list", &list), ("plan", &plan)]);
    }
    if list_rows(e).contains(&early) {
        run.make(&list, &[], 0);
    }
    kept(&whole[0], &once[0], &list) && kept(&whole[1], &once[1], &plan)
}

/// A random list of either edition, mostly small, with its cases.
fn random_list(run: &mut Run) {
    let edition = *run.rng.pick(&EDITIONS);
    let (sites, depots) = match run.rng.below(1000) {
        0..=699 => (run.rng.from_to(0, 8), run.rng.from_to(1, 6)),
        700..=949 => (run.rng.from_to(0, 30), run.rng.from_to(1, 10)),
        950..=994 => (run.rng.from_to(10, 128), run.rng.from_to(8, 64)),
        _ => (512, 64),
    };
    let e = extent(&mut run.rng, edition, sites, depots);
    let family = run.rng.pick(&FAMILIES).1;
    let mut list = family(&mut run.rng, e);
    if depots <= 32 && sites <= 100 && run.rng.percent(30) {
        let family = run.rng.pick(&FAMILIES).1;
        list = union(&list, depots, &family(&mut run.rng, e));
    }
    let list = scattered(&mut run.rng, &list);
    let list = rolled(&mut run.rng, edition, list);
    work_on(run, edition, &list, 3);
}

/// The cases of one list of an edition; `times` of each kind of damage.
fn work_on(run: &mut Run, e: Edition, of: &List, times: usize) {
    let list = list_bytes(e, of);
    let own = run.plan(of);
    let length = plan_bytes(e, &own).len();

    // make: just enough room, more, one byte short, much too short
    let Some(made) = run.make(&list, &[], length) else { return };
    let more = length + run.rng.from_to(1, 50);
    run.make(&list, &[], more);
    run.make(&list, &[], length - 1);
    let less = run.rng.below(length);
    run.make(&list, &[], less);

    // true plans, and what is of the other edition or of neither
    run.check(&list, &made);
    run.check(&list, &plan_bytes(e, &own));
    across(run, e, of, &own);
    misplace(run, e, of, &own);

    // bytes cut off, which still stand behind the record, and bytes added
    for _ in 0..times {
        let cut = run.rng.below(list.len());
        run.check_before(&list[..cut], &list[cut..], &made, &[]);
        run.make(&list[..cut], &list[cut..], length);
        let cut = run.rng.below(made.len());
        run.check_before(&list, &[], &made[..cut], &made[cut..]);
        let tail: Vec<u8> = (0..run.rng.from_to(1, 12)).map(|_| run.rng.byte()).collect();
        run.check(&[&list[..], &tail].concat(), &made);
        run.make(&[&list[..], &tail].concat(), &[], length);
        run.check(&list, &[&made[..], &tail].concat());
    }

    // near misses, around make's own shares too
    let (_, shares_made) = read_plan(e, &made, of.len()).expect("a plan of the right form");
    let mine = Plan { groups: own.groups.clone(), shares: shares_made };
    if !of.is_empty() {
        for i in 0..2 * times {
            let plan = miss(&mut run.rng, e, of, if i % 2 == 0 { &own } else { &mine });
            run.check(&list, &plan_bytes(e, &plan));
        }
        for _ in 0..times {
            let next = list_bytes(e, &next_season(&mut run.rng, e, of));
            run.check(&next, &made);
        }
    }

    // one byte changed
    for _ in 0..2 * times {
        let mut changed = list.clone();
        let i = run.rng.below(changed.len());
        changed[i] = run.rng.byte();
        run.check(&changed, &made);
        let mut changed = made.clone();
        let i = run.rng.below(changed.len());
        changed[i] = run.rng.byte();
        run.check(&list, &changed);
    }

    // damage for one row, and for two
    let base = Base { edition: e, list: of.clone(), plan: mine };
    let rows = rows(e);
    for _ in 0..2 * times {
        // row 16 has no damage of its own
        let row = rows[run.rng.below(rows.len() - 1)];
        let (mut list, mut plan) = (list.clone(), made.clone());
        if spoil(&mut run.rng, row, &base, &mut list, &mut plan) && run.check(&list, &plan) != row {
            run.fail(&format!("the damage for row {row} gives another"), &[("list", &list), ("plan", &plan)]);
        }
        if list_rows(e).contains(&row) {
            run.make(&list, &[], length);
            run.make(&list, &[], 0);
        }
        let late = run.rng.from_to(1, rows.len() - 1);
        let early = run.rng.below(late);
        pair(run, &base, rows[early], rows[late]);
    }

    // the groups in another order, with level shares
    if let Some(plan) = reordered(&mut run.rng, &base) {
        let (level, right) = shares(of, &plan.groups);
        run.check(&list, &plan_bytes(e, &plan));
        if right {
            run.check(&list, &plan_bytes(e, &Plan { groups: plan.groups, shares: level }));
        }
    }
}
