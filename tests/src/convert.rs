//! Lists and plans put to the converter, each way beside the reference: up from edition 1, back from edition 2.

use crate::damage::{kept, list_rows, reordered, spoil, Base};
use crate::families::{extent, random, roll, rolled, scattered, union, Extent, FAMILIES, LARGEST};
use crate::known;
use crate::near::{miss, next_season};
use crate::records::{
    list_bytes, no_plan, plan_bytes, roll_bytes, site, Edition, List, Plan, Site, EDITIONS, ONE, TWO,
};
use crate::reference::read_list;
use crate::run::Run;

/// The rows that each way can answer, from edition 1 and from edition 2, to a list alone and with a plan; 0 converts.
pub const ROWS: [[&[usize]; 2]; 2] = [
    [&[0, 1, 2, 3, 4, 5, 6, 20], &[0, 1, 2, 3, 4, 5, 6, 7, 8, 9, 10, 11, 12, 13, 14, 15, 16, 20]],
    [
        &[0, 1, 2, 3, 4, 5, 6, 22, 23, 20, 21],
        &[0, 1, 2, 3, 4, 5, 6, 22, 23, 7, 8, 9, 10, 11, 12, 13, 14, 15, 16, 20, 21],
    ],
];

/// What is fixed, and random cases, so many in all.
pub fn conversions(run: &mut Run, cases: usize) {
    documented(run);
    every_room(run);
    every_byte(run);
    every_count(run);
    ends(run);
    largest(run);
    any_bytes(run);
    all_pairs(run);
    let end = run.cases + cases;
    while run.cases < end {
        random_list(run);
    }
}

/// Whether both editions have such a list: litres that fit edition 1, and no roll.
fn in_both(list: &List) -> bool {
    list.iter().all(|s| s.litres <= ONE.most()) && list.roll.is_none()
}

/// The bytes that the base needs in the other edition: those of its list, those of its plan.
fn needed(base: &Base) -> [usize; 2] {
    let (to, sites) = (base.edition.other(), base.list.len());
    [to.list_length(sites), to.plan_length(base.plan.groups.len(), sites)]
}

/// A list and a plan, and how long the buffers for them are.
#[derive(Clone)]
struct Given {
    list: Vec<u8>,
    plan: Vec<u8>,
    room: [usize; 2],
}

impl Given {
    /// A base with room for all of it.
    fn of(base: &Base) -> Given {
        let (list, plan) = (list_bytes(base.edition, &base.list), plan_bytes(base.edition, &base.plan));
        Given { list, plan, room: needed(base) }
    }
}

/// The list alone and with the plan: the rows of both.
fn both(run: &mut Run, from: Edition, given: &Given) -> [u8; 2] {
    let alone = run.convert_list(from, &given.list, &[], given.room[0]);
    [alone, run.convert_plan(from, &given.list, &given.plan, given.room)]
}

/// The same, with a row that is known. The list alone gets it too where it is the list's; any other list reads, and
/// fits its buffer or not.
fn expect(run: &mut Run, from: Edition, given: &Given, row: u8, what: &str) {
    let alone = match row {
        1..=6 | 21..=23 => row,
        _ if given.room[0] < from.other().list_length(given.list.len() / from.site_bytes) => 20,
        _ => 0,
    };
    let answers = both(run, from, given);
    if answers != [alone, row] {
        let what = format!("from edition {}, {what}: rows {answers:?}, expected {:?}", from.number, [alone, row]);
        run.fail(&what, &[("list", &given.list), ("plan", &given.plan)]);
    }
}

/// The lists with known plans and the examples of the table, each way.
fn documented(run: &mut Run) {
    for e in EDITIONS {
        for known in known::lists(e) {
            let row = if in_both(&known.list) { 0 } else { 21 };
            let own = run.plan(&known.list);
            let shares = known.shares.unwrap_or(own.shares.clone());
            for plan in [own, Plan { groups: known.groups, shares }] {
                let base = Base { edition: e, list: known.list.clone(), plan };
                expect(run, e, &Given::of(&base), row, "a known list");
                across(run, &base);
            }
        }
        for (row, list, plan) in known::refusals(e) {
            let room = [e.other().list_length(9), e.other().plan_length(9, 9)];
            // the other edition's head on these records is refused by row 1
            let row = if row == 3 && list.starts_with(&e.other().list) { 1 } else { row };
            // what reads and has a roll does not go back, whatever its plan
            let row = if read_list(e, &list).is_ok_and(|list| !in_both(&list)) { 21 } else { row };
            expect(run, e, &Given { list, plan, room }, row, "an example of the table");
        }
        // T one way is T the other
        let ((list, plan), (wanted, wanted_plan)) = (known::t(e), known::t(e.other()));
        let mut out = [vec![0; wanted.len()], vec![0; wanted_plan.len()]];
        let [list_out, plan_out] = &mut out;
        let lengths = if e == ONE {
            sulgheti::upgrade_plan(&list, &plan, list_out, plan_out)
        } else {
            sulgheti::downgrade_plan(&list, &plan, list_out, plan_out)
        };
        if lengths != Ok((wanted.len(), wanted_plan.len())) || out != [wanted, wanted_plan] {
            run.fail("T converted is not T", &[("list", &list), ("plan", &plan)]);
        }
    }
}

/// A base that is of the other way's edition, or whose list or plan is, wholly or by its head alone.
fn across(run: &mut Run, base: &Base) {
    let (e, other) = (base.edition, base.edition.other());
    let given = Given::of(base);
    let room = given.room.map(|n| 2 * n);
    expect(run, other, &Given { room, ..Given::of(base) }, 1, "a list of the other edition");
    let headed = |bytes: &[u8], mark: [u8; 2]| [&mark[..], &bytes[2..]].concat();
    let head = Given { list: headed(&given.list, other.list), ..Given::of(base) };
    expect(run, e, &head, 1, "the other edition's head of a list");
    run.convert_plan(other, &head.list, &head.plan, room);
    run.convert_plan(other, &head.list, &headed(&given.plan, other.plan), room);
    let row = if in_both(&base.list) { 7 } else { 21 };
    for plan in [plan_bytes(other, &base.plan), headed(&given.plan, other.plan)] {
        expect(run, e, &Given { plan, ..Given::of(base) }, row, "a plan of the other edition");
    }
    let third = *run.rng.pick(&[*b"L3", *b"L1", *b"LT", *b"M2", *b"2L", *b"P2", *b"S2", *b"PL"]);
    for way in EDITIONS {
        let list = headed(&given.list, third);
        expect(run, way, &Given { list, room, ..Given::of(base) }, 1, "a list of neither edition");
    }
}

/// Small lists with every two lengths of the buffers up to some more than is needed, larger ones with those around it.
fn every_room(run: &mut Run) {
    let small = [vec![], vec![site(0, 1, 10)], vec![site(63, 63, 65_535)], vec![site(0, 1, 9), site(1, 2, 1)]];
    let mut bases: Vec<(Edition, List)> = Vec::new();
    for list in small.map(List::from) {
        bases.extend([(ONE, list.clone()), (TWO, list.clone()), (TWO, list.with_ones())]);
    }
    for (edition, list) in bases {
        let base = Base { edition, plan: run.plan(&list), list };
        let need = needed(&base);
        rooms(run, &base, &(0..need[0] + 3).collect::<Vec<usize>>(), &(0..need[1] + 3).collect::<Vec<usize>>());
    }
    for edition in EDITIONS {
        for _ in 0..20 {
            let base = parts(run, edition);
            let around = |n: usize| [0, n / 2, n - 2, n - 1, n, n + 1, n + 2];
            let [n, m] = needed(&base);
            rooms(run, &base, &around(n), &around(m));
        }
    }
}

/// A base that is converted where both lengths suffice, for each two of these; with a roll it is refused by row 21.
fn rooms(run: &mut Run, base: &Base, lists: &[usize], plans: &[usize]) {
    let need = needed(base);
    for (&n, &m) in lists.iter().flat_map(|n| plans.iter().map(move |m| (n, m))) {
        let short = n < need[0] || m < need[1];
        let row = if !in_both(&base.list) { 21 } else { 20 * u8::from(short) };
        expect(run, base.edition, &Given { room: [n, m], ..Given::of(base) }, row, "a length of the buffers");
    }
}

/// Every byte of small lists and plans changed in nine ways, every prefix, and bytes added.
fn every_byte(run: &mut Run) {
    for edition in EDITIONS {
        let lists = known::lists(edition).into_iter().map(|k| k.list);
        let mut small: Vec<List> = lists.filter(|s| s.len() < 20).collect();
        for _ in 0..4 {
            let (sites, depots) = (run.rng.from_to(1, 8), run.rng.from_to(1, 6));
            small.push(random(&mut run.rng, Extent { edition, sites, depots, litres: 9 }).into());
        }
        for list in small {
            let base = Base { edition, plan: run.plan(&list), list };
            change_each(run, &base);
        }
    }
}

fn change_each(run: &mut Run, base: &Base) {
    let (e, Given { list, plan, room }) = (base.edition, Given::of(base));
    let flips = [1, 2, 4, 8, 16, 32, 64, 128, 255];
    for i in 0..list.len() {
        for flip in flips {
            let mut changed = list.clone();
            changed[i] ^= flip;
            both(run, e, &Given { list: changed, plan: plan.clone(), room });
        }
        run.convert_list(e, &list[..i], &list[i..], room[0]);
        run.convert_before(e, &list[..i], &list[i..], &plan, &[], room);
    }
    for i in 0..plan.len() {
        for flip in flips {
            let mut changed = plan.clone();
            changed[i] ^= flip;
            run.convert_plan(e, &list, &changed, room);
        }
        run.convert_before(e, &list, &[], &plan[..i], &plan[i..], room);
    }
    for more in 1..14 {
        let tail = vec![0; more];
        both(run, e, &Given { list: [&list[..], &tail].concat(), plan: plan.clone(), room });
        run.convert_plan(e, &list, &[&plan[..], &tail].concat(), room);
    }
}

/// Lists of 0 to 512 sites, some with their plans.
fn every_count(run: &mut Run) {
    for count in 0..=512 {
        let sites: Vec<Site> = known::own_sites(65_535).into_iter().take(count).collect();
        let of: List = scattered(&mut run.rng, &sites).into();
        for edition in EDITIONS {
            let list = list_bytes(edition, &of);
            let room = edition.other().list_length(count);
            run.convert_list(edition, &list, &[], room);
            run.convert_list(edition, &list, &[], room - 1);
            if count % 73 == 0 || count == 512 {
                let base = Base { edition, list: of.clone(), plan: run.plan(&of) };
                expect(run, edition, &Given::of(&base), 0, "own sites");
            }
        }
    }
}

/// Litres at the ends of edition 1's and beyond them, at each site of short lists and at some of the longest; one litre
/// too many at each site of the longest.
fn ends(run: &mut Run) {
    let fit = [1, 2, 255, 256, 32_767, 32_768, 65_534, 65_535];
    // right or 0 in their low bytes
    let beyond = [65_536, 65_537, 65_791, 131_071, 0x0001_FFFF, 0x0100_0001, 0x8000_0000, 0xFFFF_0000, u32::MAX];
    for count in [1usize, 2, 3, 5, 512] {
        for at in [0, 1, 2, count / 2, count.saturating_sub(2), count - 1] {
            if at >= count {
                continue;
            }
            for litres in fit.into_iter().chain(beyond) {
                let mut sites: Vec<Site> = (0..count).map(|i| site(i as u8 % 64, (i / 64) as u8, 7)).collect();
                sites[at].litres = litres;
                let list: List = sites.into();
                let plan = if count == 512 { no_plan() } else { run.plan(&list) };
                for edition in EDITIONS {
                    if edition == ONE && litres > 65_535 {
                        continue;
                    }
                    let base = Base { edition, list: list.clone(), plan: plan.clone() };
                    // without its plan, the longest list gets row 9
                    let row = if litres > 65_535 { 21 } else { 9 * u8::from(count == 512) };
                    expect(run, edition, &Given::of(&base), row, "litres at the ends");
                }
            }
        }
    }
    // all sites beyond them, none, and each one alone, with no bytes as a plan
    for (litres, row) in [(65_536, 21), (65_535, 0)] {
        let list: List = known::own_sites(litres).into();
        let base = Base { edition: TWO, plan: run.plan(&list), list };
        expect(run, TWO, &Given::of(&base), row, "equal litres at the ends");
    }
    for at in 0..512 {
        let mut sites = known::own_sites(65_535);
        sites[at].litres = 65_536;
        let given = Given { list: list_bytes(TWO, &sites.into()), plan: vec![], room: [ONE.list_length(512), 5] };
        expect(run, TWO, &given, 21, "65,536 litres at one of 512 sites");
    }
}

/// The largest list of each family, each way, and with a roll.
fn largest(run: &mut Run) {
    for (_, family) in FAMILIES {
        for litres in [1, 65_535] {
            let sites = family(&mut run.rng, Extent { litres, ..LARGEST });
            for edition in EDITIONS {
                work_on(run, edition, &sites.clone().into(), 2);
            }
            let crews = roll(&mut run.rng, &sites);
            work_on(run, TWO, &List { sites, roll: Some(crews) }, 1);
        }
    }
}

/// Bytes at random, wholly and behind the right mark, as a list and as a plan; and one slice as both, which the wrapper
/// is lent itself.
fn any_bytes(run: &mut Run) {
    for e in EDITIONS {
        let (t, t_plan) = known::t(e);
        for _ in 0..500 {
            let room = [0; 2].map(|_| run.rng.from_to(0, 6_000));
            let [list, plan] = room.map(|n| run.junk(n));
            run.convert_plan(e, &list, &list, room);
            run.convert_plan(e, &list, &t_plan, room);
            run.convert_plan(e, &t, &plan, room);
            run.convert_plan(e, &t, &[&e.plan[..], &plan].concat(), room);
            let marked = [&e.list[..], &list].concat();
            run.convert_plan(e, &marked, &marked, room);
            both(run, e, &Given { list: marked, plan: plan.clone(), room });
            both(run, e, &Given { list, plan, room });
        }
        let heavy = list_bytes(e, &vec![site(0, 1, e.most())].into());
        let heavy_row = if e == TWO { 21 } else { 7 };
        for (one, row) in [(t, 7), (t_plan, 1), (known::t(e.other()).0, 1), (vec![], 1), (heavy, heavy_row)] {
            let answer = run.convert_plan(e, &one, &one, [12, 25]);
            if answer != row {
                let what = format!("from edition {}, one slice as both: row {answer}, expected {row}", e.number);
                run.fail(&what, &[("both", &one)]);
            }
        }
    }
}

/// What a call can be refused for: what a row is about, or short buffers, of the list, of the plan.
#[derive(Clone, Copy, Debug, PartialEq, Eq)]
enum Fault {
    Row(u8),
    Short(bool, bool),
}

use Fault::{Row, Short};

impl Fault {
    fn row(self) -> u8 {
        match self {
            Row(row) => row,
            Short(..) => 20,
        }
    }
}

/// The faults that a way tries, in their order; the last three are one row.
fn faults(from: Edition) -> Vec<Fault> {
    let list = list_rows(from).into_iter().map(Row);
    let beyond = (from == TWO).then_some(Row(21));
    let plan = (7..=16).map(Row);
    list.chain(beyond).chain(plan).chain([Short(true, false), Short(false, true), Short(true, true)]).collect()
}

/// For every two faults of a way, in different rows: what has both is refused by the earlier. An input counts where the
/// earlier damage leaves all of the later, and no roll comes before both.
fn all_pairs(run: &mut Run) {
    for e in EDITIONS {
        let faults = faults(e);
        let mut pairs = Vec::new();
        for (k, &early) in faults.iter().enumerate() {
            pairs.extend(faults[k + 1..].iter().filter(|late| late.row() != early.row()).map(|&late| (early, late)));
        }
        let mut seen = vec![0; pairs.len()];
        for _ in 0..1_000 {
            let base = parts(run, e);
            for (n, &(early, late)) in seen.iter_mut().zip(&pairs) {
                *n += usize::from(pair(run, &base, early, late));
            }
            if seen.iter().all(|&n| n >= 6) {
                break;
            }
        }
        let least = seen.iter().min().unwrap_or(&0);
        println!("from edition {}: {} pairs of faults, each in at least {least} inputs", e.number, pairs.len());
        for (n, (early, late)) in seen.iter().zip(&pairs) {
            if *n == 0 {
                run.fail(&format!("from edition {}: {early:?} and {late:?} were never in one input", e.number), &[]);
            }
        }
    }
}

/// A list in two parts with no site between them, with litres that both editions have, in a random order of its sites,
/// and its true plan. In edition 2 half of them have a roll.
fn parts(run: &mut Run, edition: Edition) -> Base {
    let part = |run: &mut Run| {
        let litres = *run.rng.pick(&[20, 20, 65_535]);
        let e = Extent { edition: ONE, sites: run.rng.from_to(1, 6), depots: run.rng.from_to(1, 4), litres };
        let family = run.rng.pick(&FAMILIES).1;
        family(&mut run.rng, e)
    };
    let both = union(&part(run), 4, &part(run));
    let sites = scattered(&mut run.rng, &both);
    let list = rolled(&mut run.rng, edition, sites);
    Base { edition, plan: run.plan(&list), list }
}

/// The row that a base gets with one fault: with a roll it is refused by row 21 before its plan is read.
fn row_with(base: &Base, fault: Fault) -> u8 {
    let first = [list_rows(base.edition), vec![21]].concat();
    if in_both(&base.list) || first.contains(&fault.row()) {
        fault.row()
    } else {
        21
    }
}

/// Damage for a later fault and then for an earlier one. False where the base does not allow both, or where the second
/// damage takes back some of the first.
fn pair(run: &mut Run, base: &Base, early: Fault, late: Fault) -> bool {
    let e = base.edition;
    let whole = Given::of(base);
    let reordered = if late == Row(16) { reordered(&mut run.rng, base) } else { None };
    if late == Row(16) && reordered.is_none() {
        return false;
    }
    let plan = reordered.unwrap_or_else(|| base.plan.clone());
    let base = &Base { edition: e, list: base.list.clone(), plan };
    let mut given = Given::of(base);
    if late != Row(16) && !fault(run, late, base, &mut given) {
        return false;
    }
    expect(run, e, &given, row_with(base, late), &format!("{late:?}"));
    let once = given.clone();
    if !fault(run, early, base, &mut given) {
        return false;
    }
    expect(run, e, &given, row_with(base, early), &format!("{early:?} and {late:?}"));
    row_with(base, early) == early.row()
        && kept(&whole.list, &once.list, &given.list)
        && kept(&whole.plan, &once.plan, &given.plan)
}

/// Spoils what a fault is about, in the bytes of `base` or in bytes that a later one's damage has changed. False where
/// this base has nothing to spoil.
fn fault(run: &mut Run, fault: Fault, base: &Base, given: &mut Given) -> bool {
    let (e, rng) = (base.edition, &mut run.rng);
    match fault {
        // a list of the other edition, by its head, or wholly if there is no damage in it
        Row(1) if rng.percent(40) => {
            if given.list == list_bytes(e, &base.list) && rng.percent(50) {
                given.list = list_bytes(e.other(), &base.list);
            } else {
                given.list[..2].copy_from_slice(&e.other().list);
            }
        }
        Row(16) => match reordered(rng, base) {
            Some(plan) => given.plan = plan_bytes(e, &plan),
            None => return false,
        },
        Row(21) => {
            if base.list.is_empty() {
                return false;
            }
            // a roll where there is none and the list has no other damage, or litres
            if base.list.roll.is_none() && given.list == list_bytes(e, &base.list) && rng.percent(40) {
                given.list.extend(roll_bytes(&roll(rng, &base.list)));
                return true;
            }
            let count = base.list.len();
            for _ in 0..rng.from_to(1, count) {
                let at = e.list_length(rng.below(count)) + 6 + rng.below(2);
                given.list[at] = rng.from_to(1, 255) as u8;
            }
        }
        Row(row) => return spoil(rng, row, base, &mut given.list, &mut given.plan),
        Short(list, plan) => {
            for (room, short) in given.room.iter_mut().zip([list, plan]) {
                if short {
                    *room = if rng.percent(50) { *room - 1 } else { rng.below(*room) };
                }
            }
        }
    }
    true
}

/// A random list of either edition, mostly small, with its cases.
fn random_list(run: &mut Run) {
    let from = *run.rng.pick(&EDITIONS);
    let (sites, depots) = match run.rng.below(1000) {
        0..=799 => (run.rng.from_to(0, 8), run.rng.from_to(1, 6)),
        800..=969 => (run.rng.from_to(0, 30), run.rng.from_to(1, 10)),
        970..=996 => (run.rng.from_to(10, 128), run.rng.from_to(8, 64)),
        _ => (512, 64),
    };
    // of edition 2, three in ten with litres that only it has
    let litres = if run.rng.percent(30) { from } else { ONE };
    let e = extent(&mut run.rng, litres, sites, depots);
    let family = run.rng.pick(&FAMILIES).1;
    let list = family(&mut run.rng, e);
    let list = scattered(&mut run.rng, &list);
    // with a roll row 21 comes before all that is in the plan
    let list = if run.rng.percent(40) { rolled(&mut run.rng, from, list) } else { list.into() };
    work_on(run, from, &list, 2);
}

/// The cases of one list of an edition; `times` of each kind of damage.
fn work_on(run: &mut Run, e: Edition, of: &List, times: usize) {
    let base = Base { edition: e, list: of.clone(), plan: run.plan(of) };
    let Given { list, plan, room } = Given::of(&base);
    let row = if in_both(of) { 0 } else { 21 };
    expect(run, e, &Given::of(&base), row, "a list and its plan");
    across(run, &base);

    // Make's plan
    let mut made = vec![0; plan.len()];
    if sulgheti::make(&list, &mut made) != Ok(plan.len()) {
        run.fail("make answers another length", &[("list", &list)]);
        return;
    }
    expect(run, e, &Given { plan: made.clone(), ..Given::of(&base) }, row, "a list and Make's plan");

    // buffers: longer, one byte short, much too short, either or both
    let more = [room[0] + run.rng.from_to(1, 50), room[1] + run.rng.from_to(1, 50)];
    expect(run, e, &Given { room: more, ..Given::of(&base) }, row, "longer buffers");
    let less = [run.rng.below(room[0]), run.rng.below(room[1])];
    for n in [room[0], more[0], room[0] - 1, less[0], 0] {
        for m in [room[1], more[1], room[1] - 1, less[1], 0] {
            let row = if row == 0 && (n < room[0] || m < room[1]) { 20 } else { row };
            expect(run, e, &Given { room: [n, m], ..Given::of(&base) }, row, "buffers of other lengths");
        }
    }

    // bytes cut off, which still stand behind the record, and bytes added
    for _ in 0..times {
        let cut = run.rng.below(list.len());
        run.convert_list(e, &list[..cut], &list[cut..], room[0]);
        run.convert_before(e, &list[..cut], &list[cut..], &plan, &[], room);
        let cut = run.rng.below(plan.len());
        run.convert_before(e, &list, &[], &plan[..cut], &plan[cut..], room);
        let tail: Vec<u8> = (0..run.rng.from_to(1, 12)).map(|_| run.rng.byte()).collect();
        both(run, e, &Given { list: [&list[..], &tail].concat(), plan: plan.clone(), room });
        run.convert_plan(e, &list, &[&plan[..], &tail].concat(), room);
    }

    // near misses, and the plan with next season's list
    if !of.is_empty() {
        for _ in 0..2 * times {
            let near = miss(&mut run.rng, e, of, &base.plan);
            let near = plan_bytes(e, &near);
            run.convert_plan(e, &list, &near, [more[0], more[1] + e.other().plan_length(64, 0)]);
        }
        for _ in 0..times {
            let next = list_bytes(e, &next_season(&mut run.rng, e, of));
            both(run, e, &Given { list: next, plan: plan.clone(), room });
        }
    }

    // one byte changed
    for _ in 0..2 * times {
        let mut changed = list.clone();
        let i = run.rng.below(changed.len());
        changed[i] = run.rng.byte();
        both(run, e, &Given { list: changed, plan: plan.clone(), room: more });
        let mut changed = plan.clone();
        let i = run.rng.below(changed.len());
        changed[i] = run.rng.byte();
        run.convert_plan(e, &list, &changed, more);
    }

    // damage for one fault, and for two
    if row == 0 {
        let faults = faults(e);
        for _ in 0..2 * times {
            let mut given = Given::of(&base);
            let one = *run.rng.pick(&faults);
            if fault(run, one, &base, &mut given) {
                expect(run, e, &given, one.row(), &format!("{one:?}"));
            }
            let late = run.rng.from_to(1, faults.len() - 1);
            let early = run.rng.below(late);
            if faults[early].row() != faults[late].row() {
                pair(run, &base, faults[early], faults[late]);
            }
        }
    }
}
