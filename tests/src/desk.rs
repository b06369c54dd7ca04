//! Desk calls beside the plain book, in either edition: whole histories, stores and tables of any bytes, stores of other
//! lengths, and what is of the other edition.

use crate::book::{held, served, sized, Book, Call, Litres, Refusal, Told};
use crate::damage::{list_rows, reordered, spoil, Base};
use crate::families::{extent, rolled, scattered, FAMILIES};
use crate::known;
use crate::lent::{self, Lent, Reply};
use crate::near::{misplaced, miss, next_season};
use crate::records::{
    isolated, list_bytes, listed, members, no_plan, plan_bytes, roll_bytes, site, Edition, List, Plan, Site, EDITIONS,
    ONE, ROLL_BYTES, TWO,
};
use crate::run::Run;

/// The places of success and of no store, beside those of the rows.
pub const DONE: usize = 30;
pub const NO_STORE: usize = 31;
pub const PLACES: usize = 32;

/// How often, on a store of each edition, each of the ten calls got each row, success or no store.
pub type Seen = [[[usize; PLACES]; 10]; 2];

pub const NONE: Seen = [[[0; PLACES]; 10]; 2];

/// What each call can answer; row 0 only where the bytes are foreign, no store where they are of another number.
const ROWS: [&[usize]; 10] = [
    &[1, 2, 3, 4, 5, 6, DONE, NO_STORE],
    &[0, 6, 18, DONE, NO_STORE],
    &[0, 2, 5, 6, DONE, NO_STORE],
    &[0, 7, 8, 9, 10, 11, 12, 13, 14, 15, 16, DONE, NO_STORE],
    &[0, 17, 18, DONE, NO_STORE],
    &[0, 17, 19, DONE, NO_STORE],
    &[0, 17, 19, DONE, NO_STORE],
    &[0, 17, 20, DONE, NO_STORE],
    &[0, 17, DONE, NO_STORE],
    &[0, 20, DONE, NO_STORE],
];

/// The rows of rolls that a load and an added site can answer too, in edition 2.
const OF_ROLLS: [(usize, usize); 3] = [(0, 22), (0, 23), (2, 23)];

/// Lengths of no store, around those of a store of either edition and of its parts; a store of edition 2 without the
/// bytes of a roll is among them.
pub const LENGTHS: [usize; 18] =
    [0, 1, 8, 24, 536, 2_583, 2_585, 2_588, 2_656, 3_608, 4_632, 4_640, 4_703, 4_705, 4_712, 5_168, 7_288, 10_000];

/// The rows of the table that some call never answered: edition, call, row.
pub fn missing(seen: &Seen) -> Vec<(usize, usize, usize)> {
    EDITIONS
        .iter()
        .flat_map(|e| (0..ROWS.len()).map(|kind| (e.number, kind)))
        .flat_map(|(edition, kind)| ROWS[kind].iter().map(move |&row| (edition, kind, row)))
        .chain(OF_ROLLS.map(|(kind, row)| (TWO.number, kind, row)))
        .filter(|&(edition, kind, row)| seen[edition - 1][kind][row] == 0)
        .collect()
}

/// The bytes of a desk and its table.
#[derive(Clone)]
pub struct Bytes {
    pub store: Vec<u8>,
    pub table: Vec<u8>,
}

impl Bytes {
    /// A fresh desk over any bytes, and a table of so many places and bytes behind them, of any content.
    pub fn fresh(run: &mut Run, e: Edition, places: usize) -> Bytes {
        let junk: Vec<u8> = (0..e.store_bytes()).map(|_| run.rng.byte()).collect();
        let mut store = Lent::new(&mut run.rng, &junk, &[]);
        if lent::fresh(e, &mut store) != 0 || !store.kept_around() || store.bytes() != Book::new(e, places).store() {
            run.fail("a fresh store is not as laid out", &[]);
        }
        let tail = run.rng.below(e.place_bytes());
        let table = (0..e.place_bytes() * places + tail).map(|_| run.rng.byte()).collect();
        Bytes { store: store.bytes().to_vec(), table }
    }

    /// The edition that the store's length tells, or edition 1 where it is that of no store.
    fn edition(&self) -> Edition {
        sized(&self.store).unwrap_or(ONE)
    }

    pub fn places(&self) -> usize {
        self.table.len() / self.edition().place_bytes()
    }
}

/// One call of the library and of the wrapper, compared with what the book says: the answer, every byte of the
/// store, of the table and of the buffer, and the guards around them. `book` is the book before the call, or what
/// the bytes are refused by: no store by every call, row 0 by every call but load. Before the book a call of the other
/// edition is refused.
pub fn call(run: &mut Run, desk: &mut Bytes, book: &mut Result<Book, Refusal>, call: &Call, seen: &mut Seen) {
    run.cases += 1;
    let expected = match (&mut *book, call) {
        _ if served(&desk.store, call).is_err() => Err(Refusal::NoStore),
        (Ok(book), _) => book.answer(call).map_err(Refusal::Row),
        (Err(Refusal::Row(_)), Call::Load(_)) => {
            let mut fresh = Book::new(desk.edition(), desk.places());
            let answer = fresh.answer(call);
            if answer.is_ok() {
                *book = Ok(fresh);
            }
            answer.map_err(Refusal::Row)
        }
        (Err(refusal), _) => Err(*refusal),
    };
    let place = match expected {
        Ok(_) => DONE,
        Err(Refusal::NoStore) => NO_STORE,
        Err(Refusal::Row(row)) => usize::from(row),
    };
    // a length of neither edition is none of either
    for e in EDITIONS.iter().filter(|&&e| sized(&desk.store).unwrap_or(e) == e) {
        seen[e.number - 1][call.kind()][place] += 1;
    }

    let given: &[u8] = match call {
        Call::Load(bytes) | Call::Propose(bytes) => bytes,
        _ => &[],
    };
    let room = call.room().unwrap_or_else(|| run.rng.below(3));
    let content: Vec<u8> = (0..room).map(|_| run.rng.byte()).collect();
    let old = Reply { code: 0, first: run.rng.word(), second: run.rng.word(), difference: run.rng.word() as i64 };
    let mut store = Lent::new(&mut run.rng, &desk.store, &[]);
    let mut table = Lent::new(&mut run.rng, &desk.table, &[]);
    let input = Lent::new(&mut run.rng, given, &[]);
    let mut buffer = Lent::new(&mut run.rng, &content, &[]);
    let reply = lent::desk(call, &mut store, &mut table, &input, &mut buffer, old);

    let (mut wanted, mut out) = (old, content.clone());
    match &expected {
        Err(refusal) => wanted.code = refusal.code(),
        Ok(Told::Done) => {}
        Ok(Told::Figures(x, y)) => (wanted.first, wanted.second) = (*x, *y),
        Ok(Told::Difference(d, q)) => (wanted.difference, wanted.second) = (*d, *q),
        Ok(Told::Depots(set)) => wanted.first = *set,
        Ok(Told::Wrote(bytes)) => {
            wanted.code = bytes.len() as i64;
            out[..bytes.len()].copy_from_slice(bytes);
        }
    }
    let before = [("store", &desk.store[..]), ("table", &desk.table[..]), ("given", given)];
    if reply != wanted {
        run.fail(&format!("{call:?} answers {reply:?}, expected {wanted:?}"), &before);
    }
    if buffer.bytes() != out || !buffer.kept_around() || !input.unchanged_from(0) {
        run.fail(&format!("{call:?} leaves another buffer, or writes beside it"), &before);
    }
    // load, change, add and propose write what the book then has; all else stays
    let changes = expected == Ok(Told::Done);
    let after = match book {
        Ok(book) if changes => Bytes { store: book.store(), table: book.table(&desk.table) },
        _ => desk.clone(),
    };
    if store.bytes() != after.store || table.bytes() != after.table || !store.kept_around() || !table.kept_around() {
        run.fail(&format!("{call:?} leaves another store or table"), &before);
    }
    wrapped(run, desk, call, &expected, &after, &content, &out);
    *desk = after;
}

/// The same call of the wrapper, whose store has its length and its litres by its type: a store of another length and a
/// call of the other edition cannot be written.
fn wrapped(
    run: &mut Run,
    before: &Bytes,
    call: &Call,
    expected: &Result<Told, Refusal>,
    after: &Bytes,
    content: &[u8],
    out: &[u8],
) {
    let table = || before.table.clone();
    let same = if let Ok(store) = before.store[..].try_into() {
        let bits16 = |litres| if let Litres::Bits16(litres) = litres { Some(litres) } else { None };
        wrapped_by(sulgheti::Store::from_bytes(store, table()), bits16, call, expected, after, content, out)
    } else if let Ok(store) = before.store[..].try_into() {
        let bits32 = |litres| if let Litres::Bits32(litres) = litres { Some(litres) } else { None };
        wrapped_by(sulgheti::Store2::from_bytes(store, table()), bits32, call, expected, after, content, out)
    } else {
        None
    };
    if same == Some(false) {
        run.fail(&format!("the wrapper's {call:?} differs"), &[("store", &before.store), ("table", &before.table)]);
    }
}

/// Whether the wrapper's store of an edition answers as expected and leaves what is expected; none where it has no such
/// call.
fn wrapped_by<E: sulgheti::Edition>(
    mut desk: sulgheti::StoreOf<E>,
    of_edition: impl Fn(Litres) -> Option<E::Litres>,
    call: &Call,
    expected: &Result<Told, Refusal>,
    after: &Bytes,
    content: &[u8],
    out: &[u8],
) -> Option<bool> {
    let mut buffer = content.to_vec();
    let answer = match call {
        Call::Load(list) => desk.load(list).map(|()| Told::Done),
        &Call::Change(site, litres) => desk.change(site, of_edition(litres)?).map(|()| Told::Done),
        &Call::Add(first, second, litres) => desk.add(first, second, of_edition(litres)?).map(|()| Told::Done),
        Call::Propose(plan) => desk.propose(plan).map(|()| Told::Done),
        &Call::Share(site) => desk.share(site).map(|(s, w)| Told::Figures(s, w)),
        &Call::Depot(depot) => desk.depot(depot).map(|(w, q)| Told::Figures(w, q)),
        &Call::Difference(a, b) => desk.difference(a, b).map(|(d, q)| Told::Difference(d, q)),
        Call::Written(_) => desk.written(&mut buffer).map(|n| Told::Wrote(buffer[..n].to_vec())),
        &Call::AtLeast(mark) => desk.at_least(mark).map(Told::Depots),
        Call::List(_) => desk.list(&mut buffer).map(|n| Told::Wrote(buffer[..n].to_vec())),
    };
    let (store, table) = desk.bytes();
    let kept = store.as_ref() == after.store && table == after.table && buffer == out;
    Some(answer.map_err(|row| Refusal::Row(row.0)) == *expected && kept)
}

/// A list of a family, in edition 2 with a roll or without one.
fn some_list(run: &mut Run, e: Edition, most: usize, depots: usize) -> List {
    let sites = run.rng.from_to(0, most);
    let family = run.rng.pick(&FAMILIES).1;
    let size = extent(&mut run.rng, e, sites, depots);
    let sites = family(&mut run.rng, size);
    let sites = scattered(&mut run.rng, &sites);
    rolled(&mut run.rng, e, sites)
}

/// A list for a load: mostly one that reads, sometimes damaged or of the other edition.
fn loaded(run: &mut Run, e: Edition, most: usize, depots: usize) -> Vec<u8> {
    let of = some_list(run, e, most, depots);
    if run.rng.percent(5) {
        return list_bytes(e.other(), &of);
    }
    let mut list = list_bytes(e, &of);
    if run.rng.percent(35) {
        let row = *run.rng.pick(&list_rows(e));
        let plan = run.plan(&of);
        let mut bytes = plan_bytes(e, &plan);
        spoil(&mut run.rng, row, &Base { edition: e, list: of, plan }, &mut list, &mut bytes);
    }
    list
}

/// A plan for a proposal: true, near, of an earlier list, or damaged for one row.
fn proposed(run: &mut Run, book: &Book, old: &mut Vec<u8>) -> Vec<u8> {
    let e = book.edition;
    let stale = old.clone();
    let own = run.plan(&book.list);
    let bytes = plan_bytes(e, &own);
    *old = bytes.clone();
    let near = misplaced(&book.list, &own);
    if !near.is_empty() && run.rng.percent(20) {
        return plan_bytes(e, &run.rng.pick(&near).1);
    }
    match run.rng.below(10) {
        0..=3 => {
            let mut made = vec![0; bytes.len()];
            if run.rng.percent(50) && sulgheti::make(&list_bytes(e, &book.list), &mut made).is_ok() {
                made
            } else {
                bytes
            }
        }
        4 | 5 => stale,
        6 if !book.list.is_empty() => plan_bytes(e, &miss(&mut run.rng, e, &book.list, &own)),
        7 => {
            let base = Base { edition: e, list: book.list.clone(), plan: own };
            reordered(&mut run.rng, &base).map_or(bytes, |plan| plan_bytes(e, &plan))
        }
        _ => {
            let row = run.rng.from_to(7, 15) as u8;
            let (mut list, mut bytes) = (list_bytes(e, &book.list), bytes);
            let base = Base { edition: e, list: book.list.clone(), plan: own };
            spoil(&mut run.rng, row, &base, &mut list, &mut bytes);
            bytes
        }
    }
}

/// A mark in litres: at the W/q of a group, rounded down or up, one beside it, and where a product or a comparison in
/// fewer bits would take it for a lower one; the ends; any other.
pub fn mark(run: &mut Run, book: &Book) -> u32 {
    let figures = if book.plan.is_some() { book.clone().figures() } else { Vec::new() };
    let (litres, size) = if figures.is_empty() { (0, 1) } else { *run.rng.pick(&figures) };
    let (down, up) = (litres / size, litres.div_ceil(size));
    let mark = match run.rng.below(16) {
        0..=2 => down,
        3..=5 => up,
        6 => down.saturating_sub(1),
        7 => up + 1,
        8 => 65_536 + down,
        9 => 65_536 + up,
        10 => ((1 << 32) + litres) / size,
        11 => ((1u64 << 32) + litres).div_ceil(size),
        12 => *run.rng.pick(&[0, 1, 65_535, 65_536]),
        13 => u64::from(u32::MAX),
        14 => run.rng.below(up as usize + 2) as u64,
        _ => run.rng.word() >> 32,
    };
    mark.min(u64::from(u32::MAX)) as u32
}

/// A call of any kind, for a desk whose book is known.
pub fn any_call(run: &mut Run, book: &Book, old: &mut Vec<u8>, most: usize, depots: usize) -> Call {
    let n = book.list.len();
    let near = n + 2;
    let (all, alone) = (members(listed(&book.list)), members(isolated(&book.list)));
    let depot = |run: &mut Run| match run.rng.below(100) {
        0..=3 => run.rng.byte(),
        4..=28 if !all.is_empty() => *run.rng.pick(&all) as u8,
        29..=48 if !alone.is_empty() => *run.rng.pick(&alone) as u8,
        _ => run.rng.below(depots + 1) as u8,
    };
    let e = book.edition;
    let litres = |run: &mut Run| {
        let figure = if run.rng.percent(15) { 0 } else { *run.rng.pick(&[1, 2, 7, 65_535, 65_536, 70_000, u32::MAX]) };
        Litres::of(if run.rng.percent(5) { e.other() } else { e }, figure)
    };
    match run.rng.below(100) {
        0..=13 if n > 0 && run.rng.percent(40) => Call::Load(list_bytes(e, &next_season(&mut run.rng, e, &book.list))),
        0..=13 => Call::Load(loaded(run, e, most, depots)),
        14..=19 => Call::Change(run.rng.below(near), litres(run)),
        20..=27 => Call::Add(depot(run), depot(run), litres(run)),
        28..=54 => Call::Propose(proposed(run, book, old)),
        55..=64 => Call::Share(if run.rng.percent(3) { run.rng.word() as usize } else { run.rng.below(near) }),
        65..=72 => Call::Depot(depot(run)),
        73..=81 => Call::Difference(depot(run), depot(run)),
        82..=88 => Call::AtLeast(mark(run, book)),
        89..=94 => Call::List(near_length(run, book.list.length(e))),
        _ => {
            let length = book.plan.as_ref().map_or(5, |plan: &Plan| plan_bytes(e, plan).len());
            Call::Written(near_length(run, length))
        }
    }
}

/// The length of a buffer: that of what is written out, some bytes fewer or more, or none.
fn near_length(run: &mut Run, length: usize) -> usize {
    if run.rng.percent(4) {
        return 0;
    }
    length.saturating_sub(run.rng.below(3)) + if run.rng.percent(60) { run.rng.below(4) } else { 0 }
}

/// A history: so many calls from a fresh desk and a table of any content.
pub fn history(
    run: &mut Run,
    e: Edition,
    places: usize,
    most: usize,
    depots: usize,
    calls: usize,
    seen: &mut Seen,
) -> (Bytes, Book) {
    let mut desk = Bytes::fresh(run, e, places);
    let mut book = Ok(Book::new(e, places));
    let mut old = plan_bytes(e, &no_plan());
    for _ in 0..calls {
        let known = book.clone().expect("a book");
        let next = any_call(run, &known, &mut old, most, depots);
        call(run, &mut desk, &mut book, &next, seen);
    }
    (desk, book.expect("a book"))
}

/// The desk and table with some of their bytes changed: the figures of the store, a place, any bytes, or its length, also
/// to the other edition's; or litres with the share of their site, so that row 0 lets the plan through, whose groups may
/// then rise. In edition 2 also the bytes of the roll.
pub fn foreign(run: &mut Run, desk: &Bytes) -> Bytes {
    let e = desk.edition();
    let mut desk = desk.clone();
    let put = |bytes: &mut Vec<u8>, at: usize, with: &[u8]| bytes[at..at + with.len()].copy_from_slice(with);
    match run.rng.below(if e.has_rolls() { 17 } else { 13 }) {
        0 => {
            let places = desk.places() as u64;
            let count = *run.rng.pick(&[0, 1, 2, places, places + 1, 512, 513, 1 << 32, u64::MAX]);
            put(&mut desk.store, 0, &count.to_le_bytes());
        }
        1 => {
            let figure = *run.rng.pick(&[0u64, 1, 2, 256, 1 << 63]);
            put(&mut desk.store, 8, &figure.to_le_bytes());
        }
        2 => {
            let figure = *run.rng.pick(&[0u64, 1, 63, 64, 65, 1 << 40]);
            put(&mut desk.store, 16, &figure.to_le_bytes());
        }
        3 => {
            let at = 24 + 8 * run.rng.below(3);
            let set = if run.rng.percent(50) { 0 } else { 1u64 << run.rng.below(8) };
            put(&mut desk.store, at, &set.to_le_bytes());
        }
        4 => {
            let at = e.store_share(run.rng.below(4));
            // small, or great by its highest byte alone
            let share = if run.rng.percent(80) { run.rng.below(40) as u64 } else { 1 << (8 * (e.share_bytes - 3)) };
            put(&mut desk.store, at, &e.s(share));
        }
        5 if desk.table.len() >= e.place_bytes() => {
            let at = run.rng.below(desk.table.len());
            desk.table[at] = *run.rng.pick(&[0, 1, 63, 64, 255]);
        }
        6 => {
            let places = run.rng.below(4);
            desk.table.truncate(e.place_bytes() * places + run.rng.below(e.place_bytes()));
        }
        7 => {
            let length = if run.rng.percent(50) { *run.rng.pick(&LENGTHS) } else { e.other().store_bytes() };
            desk.store.resize(length, *run.rng.pick(&[0, 0, 1, 255]));
        }
        8 => desk.store.iter_mut().for_each(|b| *b = run.rng.byte()),
        9..=11 => {
            let mut book = held(&desk.store, &desk.table).expect("a history's store");
            if book.plan.is_some() && !book.list.is_empty() {
                let site = run.rng.below(book.list.len());
                let Ok(Told::Figures(share, whole)) = book.answer(&Call::Share(site)) else { panic!("a share") };
                let litres = *run.rng.pick(&[1, 2, 9, 200, 65_535, e.most()]);
                let other = whole / u64::from(book.list[site].litres) * u64::from(litres);
                let share = if share == whole { other } else { share.min(other) };
                put(&mut desk.table, e.place_bytes() * site + 2, &e.litres(litres));
                put(&mut desk.store, e.store_share(site), &e.s(share));
            }
        }
        13 => {
            let figure = *run.rng.pick(&[0u64, 1, 1, 2, 256, 1 << 63]);
            put(&mut desk.store, e.store_roll(), &figure.to_le_bytes());
        }
        // one depot's crews, those of all, or any bytes beside no roll
        14 => {
            let at = e.store_roll() + 8 + run.rng.below(64);
            desk.store[at] = *run.rng.pick(&[0, 1, 9, 10, 255]);
        }
        15 => {
            let crews = *run.rng.pick(&[0, 1, 2, 9, 10]);
            desk.store[e.store_roll() + 8..].fill(crews);
        }
        16 => {
            put(&mut desk.store, e.store_roll(), &0u64.to_le_bytes());
            desk.store[e.store_roll() + 8..].iter_mut().for_each(|b| *b = run.rng.byte());
        }
        _ => {
            let at = run.rng.below(desk.store.len());
            desk.store[at] ^= 1 << run.rng.below(8);
        }
    }
    desk
}

/// Histories of desk calls in either edition, at least `calls` of them, and calls of foreign bytes.
pub fn histories(run: &mut Run, calls: usize) -> Seen {
    let mut seen = NONE;
    let end = run.cases + calls;
    while run.cases < end {
        let e = *run.rng.pick(&EDITIONS);
        let (places, most, depots, calls) = match run.rng.below(100) {
            0..=4 => (0, 2, 2, 20),
            5..=49 => (run.rng.from_to(1, 6), 7, 4, 60),
            50..=89 => (run.rng.from_to(6, 40), 10, 7, 80),
            90..=97 => (run.rng.from_to(100, 600), 60, 20, 40),
            _ => (*run.rng.pick(&[511, 512, 513, 600]), 512, 64, 30),
        };
        let (desk, book) = history(run, e, places, most, depots, calls, &mut seen);
        round_trip(run, &desk, &book, &mut seen);
        for _ in 0..10 {
            let mut desk = foreign(run, &desk);
            let mut book = held(&desk.store, &desk.table);
            for _ in 0..4 {
                let known = book.clone().unwrap_or_else(|_| Book::new(desk.edition(), desk.places()));
                let mut old = plan_bytes(known.edition, &no_plan());
                let next = any_call(run, &known, &mut old, most.min(8), depots);
                call(run, &mut desk, &mut book, &next, &mut seen);
            }
        }
    }
    for e in EDITIONS {
        full(run, e, &mut seen);
        differences(run, e, &mut seen);
        lengths(run, e, &mut seen);
        other_edition(run, e, &mut seen);
        marks(run, e, &mut seen);
        lists(run, e, &mut seen);
    }
    rolls(run, &mut seen);
    no_site(run, &mut seen);
    beside(run, &mut seen);
    seen
}

/// An own site.
fn own(depot: usize, litres: u32) -> Site {
    site(depot as u8, depot as u8, litres)
}

/// Marks, each with the set that is to be answered.
type Asked = Vec<(u32, u64)>;

/// Marks whose sets are worked out here: plans that pass, with the groups falling, and held groups that do not fall, which
/// row 0 lets through.
fn marks(run: &mut Run, e: Edition, seen: &mut Seen) {
    let (all, most) = (u64::MAX, u32::MAX);
    let mut cases: Vec<(Vec<Site>, Asked)> = vec![
        // no sites
        (vec![], vec![(0, 0), (1, 0), (most, 0)]),
        // T: 10/2 each; 2 x 2^31 is 0 in 32 bits
        (vec![site(0, 1, 10)], vec![(0, 3), (4, 3), (5, 3), (6, 0), (65_536, 0), (65_541, 0), (1 << 31, 0), (most, 0)]),
        // 11/2 and 5
        (vec![own(0, 5), site(0, 1, 6), own(2, 5)], vec![(0, 7), (5, 7), (6, 0), (1 << 31, 0)]),
        // 9/2 and 1
        (vec![site(0, 1, 9), site(1, 2, 1)], vec![(0, 7), (1, 7), (2, 3), (4, 3), (5, 0), (1 << 31, 0)]),
        // depot 0 alone with 512 sites of 65,535
        (vec![own(0, 65_535); 512], vec![(65_536, 1), (33_553_919, 1), (33_553_920, 1), (33_553_921, 0), (most, 0)]),
        // the same litres with 64 depots: 524,280 each; 64 x 2^26 is 0 in 32 bits
        (
            known::own_sites(65_535),
            vec![(0, all), (65_536, all), (524_280, all), (524_281, 0), (1 << 26, 0), (most, 0)],
        ),
    ];
    if e == TWO {
        cases.extend([
            // 65,536 is 0 in 16 bits
            (vec![own(0, 65_536), own(1, 65_535)], vec![(65_535, 3), (65_536, 1), (65_537, 0), (131_072, 0)]),
            // the greatest mark, reached and missed by one litre
            (vec![own(0, most)], vec![(0, 1), (65_536, 1), (most - 1, 1), (most, 1)]),
            (vec![own(0, most - 1)], vec![(most - 1, 1), (most, 0)]),
            // half of the most litres is no whole number
            (vec![site(0, 1, most)], vec![(2_147_483_647, 3), (2_147_483_648, 0), (most, 0)]),
            // W of 41 bits, with one depot and with 64
            (vec![own(0, most); 512], vec![(0, 1), (most, 1)]),
            (known::own_sites(most), vec![(0, all), (most, all)]),
            // 64 depots that bring the most litres each, and one litre less
            (known::own_sites(most)[..64].to_vec(), vec![(most - 1, all), (most, all)]),
            (known::own_sites(most - 1)[..64].to_vec(), vec![(most - 1, all), (most, 0)]),
        ]);
    }
    // 64 groups: each depot by itself, and each a step below the one before
    let place = |k: usize| 37 * k % 64;
    let step = if e == ONE { 1_000 } else { 66_000_000 };
    let steps: Vec<Site> = (0..64).map(|k| own(place(k), 64 * step - step * k as u32)).collect();
    let mut asked = vec![(0, all), (1, all), (64 * step + 1, 0), (most, 0)];
    let mut set = 0;
    for (k, site) in steps.iter().enumerate() {
        let litres = site.litres;
        asked.extend([(litres + 1, set), (litres + step / 2, set)]);
        if e == ONE {
            asked.push((65_536 + litres, 0));
        }
        set |= 1 << place(k);
        asked.extend([(litres, set), (litres - 1, set)]);
    }
    cases.push((steps, asked));
    let mut lists: Vec<(List, Asked)> = cases.into_iter().map(|(sites, asked)| (sites.into(), asked)).collect();
    if e.has_rolls() {
        let crewed = |sites: Vec<Site>, crews: &[(usize, u8)]| List { sites, roll: Some(known::roll(crews)) };
        lists.extend([
            // 12/4: 4 x 2^30 is 0 in 32 bits
            (crewed(vec![site(0, 1, 12)], &[(0, 3), (1, 1)]), vec![(0, 3), (3, 3), (4, 0), (6, 0), (1 << 30, 0)]),
            // 10/19; 8/9, 4/9 and 0/1; 18/9 and 17/9
            (crewed(vec![site(0, 1, 9), site(1, 2, 1)], &[(0, 9), (1, 9), (2, 1)]), vec![(0, 7), (1, 0)]),
            (crewed(vec![own(0, 8), own(1, 4)], &[(0, 9), (1, 9), (2, 1)]), vec![(0, 7), (1, 0)]),
            (crewed(vec![own(0, 18), own(1, 17)], &[(0, 9), (1, 9)]), vec![(0, 3), (1, 3), (2, 1), (3, 0)]),
            // no litres: all depots for a mark of 0, and none of these above it
            (crewed(vec![], &[(0, 1), (63, 9)]), vec![(0, 1 | 1 << 63), (1, 0), (65_536, 0), (1 << 31, 0), (most, 0)]),
            (crewed(vec![own(1, 9)], &[(0, 9), (1, 9), (2, 1)]), vec![(0, 7), (1, 2), (2, 0), (most, 0)]),
            (crewed(vec![own(1, 1)], &[(0, 9), (1, 9), (2, 1)]), vec![(0, 7), (1, 0), (most, 0)]),
            (List { sites: vec![], roll: Some([9; 64]) }, vec![(0, all), (1, 0), (most, 0)]),
            (List { sites: vec![own(63, most)], roll: Some([1; 64]) }, vec![(0, all), (1, 1 << 63), (most, 1 << 63)]),
            // nine crews at each depot, and 8 x the most litres for them
            (
                List { sites: known::own_sites(most), roll: Some([9; 64]) },
                vec![(0, all), (3_817_748_706, all), (3_817_748_707, 0), (most, 0)],
            ),
        ]);
    }
    for (list, asked) in lists {
        let mut desk = Bytes::fresh(run, e, list.len());
        let mut book = Ok(Book::new(e, list.len()));
        let plan = plan_bytes(e, &run.plan(&list));
        call(run, &mut desk, &mut book, &Call::Load(list_bytes(e, &list)), seen);
        call(run, &mut desk, &mut book, &Call::AtLeast(asked[0].0), seen);
        call(run, &mut desk, &mut book, &Call::Propose(plan), seen);
        ask(run, &mut desk, &mut book, &asked, seen);
    }
    // own sites of depots 0, 1, .., each a held group of its own, in this order: rising, equal, falling and rising again
    let mut held_groups: Vec<(&[u32], &[(u32, u64)])> = vec![
        (&[4, 9], &[(0, 3), (4, 3), (5, 0), (9, 0), (10, 0), (65_540, 0), (u32::MAX, 0)]),
        (&[4, 4], &[(0, 3), (4, 3), (5, 0)]),
        (&[9, 4, 9], &[(0, 7), (4, 7), (5, 1), (9, 1), (10, 0)]),
        (&[9, 9, 1, 8, 2], &[(1, 31), (2, 3), (8, 3), (9, 3), (10, 0)]),
    ];
    if e == TWO {
        let far: &[(u32, u64)] = &[(0, 7), (1, 7), (2, 1), (65_536, 1), (65_537, 0), (u32::MAX, 0)];
        held_groups.push((&[65_536, 1, 4_294_967_295], far));
    }
    for (litres, asked) in held_groups {
        let sites: Vec<Site> = litres.iter().enumerate().map(|(d, &w)| own(d, w)).collect();
        let groups = (0..sites.len()).map(|d| 1 << d).collect();
        let shares = litres.iter().map(|&w| u64::from(w)).collect();
        let mut desk = Bytes::fresh(run, e, sites.len());
        let written = Book::holding(e, sites.len(), sites.into(), Some(Plan { groups, shares }));
        desk.store = written.store();
        desk.table = written.table(&desk.table);
        let mut book = held(&desk.store, &desk.table);
        ask(run, &mut desk, &mut book, asked, seen);
    }
}

/// Marks, each with the set that is to be answered: that of the book too.
fn ask(run: &mut Run, desk: &mut Bytes, book: &mut Result<Book, Refusal>, asked: &[(u32, u64)], seen: &mut Seen) {
    for &(mark, set) in asked {
        expect(run, desk, book, &Call::AtLeast(mark), Ok(Told::Depots(set)), seen);
    }
}

/// What the book answers to a call; it stays as it is.
pub fn told(book: &Result<Book, Refusal>, call: &Call) -> Result<Told, Refusal> {
    book.clone()?.answer(call).map_err(Refusal::Row)
}

/// A call whose answer is known here: the book's is the same.
pub fn expect(
    run: &mut Run,
    desk: &mut Bytes,
    book: &mut Result<Book, Refusal>,
    next: &Call,
    wanted: Result<Told, Refusal>,
    seen: &mut Seen,
) {
    let told = told(book, next);
    if told != wanted {
        let what = format!("the book answers {told:?} to {next:?}, not {wanted:?}");
        run.fail(&what, &[("store", &desk.store), ("table", &desk.table)]);
    }
    call(run, desk, book, next, seen);
}

/// The list that a desk holds, written out: loaded into a fresh desk with a place for each site and maybe more, it is
/// the same list again, and it is written out as the same bytes. A table with a place too few refuses it by row 2, a desk
/// of the other edition by row 1.
fn round_trip(run: &mut Run, desk: &Bytes, book: &Book, seen: &mut Seen) {
    let e = book.edition;
    let list = list_bytes(e, &book.list);
    let mut from = desk.clone();
    let mut known = Ok(book.clone());
    expect(run, &mut from, &mut known, &Call::List(list.len()), Ok(Told::Wrote(list.clone())), seen);
    let sites = book.list.len();
    let places = sites + *run.rng.pick(&[0, 0, 1, 40]);
    let mut desk = Bytes::fresh(run, e, places);
    let mut other = Ok(Book::new(e, places));
    for next in [Call::Load(list.clone()), Call::List(list.len()), Call::List(list.len() + 7)] {
        call(run, &mut desk, &mut other, &next, seen);
    }
    if other.as_ref().map(|other| &other.list) != Ok(&book.list) {
        run.fail("what was written out is another list when it is loaded", &[("list", &list)]);
    }
    let mut desk = Bytes::fresh(run, e.other(), places);
    let mut other = Ok(Book::new(e.other(), places));
    expect(run, &mut desk, &mut other, &Call::Load(list.clone()), Err(Refusal::Row(1)), seen);
    if sites > 0 {
        let mut desk = Bytes::fresh(run, e, sites - 1);
        let mut other = Ok(Book::new(e, sites - 1));
        expect(run, &mut desk, &mut other, &Call::Load(list), Err(Refusal::Row(2)), seen);
        call(run, &mut desk, &mut other, &Call::List(4), seen);
    }
}

/// Lists whose bytes are worked out here, and buffers around their lengths, with and without a plan held; and desks
/// that row 0 refuses, whatever the buffer.
fn lists(run: &mut Run, e: Edition, seen: &mut Seen) {
    let empty = if e == ONE { b"LS\0\0" } else { b"L2\0\0" };
    let mut cases: Vec<(List, Vec<u8>)> = vec![(List::default(), empty.to_vec())];
    // the order of sites and of a site's depots, equal sites, the ends of depots and litres
    if e == ONE {
        cases.push((vec![site(0, 1, 10)].into(), b"LS\x01\0ST\x00\x01\x0A\0".to_vec()));
        cases.push((
            vec![site(63, 0, 65_535), site(0, 63, 1), site(0, 63, 1), site(63, 63, 256), site(5, 5, 255)].into(),
            b"LS\x05\0ST\x3F\x00\xFF\xFFST\x00\x3F\x01\0ST\x00\x3F\x01\0ST\x3F\x3F\0\x01ST\x05\x05\xFF\0".to_vec(),
        ));
    } else {
        cases.push((vec![site(0, 1, 70_000)].into(), b"L2\x01\0S2\x00\x01\x70\x11\x01\0".to_vec()));
        cases.push((
            vec![site(63, 0, u32::MAX), site(0, 63, 1), site(0, 63, 1), site(63, 63, 65_536), site(5, 5, 0x0102_0304)]
                .into(),
            b"L2\x05\0S2\x3F\x00\xFF\xFF\xFF\xFFS2\x00\x3F\x01\0\0\0S2\x00\x3F\x01\0\0\0S2\x3F\x3F\0\0\x01\0S2\x05\x05\x04\x03\x02\x01"
                .to_vec(),
        ));
    }
    // counts of one byte and of two
    let (marks, step) = if e == ONE { (*b"LSST", 127) } else { (*b"L2S2", 8_388_479) };
    for n in [255, 256, 257, 511, 512] {
        let sites: Vec<Site> = (0..n).map(|i| site((i % 64) as u8, (i / 8) as u8, e.most() - step * i)).collect();
        let mut bytes = vec![marks[0], marks[1], (n % 256) as u8, (n / 256) as u8];
        for s in &sites {
            bytes.extend([marks[2], marks[3], s.first, s.second, (s.litres % 256) as u8, (s.litres / 256 % 256) as u8]);
            if e == TWO {
                bytes.extend([(s.litres / 65_536 % 256) as u8, (s.litres / 16_777_216) as u8]);
            }
        }
        cases.push((sites.into(), bytes));
    }
    // the same with rolls behind them: crews where depots are named, also by the site that is added, and 0 to 9 elsewhere
    if e == TWO {
        for (list, bytes) in cases.clone() {
            let mut roll: [u8; 64] = std::array::from_fn(|d| (d % 10) as u8);
            for d in list.iter().flat_map(|s| [s.first, s.second]).chain([62, 7]) {
                roll[usize::from(d)] = 1 + d % 9;
            }
            let bytes = [&bytes[..], b"DR", &roll].concat();
            cases.push((List { roll: Some(roll), ..list }, bytes));
        }
    }
    // litres whose bytes all differ: in edition 1 the low two of them
    let (changed_to, added) = (Litres::of(e, 0x89AB_CDEF), Litres::of(e, 0x5678_1234));
    let width = if e == ONE { 2 } else { 4 };
    for (list, bytes) in cases {
        // where the sites end, and a roll begins
        let (length, end) = (bytes.len(), 4 + (4 + width) * list.len());
        if length != end + if list.roll.is_some() { 66 } else { 0 } {
            run.fail("a list written here has another length", &[("list", &bytes)]);
        }
        for places in [list.len(), list.len() + 3] {
            let mut desk = Bytes::fresh(run, e, places);
            let mut book = Ok(Book::new(e, places));
            let plan = plan_bytes(e, &run.plan(&list));
            // before any list
            write_out(run, &mut desk, &mut book, empty, seen);
            call(run, &mut desk, &mut book, &Call::Load(bytes.clone()), seen);
            write_out(run, &mut desk, &mut book, &bytes, seen);
            call(run, &mut desk, &mut book, &Call::Propose(plan), seen);
            write_out(run, &mut desk, &mut book, &bytes, seen);
            corrupted(run, &desk, list.len(), length, seen);
            // refused calls: the same list
            call(run, &mut desk, &mut book, &Call::Load(bytes[..length - 1].to_vec()), seen);
            call(run, &mut desk, &mut book, &Call::Change(list.len(), Litres::of(e, 1)), seen);
            call(run, &mut desk, &mut book, &Call::Add(64, 0, Litres::of(e, 1)), seen);
            write_out(run, &mut desk, &mut book, &bytes, seen);
            if !list.is_empty() {
                let mut changed = bytes.clone();
                changed[end - width..end].copy_from_slice(&[0xEF, 0xCD, 0xAB, 0x89][..width]);
                call(run, &mut desk, &mut book, &Call::Change(list.len() - 1, changed_to), seen);
                write_out(run, &mut desk, &mut book, &changed, seen);
            }
            let mut more = list_bytes(e, &book.as_ref().expect("a book").list);
            call(run, &mut desk, &mut book, &Call::Add(62, 7, added), seen);
            if list.len() < places.min(512) {
                let site = [&[marks[2], marks[3], 0x3E, 0x07], &[0x34, 0x12, 0x78, 0x56][..width]].concat();
                more.splice(end..end, site);
                more[2..4].copy_from_slice(&(list.len() as u16 + 1).to_le_bytes());
            }
            write_out(run, &mut desk, &mut book, &more, seen);
        }
    }
}

/// The list written out into buffers of its length, one byte fewer, one more, fewer and more by a record and by a roll,
/// none, around a head, and of the longest list; `bytes` is what is to be written, by the book too.
fn write_out(run: &mut Run, desk: &mut Bytes, book: &mut Result<Book, Refusal>, bytes: &[u8], seen: &mut Seen) {
    let (n, record) = (bytes.len(), desk.edition().site_bytes);
    let longest = desk.edition().longest_list();
    let rolls = [n.saturating_sub(ROLL_BYTES), n + ROLL_BYTES];
    for room in
        [n, n - 1, n + 1, n.saturating_sub(record), n + record, n - 4, 0, 1, 3, 4, longest].into_iter().chain(rolls)
    {
        let wanted = if room < n { Err(Refusal::Row(20)) } else { Ok(Told::Wrote(bytes.to_vec())) };
        expect(run, desk, book, &Call::List(room), wanted, seen);
    }
}

/// Row 0 before row 20, on a desk of so many sites: the count of sites, whether a plan is held, the groups, a share, a
/// depot and litres of the table, a table cut off, or the roll; into buffers of the list's length, one byte fewer and
/// none.
fn corrupted(run: &mut Run, desk: &Bytes, count: usize, length: usize, seen: &mut Seen) {
    let e = desk.edition();
    let end = e.place_bytes() * count;
    let mut desks = vec![];
    let mut damaged = |change: &dyn Fn(&mut Bytes)| {
        let mut other = desk.clone();
        change(&mut other);
        desks.push(other);
    };
    damaged(&|d| d.store[..8].fill(0xFF));
    damaged(&|d| {
        let more = d.places() as u64 + 1;
        d.store[..8].copy_from_slice(&more.to_le_bytes());
    });
    damaged(&|d| d.store[4] = 1);
    damaged(&|d| d.store[8] = 2);
    damaged(&|d| d.store[15] = 1);
    damaged(&|d| d.store[16] = 65);
    damaged(&|d| d.store[16] = d.store[16].wrapping_add(1));
    if count > 0 {
        damaged(&|d| d.store[24..32].fill(0));
        damaged(&|d| d.store[e.store_share(count) - 1] = 0xFF);
        damaged(&|d| d.table[0] = 64);
        damaged(&|d| d.table[end - e.place_bytes() + 1] = 255);
        damaged(&|d| d.table[end - e.place_bytes() + 2..end].fill(0));
        damaged(&|d| d.table.truncate(end - 1));
        damaged(&|d| d.table.clear());
    }
    if count > 0 && e == TWO {
        // above the 38 bits that w x q can have
        damaged(&|d| d.store[e.store_share(0) + 4] = 0xFF);
    }
    if e.has_rolls() {
        let roll = e.store_roll();
        damaged(&|d| d.store[roll] = 2);
        damaged(&|d| d.store[roll + 7] = 1);
        damaged(&|d| (d.store[roll], d.store[roll + 8]) = (1, 10));
        damaged(&|d| (d.store[roll], d.store[roll + 71]) = (1, 255));
    }
    if count > 0 && e.has_rolls() {
        // a named depot without crews
        let roll = e.store_roll();
        damaged(&|d| {
            d.store[roll] = 1;
            d.store[roll + 8..].fill(9);
            d.store[roll + 8 + usize::from(d.table[0])] = 0;
        });
        damaged(&|d| {
            d.store[roll] = 1;
            d.store[roll + 8..].fill(1);
            d.store[roll + 8 + usize::from(d.table[end - e.place_bytes() + 1])] = 0;
        });
    }
    for mut desk in desks {
        let mut book = held(&desk.store, &desk.table);
        for room in [length, length - 1, 0] {
            expect(run, &mut desk, &mut book, &Call::List(room), Err(Refusal::Row(0)), seen);
        }
    }
}

/// T as a list of an edition and its plan, and a desk that holds both.
pub fn holding_t(run: &mut Run, e: Edition, seen: &mut Seen) -> (Vec<u8>, Vec<u8>, Bytes, Result<Book, Refusal>) {
    let (list, plan) = known::t(e);
    let mut desk = Bytes::fresh(run, e, 3);
    let mut book = Ok(Book::new(e, 3));
    for next in [Call::Load(list.clone()), Call::Propose(plan.clone())] {
        expect(run, &mut desk, &mut book, &next, Ok(Told::Done), seen);
    }
    (list, plan, desk, book)
}

/// Stores of other lengths, cut off or with bytes behind, and of the other edition's, where they are what they are read
/// as: every call, which the store itself grants or which a row refuses, and those of the other edition. Where there is
/// no store all is left as it was, by a fresh one of either edition too.
fn lengths(run: &mut Run, e: Edition, seen: &mut Seen) {
    let (list, plan, held_plan, book) = holding_t(run, e, seen);
    let litres = |figure: u32| Litres::of(e, figure);
    let granted = [
        Call::Share(0),
        Call::Depot(1),
        Call::Difference(0, 1),
        Call::Written(plan.len()),
        Call::AtLeast(5),
        Call::List(list.len()),
        Call::Propose(plan.clone()),
        Call::Add(1, 2, litres(3)),
        Call::Change(0, litres(11)),
        Call::Load(list.clone()),
    ];
    let refused = [
        Call::Share(1),
        Call::Depot(2),
        Call::Difference(64, 0),
        Call::Written(0),
        Call::List(0),
        Call::Propose(vec![]),
        Call::Add(64, 2, litres(3)),
        Call::Change(0, litres(0)),
        Call::Load(vec![]),
    ];
    // the other edition's, with litres that a row of its own store refuses and without
    let of_other = [(0, 11), (0, 0), (1, 65_535), (0, u32::MAX)].map(|(site, figure)| {
        let litres = Litres::of(e.other(), figure);
        [Call::Change(site, litres), Call::Add(1, 2, litres), Call::Add(64, 2, litres)]
    });
    for next in &granted {
        call(run, &mut held_plan.clone(), &mut book.clone(), next, seen);
    }
    let mut corrupt = held_plan.clone();
    corrupt.store[..8].fill(0xFF);
    for desk in [held_plan, corrupt, Bytes::fresh(run, e, 0)] {
        for length in LENGTHS.into_iter().chain(EDITIONS.map(Edition::store_bytes)) {
            let mut desk = desk.clone();
            let fill = run.rng.byte();
            let behind = desk.store.get(length..).unwrap_or(&[]).to_vec();
            desk.store.resize(length, fill);
            for next in of_other.iter().flatten().chain(&refused).chain(&granted) {
                let mut book = held(&desk.store, &desk.table);
                call(run, &mut desk, &mut book, next, seen);
            }
            for f in EDITIONS {
                run.cases += 1;
                let mut store = Lent::new(&mut run.rng, &desk.store, &behind);
                let code = lent::fresh(f, &mut store);
                let right = if sized(&desk.store) == Ok(f) {
                    code == 0 && store.bytes() == Book::new(f, 0).store() && store.kept_around()
                } else {
                    code == Refusal::NoStore.code() && store.unchanged_from(0)
                };
                if !right {
                    let what = format!("a fresh store of edition {} in {length} bytes answers {code}", f.number);
                    run.fail(&what, &[("store", &desk.store)]);
                }
            }
        }
    }
}

/// "A desk takes lists and plans of its own edition only; row 1 or row 7 refuses the other": whole, and by their heads
/// alone; and heads of neither. The plan that is held stays held, and its figures are answered.
fn other_edition(run: &mut Run, e: Edition, seen: &mut Seen) {
    let (list, plan, mut desk, mut book) = holding_t(run, e, seen);
    let other = e.other();
    let (other_list, other_plan) = known::t(other);
    let headed = |mark: &[u8; 2], bytes: &[u8]| [&mark[..], &bytes[2..]].concat();
    let lists = [
        other_list.clone(),
        list_bytes(other, &List::default()),
        headed(&other.list, &list),
        headed(b"L3", &list),
        headed(b"L1", &list),
        headed(b"L3", &other_list),
    ];
    let plans = [
        other_plan.clone(),
        plan_bytes(other, &no_plan()),
        headed(&other.plan, &plan),
        headed(b"P3", &plan),
        headed(b"P1", &plan),
        headed(b"P3", &other_plan),
    ];
    for (list, plan) in lists.into_iter().zip(plans) {
        expect(run, &mut desk, &mut book, &Call::Load(list), Err(Refusal::Row(1)), seen);
        expect(run, &mut desk, &mut book, &Call::Propose(plan), Err(Refusal::Row(7)), seen);
        expect(run, &mut desk, &mut book, &Call::Share(0), Ok(Told::Figures(10, 20)), seen);
        expect(run, &mut desk, &mut book, &Call::Depot(1), Ok(Told::Figures(10, 2)), seen);
    }
    expect(run, &mut desk, &mut book, &Call::Written(plan.len()), Ok(Told::Wrote(plan.clone())), seen);
    // on a corrupt store a load tries its own rows
    let mut corrupt = desk.clone();
    corrupt.store[..8].fill(0xFF);
    for list in [other_list.clone(), list_bytes(other, &List::default()), headed(b"L3", &list), list] {
        let mut book = held(&corrupt.store, &corrupt.table);
        call(run, &mut corrupt, &mut book, &Call::Load(list), seen);
    }
    // the other's records under this edition's head: their length is another, but without sites there are none
    let records = headed(&e.list, &other_list);
    expect(run, &mut desk, &mut book, &Call::Load(records), Err(Refusal::Row(3)), seen);
    let records = headed(&e.plan, &other_plan);
    expect(run, &mut desk, &mut book, &Call::Propose(records), Err(Refusal::Row(10)), seen);
    let records = headed(&e.list, &list_bytes(other, &List::default()));
    expect(run, &mut desk, &mut book, &Call::Load(records), Ok(Told::Done), seen);
    let records = headed(&e.plan, &plan_bytes(other, &no_plan()));
    expect(run, &mut desk, &mut book, &Call::Propose(records), Ok(Told::Done), seen);
}

/// A desk with 512 sites of the most litres, in a table that has room for more: no site can be added. In edition 2 with
/// nine crews at each depot too.
fn full(run: &mut Run, e: Edition, seen: &mut Seen) {
    let most = e.most();
    // any pairs; own sites of every depot; one depot alone
    let pairs: Vec<Site> = (0..512).map(|i| site((i % 64) as u8, (i % 63) as u8, most)).collect();
    let lists = [(512, pairs), (513, known::own_sites(most)), (600, vec![own(63, most); 512])];
    let rolls = if e.has_rolls() { vec![None, Some([9; 64])] } else { vec![None] };
    for ((places, sites), roll) in lists.iter().flat_map(|list| rolls.iter().map(move |roll| (list, roll))) {
        let (places, list) = (*places, List { sites: sites.clone(), roll: *roll });
        let mut desk = Bytes::fresh(run, e, places);
        let mut book = Ok(Book::new(e, places));
        let plan = plan_bytes(e, &run.plan(&list));
        let calls = [
            Call::Load(list_bytes(e, &list)),
            Call::Add(0, 0, Litres::of(e, 1)),
            Call::Propose(plan),
            Call::Share(511),
            Call::Share(512),
            Call::Depot(63),
            Call::Difference(0, 63),
            Call::Difference(63, 63),
            Call::Written(e.plan_length(64, 512)),
            Call::AtLeast(524_280),
            Call::AtLeast(u32::MAX),
            Call::List(list.length(e)),
            Call::List(list.length(e) - 1),
            Call::Add(0, 0, Litres::of(e, 1)),
            Call::Change(511, Litres::of(e, most)),
            Call::Share(511),
        ];
        for next in calls {
            call(run, &mut desk, &mut book, &next, seen);
        }
    }
}

/// The largest difference and the least: depot 0 by itself with 480 sites of the most litres, and 63 depots with one litre
/// each from the other 32 sites; in edition 2 also with nine crews at each of the 63 and one at depot 0, and at all.
fn differences(run: &mut Run, e: Edition, seen: &mut Seen) {
    let mut sites = vec![own(0, e.most()); 480];
    sites.extend((0..31).map(|k| site(2 * k + 1, 2 * k + 2, 2)));
    sites.push(own(63, 1));
    let mostly_nine = std::array::from_fn(|d| if d == 0 { 1 } else { 9 });
    // a roll, and q of the two groups
    let cases = [(None, 1, 63), (Some(mostly_nine), 1, 567), (Some([9; 64]), 9, 567)];
    for (roll, p, q) in cases.into_iter().take(if e.has_rolls() { 3 } else { 1 }) {
        let list = List { sites: sites.clone(), roll };
        let mut desk = Bytes::fresh(run, e, 512);
        let mut book = Ok(Book::new(e, 512));
        let plan = plan_bytes(e, &run.plan(&list));
        for next in [Call::Load(list_bytes(e, &list)), Call::Propose(plan)] {
            expect(run, &mut desk, &mut book, &next, Ok(Told::Done), seen);
        }
        let litres = 480 * u64::from(e.most());
        let difference = (q * litres) as i64 - 63 * p as i64;
        for (a, b, difference, divisor) in
            [(0, 63, difference, p * q), (62, 0, -difference, p * q), (0, 0, 0, p * p), (1, 63, 0, q * q)]
        {
            let told = Told::Difference(difference, divisor);
            expect(run, &mut desk, &mut book, &Call::Difference(a, b), Ok(told), seen);
        }
        expect(run, &mut desk, &mut book, &Call::Depot(0), Ok(Told::Figures(litres, p)), seen);
        expect(run, &mut desk, &mut book, &Call::Depot(63), Ok(Told::Figures(63, q)), seen);
    }
}

/// A store of edition 2 keeps the roll, or the lack of one, of the list last loaded: an added site and a change leave it, a
/// load replaces it, refused calls and questions leave it too. The bytes of the store are worked out here.
fn rolls(run: &mut Run, seen: &mut Seen) {
    let e = TWO;
    let crews = known::roll(&[(0, 3), (1, 1), (5, 9)]);
    let (bare, plain) = known::t(e);
    let list = [&bare[..], &roll_bytes(&crews)].concat();
    let mut desk = Bytes::fresh(run, e, 3);
    let mut book = Ok(Book::new(e, 3));
    let done = || Ok(Told::Done);
    let refused = |row| Err(Refusal::Row(row));
    let kept = |run: &mut Run, desk: &Bytes, there: u8, crews: &[u8; 64]| {
        if desk.store[4_632..] != [&[there, 0, 0, 0, 0, 0, 0, 0][..], crews].concat() {
            run.fail("the store's roll is another", &[("store", &desk.store)]);
        }
    };
    // without a roll any depot may be named
    expect(run, &mut desk, &mut book, &Call::Add(63, 7, Litres::of(e, 1)), done(), seen);
    kept(run, &desk, 0, &[0; 64]);
    let plan = plan_bytes(e, &Plan { groups: vec![3, 32], shares: vec![30] });
    let steps: Vec<(Call, Result<Told, Refusal>)> = vec![
        (Call::Load(list.clone()), done()),
        (Call::Depot(0), refused(17)),
        (Call::List(list.len()), Ok(Told::Wrote(list.clone()))),
        (Call::List(bare.len()), refused(20)),
        // the plan that passes without the roll, and the one that passes with it
        (Call::Propose(plain.clone()), refused(13)),
        (Call::Propose(plan.clone()), done()),
        (Call::Share(0), Ok(Told::Figures(30, 40))),
        (Call::Depot(0), Ok(Told::Figures(10, 4))),
        (Call::Depot(1), Ok(Told::Figures(10, 4))),
        // crews and no site; neither
        (Call::Depot(5), Ok(Told::Figures(0, 9))),
        (Call::Depot(2), refused(19)),
        (Call::Difference(0, 1), Ok(Told::Difference(0, 16))),
        (Call::AtLeast(2), Ok(Told::Depots(3))),
        (Call::AtLeast(3), Ok(Told::Depots(0))),
        (Call::Written(35), Ok(Told::Wrote(plan.clone()))),
        // row 23 after rows 2, 5 and 6
        (Call::Add(0, 2, Litres::of(e, 1)), refused(23)),
        (Call::Add(2, 0, Litres::of(e, 1)), refused(23)),
        (Call::Add(63, 63, Litres::of(e, 1)), refused(23)),
        (Call::Add(2, 64, Litres::of(e, 0)), refused(5)),
        (Call::Add(2, 2, Litres::of(e, 0)), refused(6)),
        (Call::Load([&bare[..], &roll_bytes(&known::roll(&[(0, 10)]))].concat()), refused(22)),
        (Call::Load([&bare[..], &roll_bytes(&known::roll(&[(0, 9)]))].concat()), refused(23)),
        (Call::Share(0), Ok(Told::Figures(30, 40))),
        // both keep the roll and drop the plan
        (Call::Change(0, Litres::of(e, 11)), done()),
        (Call::Share(0), refused(17)),
        (Call::Add(5, 0, Litres::of(e, 90)), done()),
        (Call::Add(2, 2, Litres::of(e, 1)), refused(23)),
        (Call::Add(5, 5, Litres::of(e, 1)), done()),
        (Call::Add(2, 2, Litres::of(e, 1)), refused(2)),
        (
            Call::List(28 + 66),
            Ok(Told::Wrote(
                [&b"L2\x03\0S2\x00\x01\x0B\0\0\0S2\x05\x00\x5A\0\0\0S2\x05\x05\x01\0\0\0DR"[..], &crews].concat(),
            )),
        ),
    ];
    for (next, wanted) in steps {
        expect(run, &mut desk, &mut book, &next, wanted, seen);
        kept(run, &desk, 1, &crews);
    }
    // a load without a roll clears it, whatever is held; then one with another
    expect(run, &mut desk, &mut book, &Call::Load(bare.clone()), done(), seen);
    kept(run, &desk, 0, &[0; 64]);
    expect(run, &mut desk, &mut book, &Call::Propose(plain), done(), seen);
    expect(run, &mut desk, &mut book, &Call::Depot(0), Ok(Told::Figures(10, 2)), seen);
    let nine = [&bare[..], &roll_bytes(&[9; 64])].concat();
    expect(run, &mut desk, &mut book, &Call::Load(nine), done(), seen);
    kept(run, &desk, 1, &[9; 64]);
    // a list without sites may have one
    let none = [&list_bytes(e, &List::default())[..], &roll_bytes(&[0; 64])].concat();
    expect(run, &mut desk, &mut book, &Call::Load(none.clone()), done(), seen);
    kept(run, &desk, 1, &[0; 64]);
    expect(run, &mut desk, &mut book, &Call::Propose(plan_bytes(e, &no_plan())), done(), seen);
    expect(run, &mut desk, &mut book, &Call::Add(0, 0, Litres::of(e, 1)), refused(23), seen);
    expect(run, &mut desk, &mut book, &Call::List(none.len()), Ok(Told::Wrote(none)), seen);
}

/// Depots with crews that no site names: they are the last group, and questions about them are answered; a site that is
/// added takes one of them out; without crews a depot is not listed. What is written out is loaded and proposed again.
fn no_site(run: &mut Run, seen: &mut Seen) {
    let e = TWO;
    let litres = |figure| Litres::of(e, figure);
    let done = || Ok(Told::Done);
    let refused = |row| Err(Refusal::Row(row));
    let plan =
        |groups: &[u64], shares: &[u64]| plan_bytes(e, &Plan { groups: groups.to_vec(), shares: shares.to_vec() });
    let loaded =
        |sites: Vec<Site>, crews: &[(usize, u8)]| list_bytes(e, &List { sites, roll: Some(known::roll(crews)) });
    let crews = [(0, 3), (1, 1), (5, 9), (63, 2)];
    let list = loaded(vec![site(0, 1, 10)], &crews);
    let true_plan = plan(&[3, 1 << 5 | 1 << 63], &[30]);
    let asked = vec![
        (Call::Depot(0), Ok(Told::Figures(10, 4))),
        (Call::Depot(5), Ok(Told::Figures(0, 11))),
        (Call::Depot(63), Ok(Told::Figures(0, 11))),
        (Call::Depot(2), refused(19)),
        (Call::Depot(62), refused(19)),
        (Call::Depot(64), refused(19)),
        (Call::Difference(0, 5), Ok(Told::Difference(110, 44))),
        (Call::Difference(63, 1), Ok(Told::Difference(-110, 44))),
        (Call::Difference(5, 63), Ok(Told::Difference(0, 121))),
        (Call::Difference(5, 2), refused(19)),
        (Call::Difference(2, 5), refused(19)),
        (Call::AtLeast(0), Ok(Told::Depots(3 | 1 << 5 | 1 << 63))),
        (Call::AtLeast(1), Ok(Told::Depots(3))),
        (Call::AtLeast(3), Ok(Told::Depots(0))),
        (Call::Share(0), Ok(Told::Figures(30, 40))),
        (Call::Share(1), refused(18)),
        (Call::Written(35), Ok(Told::Wrote(true_plan.clone()))),
        (Call::Written(34), refused(20)),
        (Call::List(list.len()), Ok(Told::Wrote(list.clone()))),
    ];
    let added = loaded(vec![site(0, 1, 10), site(5, 0, 90)], &crews);
    let steps: Vec<(Call, Result<Told, Refusal>)> = vec![
        (Call::Load(list.clone()), done()),
        (Call::Depot(5), refused(17)),
        (Call::AtLeast(0), refused(17)),
        // left out, one of them left out, each by itself, joined to the group before, and in front of it
        (Call::Propose(plan(&[3], &[30])), refused(13)),
        (Call::Propose(plan(&[3, 1 << 5], &[30])), refused(13)),
        (Call::Propose(plan(&[3, 1 << 5 | 1 << 62 | 1 << 63], &[30])), refused(13)),
        (Call::Propose(plan(&[3, 1 << 5, 1 << 63], &[30])), refused(16)),
        (Call::Propose(plan(&[3, 1 << 63, 1 << 5], &[30])), refused(16)),
        (Call::Propose(plan(&[3 | 1 << 5 | 1 << 63], &[30])), refused(15)),
        (Call::Propose(plan(&[3 | 1 << 5, 1 << 63], &[30])), refused(15)),
        (Call::Propose(plan(&[1 << 5 | 1 << 63, 3], &[30])), refused(16)),
        (Call::Depot(5), refused(17)),
        (Call::Propose(true_plan.clone()), done()),
    ];
    let behind: Vec<(Call, Result<Told, Refusal>)> = vec![
        // a site for one of them, and then for the other: 100/13, then 0/2 and 1/2
        (Call::Add(5, 2, litres(90)), refused(23)),
        (Call::Add(5, 0, litres(90)), done()),
        (Call::Depot(63), refused(17)),
        (Call::List(added.len()), Ok(Told::Wrote(added))),
        (Call::Propose(true_plan.clone()), refused(9)),
        (Call::Propose(plan(&[35], &[30, 900])), refused(13)),
        (Call::Propose(plan(&[35, 1 << 63], &[30, 900])), done()),
        (Call::Depot(5), Ok(Told::Figures(100, 13))),
        (Call::Depot(63), Ok(Told::Figures(0, 2))),
        (Call::Difference(5, 63), Ok(Told::Difference(200, 26))),
        (Call::AtLeast(0), Ok(Told::Depots(35 | 1 << 63))),
        (Call::AtLeast(7), Ok(Told::Depots(35))),
        (Call::AtLeast(8), Ok(Told::Depots(0))),
        (Call::Change(0, litres(10)), done()),
        (Call::Propose(plan(&[35, 1 << 63], &[30, 900])), done()),
        (Call::Add(63, 63, litres(1)), done()),
        (Call::Propose(plan(&[35, 1 << 63], &[30, 900, 2])), done()),
        (Call::Depot(63), Ok(Told::Figures(1, 2))),
        (Call::AtLeast(0), Ok(Told::Depots(35 | 1 << 63))),
        (Call::AtLeast(1), Ok(Told::Depots(35))),
        // without the roll they are not listed
        (Call::Load(known::t(e).0), done()),
        (Call::Propose(plan(&[3, 1 << 63], &[10])), refused(13)),
        (Call::Propose(known::t(e).1), done()),
        (Call::Depot(63), refused(19)),
    ];
    let (mut desk, mut book) = (Bytes::fresh(run, e, 3), Ok(Book::new(e, 3)));
    for (next, wanted) in steps.iter().chain(&asked).chain(&behind) {
        expect(run, &mut desk, &mut book, next, wanted.clone(), seen);
    }
    // what was written out, in a desk with one place
    let (mut desk, mut book) = (Bytes::fresh(run, e, 1), Ok(Book::new(e, 1)));
    for (next, wanted) in [(Call::Load(list.clone()), done()), (Call::Propose(true_plan), done())].iter().chain(&asked)
    {
        expect(run, &mut desk, &mut book, next, wanted.clone(), seen);
    }
    // no sites, and a table without places; all 64, and 63 of them; none
    let all = u64::MAX;
    let cases = [
        (List { sites: vec![], roll: Some(known::roll(&[(9, 4)])) }, plan(&[1 << 9], &[]), 9, 4, [1 << 9, 0]),
        (List { sites: vec![], roll: Some([9; 64]) }, plan(&[all], &[]), 63, 576, [all, 0]),
        (List { sites: vec![], roll: Some([1; 64]) }, plan(&[all], &[]), 0, 64, [all, 0]),
        (
            List { sites: vec![own(63, 7)], roll: Some([1; 64]) },
            plan(&[1 << 63, all >> 1], &[7]),
            0,
            63,
            [all, 1 << 63],
        ),
        (List { sites: vec![own(0, 7)], roll: Some([9; 64]) }, plan(&[1, all << 1], &[63]), 63, 567, [all, 0]),
    ];
    for (list, plan, depot, crews, reached) in cases {
        let places = list.len();
        let (mut desk, mut book) = (Bytes::fresh(run, e, places), Ok(Book::new(e, places)));
        let bytes = list_bytes(e, &list);
        let steps = [
            (Call::Load(bytes.clone()), done()),
            (Call::Propose(plan.clone()), done()),
            (Call::Depot(depot), Ok(Told::Figures(0, crews))),
            (Call::Difference(depot, depot), Ok(Told::Difference(0, crews * crews))),
            (Call::AtLeast(0), Ok(Told::Depots(reached[0]))),
            (Call::AtLeast(1), Ok(Told::Depots(reached[1]))),
            (Call::Share(places), refused(18)),
            (Call::Written(plan.len()), Ok(Told::Wrote(plan.clone()))),
            (Call::Written(plan.len() - 1), refused(20)),
            (Call::List(bytes.len()), Ok(Told::Wrote(bytes))),
            (Call::Add(depot, depot, litres(1)), refused(2)),
            (Call::Depot(depot), Ok(Told::Figures(0, crews))),
        ];
        for (next, wanted) in steps {
            expect(run, &mut desk, &mut book, &next, wanted, seen);
        }
    }
}

/// Any bytes beside no roll: nobody looks at them, a change, an added site and a proposal leave them, a load clears them.
fn beside(run: &mut Run, seen: &mut Seen) {
    let (list, plan, mut desk, _) = holding_t(run, TWO, seen);
    let junk = run.junk(64);
    let at = TWO.store_roll() + 8;
    desk.store[at..].copy_from_slice(&junk);
    let mut book = held(&desk.store, &desk.table);
    let litres = |figure| Litres::of(TWO, figure);
    let calls = [
        (Call::Depot(0), Ok(Told::Figures(10, 2))),
        (Call::List(list.len()), Ok(Told::Wrote(list.clone()))),
        (Call::Change(0, litres(10)), Ok(Told::Done)),
        (Call::Propose(plan), Ok(Told::Done)),
        (Call::Add(40, 41, litres(5)), Ok(Told::Done)),
        (Call::Load(vec![]), Err(Refusal::Row(1))),
    ];
    for (next, wanted) in calls {
        expect(run, &mut desk, &mut book, &next, wanted, seen);
        if desk.store[at..] != junk {
            run.fail("what stands beside no roll is changed", &[("store", &desk.store)]);
        }
    }
    expect(run, &mut desk, &mut book, &Call::Load(list), Ok(Told::Done), seen);
    if desk.store[at - 8..] != [0; 72] {
        run.fail("a load without a roll does not clear its bytes", &[("store", &desk.store)]);
    }
}
