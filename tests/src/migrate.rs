//! Desks of edition 1 that go over to edition 2, beside the plain book: histories through the step, steps that are
//! refused, and desks and tables of any bytes.

use crate::book::{held, Book, Call, Litres, Refusal, Told};
use crate::desk::{self, any_call, call, expect, foreign, history, told, Bytes, Seen, DONE, LENGTHS, NO_STORE, PLACES};
use crate::known;
use crate::lent::{self, Lent};
use crate::records::{list_bytes, no_plan, plan_bytes, List, Site, ONE, TWO};
use crate::run::Run;

/// How often a step got each row, success or no store.
pub type Steps = [usize; PLACES];

pub const NONE: Steps = [0; PLACES];

/// What a step can answer.
pub const ROWS: [usize; 4] = [0, 2, DONE, NO_STORE];

/// A new store and a new table of any content: so many places, and bytes behind them.
fn new_bytes(run: &mut Run, places: usize) -> Bytes {
    let tail = run.rng.below(TWO.place_bytes());
    Bytes { store: run.junk(TWO.store_bytes()), table: run.junk(TWO.place_bytes() * places + tail) }
}

/// One step by the library and by the wrapper, compared with what the book says: the answer, every byte of the new store
/// and table, the old ones, and the guards around them. `book` is that of the old desk, or what refuses its bytes. Where
/// nothing refuses the step, the new desk and its book.
fn step(
    run: &mut Run,
    old: &Bytes,
    book: &Result<Book, Refusal>,
    new: &Bytes,
    seen: &mut Steps,
) -> Option<(Bytes, Book)> {
    run.cases += 1;
    let places = new.table.len() / TWO.place_bytes();
    let by_book = book.clone().and_then(|book| book.migrated(places).map_err(Refusal::Row));
    let is_store = old.store.len() == ONE.store_bytes();
    let expected = match &by_book {
        _ if !is_store || new.store.len() != TWO.store_bytes() => Err(Refusal::NoStore),
        by_book => by_book.clone(),
    };
    let place = match expected {
        Ok(_) => DONE,
        Err(Refusal::NoStore) => NO_STORE,
        Err(Refusal::Row(row)) => usize::from(row),
    };
    seen[place] += 1;
    let after = match &expected {
        Ok(book) => Bytes { store: book.store(), table: book.table(&new.table) },
        Err(_) => new.clone(),
    };

    let store = Lent::new(&mut run.rng, &old.store, &[]);
    let table = Lent::new(&mut run.rng, &old.table, &[]);
    let mut store2 = Lent::new(&mut run.rng, &new.store, &[]);
    let mut table2 = Lent::new(&mut run.rng, &new.table, &[]);
    let code = lent::migrate(&store, &table, &mut store2, &mut table2);
    let wanted = expected.as_ref().map_or_else(|refusal| refusal.code(), |_| 0);
    let given: [(&str, &[u8]); 4] =
        [("store", &old.store), ("table", &old.table), ("new store", &new.store), ("new table", &new.table)];
    if code != wanted {
        run.fail(&format!("a step into {places} places answers {code}, expected {wanted}"), &given);
    }
    if !store.unchanged_from(0) || !table.unchanged_from(0) {
        run.fail("a step wrote the old store or table, or beside them", &given);
    }
    if store2.bytes() != after.store || table2.bytes() != after.table {
        run.fail(&format!("a step into {places} places leaves another new store or table"), &given);
    }
    if !store2.kept_around() || !table2.kept_around() {
        run.fail("a step wrote beside the new store or table", &given);
    }

    // by the wrapper, whose new store and table are its own
    if let Ok(bytes) = old.store[..].try_into() {
        let store = sulgheti::Store::from_bytes(bytes, old.table.clone());
        let wrapped = store.migrate(places);
        let same = match (&wrapped, &by_book) {
            (Ok(new), Ok(book)) => {
                let (store, table) = new.bytes();
                store[..] == book.store() && table == book.table(&vec![0; TWO.place_bytes() * places])
            }
            (Err(row), Err(refusal)) => Refusal::Row(row.0) == *refusal,
            _ => false,
        };
        if !same || store.bytes().0[..] != old.store || store.bytes().1 != old.table {
            run.fail(&format!("the wrapper's step into {places} places differs"), &given);
        }
    }
    expected.ok().map(|book| (after, book))
}

/// A step that is known to go over, into a new desk of any content.
fn over(run: &mut Run, old: &Bytes, book: &Book, places: usize, seen: &mut Steps) -> (Bytes, Book) {
    let new = new_bytes(run, places);
    step(run, old, &Ok(book.clone()), &new, seen).unwrap_or_else(|| {
        run.fail("a step with places enough is refused", &[("store", &old.store), ("table", &old.table)]);
        std::process::exit(1)
    })
}

/// A step whose row is known.
fn refused(run: &mut Run, old: &Bytes, new: &Bytes, refusal: Refusal, seen: &mut Steps) {
    let book = held(&old.store, &old.table);
    let before = seen[refused_place(refusal)];
    if step(run, old, &book, new, seen).is_some() || seen[refused_place(refusal)] != before + 1 {
        let what = format!("by the book a step is not refused by {refusal:?}");
        run.fail(&what, &[("store", &old.store), ("table", &old.table), ("new table", &new.table)]);
    }
}

fn refused_place(refusal: Refusal) -> usize {
    match refusal {
        Refusal::NoStore => NO_STORE,
        Refusal::Row(row) => usize::from(row),
    }
}

/// Questions to the old desk and to the new one: "each question gets the figure it would have got before".
fn alike(run: &mut Run, old: &Bytes, new: &Bytes, books: [&Book; 2], seen: &mut Seen) {
    let sites = books[0].list.len();
    let mut questions = Vec::new();
    for _ in 0..if sites > 60 { 4 } else { 12 } {
        let depots = [0; 2].map(|_| if run.rng.percent(10) { run.rng.byte() } else { run.rng.below(8) as u8 });
        questions.push(match run.rng.below(4) {
            0 => Call::Share(run.rng.below(sites + 2)),
            1 => Call::Depot(depots[0]),
            2 => Call::Difference(depots[0], depots[1]),
            _ => Call::AtLeast(desk::mark(run, books[0])),
        });
    }
    let (mut desks, mut known) = ([old.clone(), new.clone()], books.map(|book| Ok(book.clone())));
    for next in questions {
        let answers = [&known[0], &known[1]].map(|book| told(book, &next));
        if answers[0] != answers[1] {
            run.fail(
                &format!("{next:?} gets other figures after the step"),
                &[("store", &old.store), ("table", &old.table)],
            );
        }
        for (desk, book) in desks.iter_mut().zip(&mut known) {
            call(run, desk, book, &next, seen);
        }
    }
}

/// The list and the plan that the new desk writes out, into buffers of their lengths, are what the converter makes of those
/// that the old one writes out; one byte fewer is row 20. The plan held is a true one.
fn as_converted(run: &mut Run, old: &Bytes, new: &Bytes, seen: &mut Seen) {
    run.cases += 1;
    let (Ok(store), Ok(store2)) = (old.store[..].try_into(), new.store[..].try_into()) else { panic!("two stores") };
    let before = sulgheti::Store::from_bytes(store, old.table.clone());
    let after = sulgheti::Store2::from_bytes(store2, new.table.clone());
    let (mut list, mut plan) = ([0; sulgheti::LIST_MAX], [0; sulgheti::PLAN_MAX]);
    let (mut list2, mut plan2) = ([0; sulgheti::LIST2_MAX], [0; sulgheti::PLAN2_MAX]);
    let (mut out, mut plan_out) = ([0; sulgheti::LIST2_MAX], [0; sulgheti::PLAN2_MAX]);
    let length = before.list(&mut list).expect("a list");
    let (wanted, lengths) = match before.written(&mut plan) {
        Ok(m) => {
            let wanted = sulgheti::upgrade_plan(&list[..length], &plan[..m], &mut list2, &mut plan2);
            (wanted, after.list(&mut out).and_then(|n| after.written(&mut plan_out).map(|m| (n, m))))
        }
        Err(row) => {
            let wanted = sulgheti::upgrade_list(&list[..length], &mut list2).map(|n| (n, 0));
            let none = after.written(&mut plan_out) == Err(row) && row == sulgheti::Row(17);
            (wanted, after.list(&mut out).map(|n| (n, usize::from(!none))))
        }
    };
    if wanted != lengths || out != list2 || plan_out != plan2 {
        run.fail(
            "what is written out is not what the converter makes",
            &[("store", &old.store), ("table", &old.table)],
        );
    }
    let (n, m) = lengths.expect("lengths");
    let (mut desk, mut book) = (new.clone(), held(&new.store, &new.table));
    let short = Err(Refusal::Row(20));
    expect(run, &mut desk, &mut book, &Call::List(n), Ok(Told::Wrote(out[..n].to_vec())), seen);
    expect(run, &mut desk, &mut book, &Call::List(n - 1), short.clone(), seen);
    if m > 0 {
        expect(run, &mut desk, &mut book, &Call::Written(m), Ok(Told::Wrote(plan_out[..m].to_vec())), seen);
        expect(run, &mut desk, &mut book, &Call::Written(m - 1), short, seen);
    }
}

/// So many calls of any kind.
fn go_on(
    run: &mut Run,
    desk: &mut Bytes,
    book: &mut Result<Book, Refusal>,
    calls: usize,
    size: (usize, usize),
    seen: &mut Seen,
) {
    let mut old = plan_bytes(ONE, &no_plan());
    for _ in 0..calls {
        let known = book.clone().unwrap_or_else(|_| Book::new(ONE, desk.places()));
        let next = any_call(run, &known, &mut old, size.0, size.1);
        call(run, desk, book, &next, seen);
    }
}

/// Places that are too few for the sites, where there is a site.
fn too_few(run: &mut Run, sites: usize) -> usize {
    if run.rng.percent(50) {
        sites - 1
    } else {
        run.rng.below(sites)
    }
}

/// Histories of desks that go over, at least so many cases, and what is fixed.
pub fn steps(run: &mut Run, cases: usize, seen: &mut Seen) -> Steps {
    let mut steps = NONE;
    let end = run.cases + cases;
    while run.cases < end {
        let (places, most, depots, calls) = match run.rng.below(100) {
            0..=4 => (0, 2, 2, 6),
            5..=54 => (run.rng.from_to(1, 6), 7, 4, 12),
            55..=91 => (run.rng.from_to(6, 40), 10, 7, 16),
            92..=98 => (run.rng.from_to(100, 600), 60, 20, 8),
            _ => (*run.rng.pick(&[511, 512, 513, 600]), 512, 64, 4),
        };
        let before = run.rng.below(calls + 1);
        through(run, places, (most, depots), before, calls, seen, &mut steps);
    }
    known_lists(run, seen, &mut steps);
    t_in_bytes(run, seen, &mut steps);
    lengths(run, seen, &mut steps);
    row_0_first(run, seen, &mut steps);
    steps
}

/// A history of edition 1, refused steps, the step, and calls of both desks behind it; then steps of foreign bytes.
fn through(
    run: &mut Run,
    places: usize,
    size: (usize, usize),
    before: usize,
    after: usize,
    seen: &mut Seen,
    steps: &mut Steps,
) {
    let (mut desk, known) = history(run, ONE, places, size.0, size.1, before, seen);
    let mut book = Ok(known);
    let sites = |book: &Result<Book, Refusal>| book.as_ref().expect("a book").list.len();
    if run.rng.percent(60) {
        let plan = plan_bytes(ONE, &run.plan(&book.as_ref().expect("a book").list.clone()));
        expect(run, &mut desk, &mut book, &Call::Propose(plan), Ok(Told::Done), seen);
    }
    for _ in 0..run.rng.below(3) {
        if sites(&book) > 0 {
            let places = too_few(run, sites(&book));
            let new = new_bytes(run, places);
            refused(run, &desk, &new, Refusal::Row(2), steps);
        }
        // the old desk goes on
        let calls = run.rng.below(3);
        go_on(run, &mut desk, &mut book, calls, size, seen);
    }
    let n = sites(&book);
    let places = n + *run.rng.pick(&[0, 0, 1, 3, 40, 600]);
    let known = book.clone().expect("a book");
    let (mut desk2, known2) = over(run, &desk, &known, places, steps);
    alike(run, &desk, &desk2, [&known, &known2], seen);
    as_converted(run, &desk, &desk2, seen);
    // a new desk is a store of edition 2, and does not go over
    let new = new_bytes(run, places);
    refused(run, &desk2, &new, Refusal::NoStore, steps);
    // beyond what is held any bytes may stand, and a step clears them
    let mut other = desk.clone();
    let (groups, shares) = known.plan.as_ref().map_or((0, 0), |plan| (plan.groups.len(), n));
    for at in (24 + 8 * groups..ONE.store_share(0)).chain(ONE.store_share(shares)..other.store.len()) {
        other.store[at] = run.rng.byte();
    }
    if known.plan.is_none() {
        other.store[16] = run.rng.byte();
    }
    let (desk3, _) = over(run, &other, &known, places, steps);
    if desk3.store != desk2.store {
        run.fail("what stands beyond the plan held is carried over", &[("store", &other.store)]);
    }
    let mut book2 = Ok(known2);
    for _ in 0..2 {
        let calls = run.rng.below(after + 1);
        go_on(run, &mut desk2, &mut book2, calls, size, seen);
        go_on(run, &mut desk, &mut book, calls / 2, size, seen);
    }
    for _ in 0..6 {
        let old = foreign(run, &desk);
        let places = if run.rng.percent(30) && n > 0 { too_few(run, n) } else { n + run.rng.below(4) };
        let mut new = new_bytes(run, places);
        if run.rng.percent(10) {
            new.store.resize(*run.rng.pick(&LENGTHS), 0);
        }
        let book = held(&old.store, &old.table);
        if let Some((mut desk, book)) = step(run, &old, &book, &new, steps) {
            let mut book = Ok(book);
            go_on(run, &mut desk, &mut book, 3, (size.0.min(8), size.1), seen);
        }
    }
}

/// The lists with known plans, with the plan and without one, into tables around the number of sites and of many places.
fn known_lists(run: &mut Run, seen: &mut Seen, steps: &mut Steps) {
    for list in known::lists(ONE) {
        let n = list.list.len();
        let own = run.plan(&list.list);
        let plan = crate::records::Plan { groups: list.groups, shares: list.shares.unwrap_or(own.shares) };
        let calls = [Call::Load(list_bytes(ONE, &list.list)), Call::Propose(plan_bytes(ONE, &plan))];
        for (held_calls, old_places) in [(2, n), (1, n), (2, n + 5), (2, 600)] {
            let mut desk = Bytes::fresh(run, ONE, old_places);
            let mut book = Ok(Book::new(ONE, old_places));
            for next in &calls[..held_calls] {
                expect(run, &mut desk, &mut book, next, Ok(Told::Done), seen);
            }
            for places in [0, n / 2, n.saturating_sub(1), n, n + 1, 512, 513, 600] {
                if places < n {
                    let new = new_bytes(run, places);
                    refused(run, &desk, &new, Refusal::Row(2), steps);
                    continue;
                }
                let known = book.clone().expect("a book");
                let (mut desk2, known2) = over(run, &desk, &known, places, steps);
                alike(run, &desk, &desk2, [&known, &known2], seen);
                as_converted(run, &desk, &desk2, seen);
                // the new table's places count, and litres above 65,535
                let mut book2 = Ok(known2);
                let full = n == places.min(512);
                let heavy = Call::Add(63, 0, Litres::Bits32(u32::MAX));
                let added = if full { Err(Refusal::Row(2)) } else { Ok(Told::Done) };
                expect(run, &mut desk2, &mut book2, &heavy, added, seen);
                expect(run, &mut desk2, &mut book2, &calls[0], Err(Refusal::Row(1)), seen);
                expect(run, &mut desk2, &mut book2, &calls[1], Err(Refusal::Row(7)), seen);
            }
        }
    }
}

/// T, its bytes worked out here: a store and a table of edition 2.
fn t_in_bytes(run: &mut Run, seen: &mut Seen, steps: &mut Steps) {
    let (_, _, desk, book) = desk::holding_t(run, ONE, seen);
    let book = book.expect("a book");
    for places in [1, 2, 600] {
        let new = new_bytes(run, places);
        let Some((after, _)) = step(run, &desk, &Ok(book.clone()), &new, steps) else { panic!("T goes over") };
        let mut store = vec![0; 4_704];
        for (at, byte) in [(0, 1), (8, 1), (16, 1), (24, 3), (536, 10)] {
            store[at] = byte;
        }
        if after.store != store || after.table != [&[0, 1, 10, 0, 0, 0], &new.table[6..]].concat() {
            run.fail("T has gone over into other bytes", &[("store", &after.store), ("table", &after.table)]);
        }
    }
    // without a plan, and without sites
    let mut bare = desk.clone();
    bare.store[8..].fill(0);
    let mut none = desk.clone();
    none.store.fill(0);
    for (old, count, places) in [(bare, 1, 1), (none, 0, 0)] {
        let new = new_bytes(run, places);
        let book = held(&old.store, &old.table);
        let Some((after, _)) = step(run, &old, &book, &new, steps) else { panic!("a bare desk goes over") };
        let store = [&[count][..], &[0; 4_703]].concat();
        if after.store != store || after.table[6 * places..] != new.table[6 * places..] {
            run.fail("a bare desk has gone over into other bytes", &[("store", &after.store)]);
        }
    }
}

/// Old and new stores of any two lengths, cut off or with bytes behind: a step only from a store of edition 1 to one of
/// edition 2; whatever the old one holds, and with too few places.
fn lengths(run: &mut Run, seen: &mut Seen, steps: &mut Steps) {
    let (_, _, whole, _) = desk::holding_t(run, ONE, seen);
    let mut corrupt = whole.clone();
    corrupt.store[..8].fill(0xFF);
    let two = desk::holding_t(run, TWO, seen).2;
    let all = || LENGTHS.into_iter().chain([ONE.store_bytes(), TWO.store_bytes()]);
    for (old_length, new_length) in all().flat_map(|old| all().map(move |new| (old, new))) {
        for old in [&whole, &corrupt, &two] {
            for places in [0, 3] {
                let (mut old, mut new) = (old.clone(), new_bytes(run, places));
                let fill = run.rng.byte();
                old.store.resize(old_length, fill);
                new.store.resize(new_length, fill);
                if (old_length, new_length) == (ONE.store_bytes(), TWO.store_bytes()) {
                    let book = held(&old.store, &old.table);
                    step(run, &old, &book, &new, steps);
                } else {
                    refused(run, &old, &new, Refusal::NoStore, steps);
                }
            }
        }
    }
}

/// Row 0 before row 2: a desk of which each part is damaged, into tables of too few places and of enough.
fn row_0_first(run: &mut Run, seen: &mut Seen, steps: &mut Steps) {
    let pair = |first: u8, second: u8, litres| Site { first, second, litres };
    for sites in [vec![pair(0, 1, 10)], vec![pair(0, 1, 9), pair(1, 2, 1)], known::own_sites(65_535)] {
        let n = sites.len();
        let list: List = sites.into();
        let plan = run.plan(&list);
        let mut desk = Bytes::fresh(run, ONE, n);
        let mut book = Ok(Book::new(ONE, n));
        for next in [Call::Load(list_bytes(ONE, &list)), Call::Propose(plan_bytes(ONE, &plan))] {
            expect(run, &mut desk, &mut book, &next, Ok(Told::Done), seen);
        }
        let damages: [&dyn Fn(&mut Bytes); 13] = [
            &|d| d.store[..8].fill(0xFF),
            &|d| d.store[..8].copy_from_slice(&(n as u64 + 1).to_le_bytes()),
            &|d| d.store[4] = 1,
            &|d| d.store[8] = 2,
            &|d| d.store[15] = 1,
            &|d| d.store[16] = 65,
            &|d| d.store[24..32].fill(0),
            &|d| d.store[ONE.store_share(n) - 1] = 0xFF,
            &|d| d.table[0] = 64,
            &|d| d.table[4 * n - 3] = 255,
            &|d| d.table[4 * n - 2..4 * n].fill(0),
            &|d| d.table.truncate(4 * n - 1),
            &|d| d.table.clear(),
        ];
        for damage in damages {
            let mut other = desk.clone();
            damage(&mut other);
            for places in [0, n - 1, n, 600] {
                let new = new_bytes(run, places);
                refused(run, &other, &new, Refusal::Row(0), steps);
            }
        }
    }
}
