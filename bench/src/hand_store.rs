//! The desk's calls written by hand in plain Rust over the same bytes, for comparison: nothing is proved of
//! them. Layouts and answers are those of `include/sulgheti.h`.

use engine_tests::records::{Roll, ROLL_BYTES, ROLL_MARK};

use crate::hand::{edition, enrolled, number, plan_refusal, read, records, Crews, OneEach, Read, GROUP};

/// Row 0.
const CORRUPT: i64 = -256;

/// No row: bytes of another length than a store's.
const NO_STORE: i64 = -257;

const SITES: usize = 512;

// where the parts of a store begin
const HELD: usize = 8;
const GROUPED: usize = 16;
const GROUPS: usize = 24;
const SHARES: usize = 536;

/// Where the shares end; in edition 2 the roll begins there: whether there is one, then the crews.
const fn shares_end(s: usize) -> usize {
    SHARES + s * SITES
}

/// Calls a function over the edition that a store's length tells, with P and S as in `hand`, or with P and R.
macro_rules! by_length {
    ($f:ident($store:ident $(, $given:expr)*)) => {
        by_length!($f::<4, 4>, $f::<6, 8>, $store $(, $given)*)
    };
    ($first:expr, $second:expr, $store:ident $(, $given:expr)*) => {
        match $store.len() {
            2584 => $first($store $(, $given)*),
            4704 => $second($store $(, $given)*),
            _ => Err(NO_STORE),
        }
    };
}

/// What a store and its table hold, where row 0 does not apply.
struct Held<'a, const P: usize, const S: usize> {
    sites: &'a [[u8; P]],
    listed: u64,
    roll: Option<&'a Roll>,
    plan: Option<Plan<'a, S>>,
}

/// A held plan, and for each depot the place of its group.
struct Plan<'a, const S: usize> {
    groups: &'a [[u8; 8]],
    shares: &'a [[u8; S]],
    place: [u8; 64],
    roll: Option<&'a Roll>,
}

impl<const S: usize> Plan<'_, S> {
    /// The place of the group that carries a site.
    fn carrier<const P: usize>(&self, site: &[u8; P]) -> u8 {
        self.place[usize::from(site[0] & 63)].max(self.place[usize::from(site[1] & 63)])
    }

    /// q of a group.
    fn size(&self, k: u8) -> u64 {
        self.crews(u64::from_le_bytes(self.groups[usize::from(k)]))
    }

    /// The crews of a set.
    fn crews(&self, set: u64) -> u64 {
        self.roll.map_or_else(|| OneEach.of(set), |roll| roll.of(set))
    }

    /// W of a group.
    fn litres<const P: usize>(&self, sites: &[[u8; P]], k: u8) -> u64 {
        sites.iter().map(|site| if self.carrier(site) == k { number(&site[2..]) } else { 0 }).sum()
    }
}

/// What is held, or row 0. One pass over the sites, and where a plan is held one over its groups and one
/// over sites and shares.
fn held<'a, const P: usize, const S: usize>(store: &'a [u8], table: &'a [u8]) -> Result<Held<'a, P, S>, i64> {
    let (places, _) = table.as_chunks();
    let count = word(store, 0);
    if count > SITES.min(places.len()) as u64 {
        return Err(CORRUPT);
    }
    let sites = &places[..count as usize];
    let (mut depots, mut dry, mut named) = (0, false, 0);
    for r in sites {
        depots |= r[0] | r[1];
        dry |= number(&r[2..]) == 0;
        named |= 1u64 << (r[0] & 63) | 1u64 << (r[1] & 63);
    }
    if depots > 63 || dry {
        return Err(CORRUPT);
    }
    let (roll, listed) = roll_held::<S>(store, named)?;
    let plan = match (word(store, HELD), roll) {
        (0, _) => None,
        (1, None) => Some(plan_held(store, sites, listed, OneEach)?),
        (1, Some(roll)) => Some(Plan { roll: Some(roll), ..plan_held(store, sites, listed, roll)? }),
        _ => return Err(CORRUPT),
    };
    Ok(Held { sites, listed, roll, plan })
}

/// The roll held or none, and the listed depots, where sites name these depots; or row 0. A store of edition 1 has none.
fn roll_held<const S: usize>(store: &[u8], named: u64) -> Result<(Option<&Roll>, u64), i64> {
    if S == 4 {
        return Ok((None, named));
    }
    match (word(store, shares_end(S)), store.last_chunk()) {
        (0, _) => Ok((None, named)),
        (1, Some(roll)) => enrolled(roll, named).map(|listed| (Some(roll), listed)).map_err(|_| CORRUPT),
        _ => Err(CORRUPT),
    }
}

/// The plan held, or row 0 where rows 8 or 12 to 14 refuse it.
fn plan_held<'a, const P: usize, const S: usize>(
    store: &'a [u8],
    sites: &[[u8; P]],
    listed: u64,
    crews: impl Crews,
) -> Result<Plan<'a, S>, i64> {
    let count = word(store, GROUPED);
    if count > 64 {
        return Err(CORRUPT);
    }
    let groups = &store[GROUPS..SHARES].as_chunks::<8>().0[..count as usize];
    let shares = &store[SHARES..].as_chunks().0[..sites.len()];
    let (mut wrong, mut seen) = (false, 0u64);
    let mut place = [0u8; 64];
    let mut size = [0u64; 64];
    for (k, r) in groups.iter().enumerate() {
        let set = u64::from_le_bytes(*r);
        wrong |= set == 0 || set & seen != 0;
        size[k] = crews.of(set);
        let mut rest = set & !seen;
        while rest != 0 {
            place[rest.trailing_zeros() as usize] = k as u8;
            rest &= rest - 1;
        }
        seen |= set;
    }
    wrong |= seen != listed;
    for (site, share) in sites.iter().zip(shares) {
        let (first, second) = (usize::from(site[0] & 63), usize::from(site[1] & 63));
        let s = number(share);
        let (j, k) = (place[first], place[second]);
        let whole = number(&site[2..]) * size[usize::from(j.max(k) & 63)];
        wrong |= (s > whole) | ((s != 0) & (j < k)) | ((s != whole) & ((k < j) | (first == second)));
    }
    if wrong {
        return Err(CORRUPT);
    }
    Ok(Plan { groups, shares, place, roll: None })
}

fn word(store: &[u8], at: usize) -> u64 {
    u64::from_le_bytes(std::array::from_fn(|i| store[at + i]))
}

/// The store of so many sites and no plan; its roll stays.
fn put_bare<const S: usize>(store: &mut [u8], count: usize) {
    store[..shares_end(S)].fill(0);
    store[..8].copy_from_slice(&(count as u64).to_le_bytes());
}

fn code(answer: Result<i64, i64>) -> i64 {
    answer.unwrap_or_else(|refusal| refusal)
}

#[inline(never)]
pub fn fresh(store: &mut [u8]) -> i64 {
    code(by_length!(try_fresh(store)))
}

fn try_fresh<const P: usize, const S: usize>(store: &mut [u8]) -> Result<i64, i64> {
    store.fill(0);
    Ok(0)
}

#[inline(never)]
pub fn load(store: &mut [u8], table: &mut [u8], list: &[u8]) -> i64 {
    code(by_length!(try_load::<4, 6, 4>, try_load::<6, 8, 8>, store, table, list))
}

fn try_load<const P: usize, const R: usize, const S: usize>(
    store: &mut [u8],
    table: &mut [u8],
    list: &[u8],
) -> Result<i64, i64> {
    let (places, _) = table.as_chunks_mut::<P>();
    let Read { sites, roll, .. } = read::<P, R>(list, SITES.min(places.len())).map_err(|row| -row)?;
    for (place, r) in places.iter_mut().zip(sites) {
        place.copy_from_slice(&r[2..]);
    }
    put_bare::<S>(store, sites.len());
    if S == 8 {
        let (there, crews) = store[shares_end(S)..].split_at_mut(8);
        there.copy_from_slice(&u64::from(roll.is_some()).to_le_bytes());
        crews.copy_from_slice(roll.unwrap_or(&[0; 64]));
    }
    Ok(0)
}

#[inline(never)]
pub fn change(store: &mut [u8], table: &mut [u8], site: usize, litres: u32) -> i64 {
    code(by_length!(try_change(store, table, site, litres)))
}

fn try_change<const P: usize, const S: usize>(
    store: &mut [u8],
    table: &mut [u8],
    site: usize,
    litres: u32,
) -> Result<i64, i64> {
    let count = held::<P, S>(store, table)?.sites.len();
    if litres == 0 {
        return Err(-6);
    }
    if site >= count {
        return Err(-18);
    }
    table[P * site + 2..P * site + P].copy_from_slice(&litres.to_le_bytes()[..P - 2]);
    put_bare::<S>(store, count);
    Ok(0)
}

#[inline(never)]
pub fn add(store: &mut [u8], table: &mut [u8], first: u8, second: u8, litres: u32) -> i64 {
    code(by_length!(try_add(store, table, first, second, litres)))
}

fn try_add<const P: usize, const S: usize>(
    store: &mut [u8],
    table: &mut [u8],
    first: u8,
    second: u8,
    litres: u32,
) -> Result<i64, i64> {
    let held = held::<P, S>(store, table)?;
    let count = held.sites.len();
    if count >= SITES.min(table.len() / P) {
        return Err(-2);
    }
    if first > 63 || second > 63 {
        return Err(-5);
    }
    if litres == 0 {
        return Err(-6);
    }
    if held.roll.is_some_and(|roll| roll.at(usize::from(first)) == 0 || roll.at(usize::from(second)) == 0) {
        return Err(-23);
    }
    let place = &mut table[P * count..P * count + P];
    place[..2].copy_from_slice(&[first, second]);
    place[2..].copy_from_slice(&litres.to_le_bytes()[..P - 2]);
    put_bare::<S>(store, count + 1);
    Ok(0)
}

#[inline(never)]
pub fn propose(store: &mut [u8], table: &[u8], plan: &[u8]) -> i64 {
    code(by_length!(try_propose(store, table, plan)))
}

fn try_propose<const P: usize, const S: usize>(store: &mut [u8], table: &[u8], plan: &[u8]) -> Result<i64, i64> {
    let held = held::<P, S>(store, table)?;
    plan_refusal::<P, S>(held.sites.iter(), held.listed, held.roll, plan).map_err(|row| -row)?;
    let grouped = usize::from(plan[2]);
    let (groups, shares) = plan[5..].split_at(10 * grouped);
    store[HELD..GROUPED].copy_from_slice(&1u64.to_le_bytes());
    store[GROUPED..GROUPS].copy_from_slice(&(grouped as u64).to_le_bytes());
    let (sets, rest) = store[GROUPS..SHARES].split_at_mut(8 * grouped);
    for (set, (_, r)) in sets.chunks_exact_mut(8).zip(records::<8>(groups)) {
        set.copy_from_slice(r);
    }
    rest.fill(0);
    let shares = records::<S>(shares);
    let (front, rest) = store[SHARES..shares_end(S)].split_at_mut(S * shares.len());
    for (share, (_, r)) in front.chunks_exact_mut(S).zip(shares) {
        share.copy_from_slice(r);
    }
    rest.fill(0);
    Ok(0)
}

#[inline(never)]
pub fn share(store: &[u8], table: &[u8], site: usize, share: &mut u64, whole: &mut u64) -> i64 {
    code(by_length!(try_share(store, table, site)).map(|figures| {
        (*share, *whole) = figures;
        0
    }))
}

fn try_share<const P: usize, const S: usize>(store: &[u8], table: &[u8], site: usize) -> Result<(u64, u64), i64> {
    let held = held::<P, S>(store, table)?;
    let plan = held.plan.ok_or(-17)?;
    let record = held.sites.get(site).ok_or(-18)?;
    Ok((number(&plan.shares[site]), number(&record[2..]) * plan.size(plan.carrier(record))))
}

/// The place of a depot's group, or row 19.
fn group_of<const S: usize>(plan: &Plan<S>, listed: u64, depot: u8) -> Result<u8, i64> {
    if depot > 63 || listed >> depot & 1 == 0 {
        return Err(-19);
    }
    Ok(plan.place[usize::from(depot)])
}

#[inline(never)]
pub fn depot(store: &[u8], table: &[u8], depot: u8, litres: &mut u64, size: &mut u64) -> i64 {
    code(by_length!(try_depot(store, table, depot)).map(|figures| {
        (*litres, *size) = figures;
        0
    }))
}

fn try_depot<const P: usize, const S: usize>(store: &[u8], table: &[u8], depot: u8) -> Result<(u64, u64), i64> {
    let held = held::<P, S>(store, table)?;
    let plan = held.plan.ok_or(-17)?;
    let k = group_of(&plan, held.listed, depot)?;
    Ok((plan.litres(held.sites, k), plan.size(k)))
}

#[inline(never)]
pub fn difference(store: &[u8], table: &[u8], a: u8, b: u8, difference: &mut i64, divisor: &mut u64) -> i64 {
    code(by_length!(try_difference(store, table, a, b)).map(|figures| {
        (*difference, *divisor) = figures;
        0
    }))
}

fn try_difference<const P: usize, const S: usize>(store: &[u8], table: &[u8], a: u8, b: u8) -> Result<(i64, u64), i64> {
    let held = held::<P, S>(store, table)?;
    let plan = held.plan.ok_or(-17)?;
    let (j, k) = (group_of(&plan, held.listed, a)?, group_of(&plan, held.listed, b)?);
    let (p, q) = (plan.size(j), plan.size(k));
    let more = plan.litres(held.sites, j) * q;
    let less = plan.litres(held.sites, k) * p;
    Ok((more as i64 - less as i64, p * q))
}

#[inline(never)]
pub fn at_least(store: &[u8], table: &[u8], mark: u32, depots: &mut u64) -> i64 {
    code(by_length!(try_at_least(store, table, mark)).map(|set| {
        *depots = set;
        0
    }))
}

/// One pass over the sites for the W of all groups, and one over the groups up to the first below the mark.
fn try_at_least<const P: usize, const S: usize>(store: &[u8], table: &[u8], mark: u32) -> Result<u64, i64> {
    let held = held::<P, S>(store, table)?;
    let plan = held.plan.ok_or(-17)?;
    let mut litres = [0u64; 64];
    for site in held.sites {
        litres[usize::from(plan.carrier(site) & 63)] += number(&site[2..]);
    }
    let mut depots = 0;
    for (r, w) in plan.groups.iter().zip(litres) {
        let set = u64::from_le_bytes(*r);
        if w < u64::from(mark) * plan.crews(set) {
            break;
        }
        depots |= set;
    }
    Ok(depots)
}

#[inline(never)]
pub fn written(store: &[u8], table: &[u8], buffer: &mut [u8]) -> i64 {
    code(by_length!(try_written(store, table, buffer)))
}

fn try_written<const P: usize, const S: usize>(store: &[u8], table: &[u8], buffer: &mut [u8]) -> Result<i64, i64> {
    let held = held::<P, S>(store, table)?;
    let plan = held.plan.ok_or(-17)?;
    let length = 5 + 10 * plan.groups.len() + (S + 2) * plan.shares.len();
    if buffer.len() < length {
        return Err(-20);
    }
    let (head, rest) = buffer.split_at_mut(5);
    head[..2].copy_from_slice(&edition(P).plan);
    head[2] = plan.groups.len() as u8;
    head[3..].copy_from_slice(&(plan.shares.len() as u16).to_le_bytes());
    let (front, rest) = rest.split_at_mut(10 * plan.groups.len());
    for (r, set) in front.chunks_exact_mut(10).zip(plan.groups) {
        r[..2].copy_from_slice(&GROUP.to_le_bytes());
        r[2..].copy_from_slice(set);
    }
    for (r, share) in rest.chunks_exact_mut(S + 2).zip(plan.shares) {
        r[..2].copy_from_slice(&edition(P).share);
        r[2..].copy_from_slice(share);
    }
    Ok(length as i64)
}

#[inline(never)]
pub fn list(store: &[u8], table: &[u8], buffer: &mut [u8]) -> i64 {
    code(by_length!(try_list(store, table, buffer)))
}

fn try_list<const P: usize, const S: usize>(store: &[u8], table: &[u8], buffer: &mut [u8]) -> Result<i64, i64> {
    let held = held::<P, S>(store, table)?;
    let end = 4 + (P + 2) * held.sites.len();
    let length = end + if held.roll.is_some() { ROLL_BYTES } else { 0 };
    if buffer.len() < length {
        return Err(-20);
    }
    let (head, rest) = buffer[..length].split_at_mut(4);
    head[..2].copy_from_slice(&edition(P).list);
    head[2..].copy_from_slice(&(held.sites.len() as u16).to_le_bytes());
    for (r, site) in rest.chunks_exact_mut(P + 2).zip(held.sites) {
        r[..2].copy_from_slice(&edition(P).site);
        r[2..].copy_from_slice(site);
    }
    if let Some(roll) = held.roll {
        buffer[end..end + 2].copy_from_slice(&ROLL_MARK);
        buffer[end + 2..length].copy_from_slice(roll);
    }
    Ok(length as i64)
}
