//! Damage to a list and a plan, by row: each function spoils what one row is about.

use crate::records::{listed, members, named, plan_bytes, Edition, List, Plan, Site, EDITIONS, ROLL_BYTES};
use crate::rng::Rng;

/// A list and a plan laid out for it in an edition, as values. Offsets of the bytes follow from their counts.
pub struct Base {
    pub edition: Edition,
    pub list: List,
    pub plan: Plan,
}

/// The rows of Check in the order in which they are tried.
pub fn rows(e: Edition) -> Vec<u8> {
    list_rows(e).into_iter().chain(7..=16).collect()
}

/// Those of the list.
pub fn list_rows(e: Edition) -> Vec<u8> {
    let of_roll: &[u8] = if e.has_rolls() { &[22, 23] } else { &[] };
    (1..=6).chain(of_roll.iter().copied()).collect()
}

impl Base {
    fn site_at(&self, i: usize) -> usize {
        self.edition.list_length(i)
    }

    fn roll_at(&self) -> usize {
        self.site_at(self.list.len())
    }

    fn group_at(&self, k: usize) -> usize {
        self.edition.plan_length(k, 0)
    }

    fn share_at(&self, i: usize) -> usize {
        self.edition.plan_length(self.plan.groups.len(), i)
    }

    fn place(&self, depot: u8) -> usize {
        self.plan.groups.iter().position(|g| g >> depot & 1 == 1).expect("a grouped depot")
    }

    /// The places of a site's two depots and its litres at the scale of the carrying group.
    fn carried(&self, s: &Site) -> (usize, usize, u64) {
        let (first, second) = (self.place(s.first), self.place(s.second));
        let q = self.list.size(self.plan.groups[first.max(second)]);
        (first, second, u64::from(s.litres) * q)
    }
}

fn put(bytes: &mut [u8], at: usize, with: &[u8]) {
    if at + with.len() <= bytes.len() {
        bytes[at..at + with.len()].copy_from_slice(with);
    }
}

/// Changes one of two mark bytes, or gives the record the mark that it has in the other edition.
fn spoil_mark(rng: &mut Rng, bytes: &mut [u8], at: usize, other: [u8; 2]) {
    if rng.percent(20) {
        return put(bytes, at, &other);
    }
    let at = at + rng.below(2);
    if at < bytes.len() {
        bytes[at] ^= 1 + rng.below(255) as u8;
    }
}

/// A mark that begins a list of neither edition, near to theirs or any.
fn no_list(rng: &mut Rng) -> [u8; 2] {
    loop {
        let mark = match rng.below(3) {
            0 => *rng.pick(b"L3L1LRLTMSM2SL2LPLP2L\0\0S\x002".as_chunks().0),
            1 => [0x4C, rng.byte()],
            _ => [rng.byte(), rng.byte()],
        };
        if EDITIONS.iter().all(|e| e.list != mark) {
            return mark;
        }
    }
}

/// Makes the bytes longer or shorter by a few, cuts them anywhere down to `least`, or gives them the length that they
/// have in the other edition.
fn spoil_length(rng: &mut Rng, bytes: &mut Vec<u8>, least: usize, other: usize) {
    match rng.below(5) {
        4 if bytes.len() != other => bytes.resize(other, rng.byte()),
        0 if bytes.len() > least => bytes.truncate(bytes.len() - 1),
        1 if bytes.len() > least => bytes.truncate(rng.from_to(least, bytes.len() - 1)),
        2 => bytes.push(rng.byte()),
        _ => {
            for _ in 0..rng.from_to(1, 20) {
                bytes.push(rng.byte());
            }
        }
    }
}

/// Gives a list of so many sites a length that its edition does not take.
fn spoil_list_length(rng: &mut Rng, e: Edition, list: &mut Vec<u8>, sites: usize) {
    let whole = e.list_length(sites);
    if rng.percent(20) {
        // around a roll: its mark alone, a byte fewer or more, two of them; edition 1 has none
        let more = *rng.pick(&[1, 2, ROLL_BYTES - 2, ROLL_BYTES - 1, ROLL_BYTES, ROLL_BYTES + 1, 2 * ROLL_BYTES]);
        list.resize(whole + more, rng.byte());
    } else {
        spoil_length(rng, list, 4, e.other().list_length(sites));
    }
    if list.len() == whole || e.has_rolls() && list.len() == whole + ROLL_BYTES {
        list.push(rng.byte());
    }
}

/// Spoils what `row` is about, for rows 1 to 15, 22 and 23, in the bytes of `base` or in bytes that a later row's
/// damage has changed. False where this base has nothing to spoil.
pub fn spoil(rng: &mut Rng, row: u8, base: &Base, list: &mut Vec<u8>, plan: &mut Vec<u8>) -> bool {
    let (sites, groups) = (base.list.len(), base.plan.groups.len());
    let (e, other) = (base.edition, base.edition.other());
    match row {
        1 => {
            if rng.percent(30) {
                list.truncate(rng.below(4));
            } else {
                put(list, 0, &no_list(rng));
            }
        }
        2 => {
            let count = *rng.pick(&[513, 514, 600, 0x0300, 0x8000, 0xFFFF]);
            put(list, 2, &(count as u16).to_le_bytes());
            // sometimes with all the records that it announces
            if list.len() >= e.list_length(1) && count <= 600 && rng.percent(50) {
                let record = list[4..e.list_length(1)].to_vec();
                while list.len() < e.list_length(count) {
                    list.extend(&record);
                }
            }
        }
        3 => {
            if rng.percent(30) {
                let count = if rng.percent(50) && sites > 0 { sites - 1 } else { sites + 1 };
                if count > 512 {
                    return false;
                }
                put(list, 2, &(count as u16).to_le_bytes());
            } else {
                spoil_list_length(rng, e, list, sites);
            }
        }
        4 if base.list.roll.is_some() && (sites == 0 || rng.percent(30)) => {
            spoil_mark(rng, list, base.roll_at(), e.site)
        }
        4..=6 => {
            if sites == 0 {
                return false;
            }
            let at = base.site_at(rng.below(sites));
            match row {
                4 => spoil_mark(rng, list, at, other.site),
                5 => put(list, at + 2 + rng.below(2), &[rng.from_to(64, 255) as u8]),
                _ => put(list, at + 4, &e.litres(0)),
            }
        }
        22 | 23 => {
            let named = members(named(&base.list));
            if base.list.roll.is_none() || row == 23 && named.is_empty() {
                return false;
            }
            let (depot, crews) = if row == 22 {
                (rng.below(64), if rng.percent(40) { 10 } else { rng.from_to(10, 255) })
            } else {
                (*rng.pick(&named), 0)
            };
            put(list, base.roll_at() + 2 + depot, &[crews as u8]);
        }
        7 => match rng.below(10) {
            0..=2 => plan.truncate(rng.below(5)),
            // the other edition's, if there is no damage in it
            3 | 4 if *plan == plan_bytes(e, &base.plan) => *plan = plan_bytes(other, &base.plan),
            _ => spoil_mark(rng, plan, 0, other.plan),
        },
        8 => {
            let count = rng.from_to(65, 255);
            put(plan, 2, &[count as u8]);
            // sometimes with all the records that it announces
            if rng.percent(50) {
                let more = (groups..count).flat_map(|_| *b"GR\x01\0\0\0\0\0\0\0");
                let at = base.share_at(0).min(plan.len());
                plan.splice(at..at, more);
            }
        }
        9 => {
            let count = match rng.below(4) {
                0 if sites > 0 => sites - 1,
                1 => sites ^ 0x100,
                2 => sites + 0x200,
                _ => sites + 1,
            };
            put(plan, 3, &(count as u16).to_le_bytes());
            if count == sites + 1 && rng.percent(50) {
                plan.extend(e.share);
                plan.extend(e.s(0));
            }
        }
        10 => {
            if rng.percent(30) {
                let count = if rng.percent(50) && groups > 0 { groups - 1 } else { groups + 1 };
                if count > 64 {
                    return false;
                }
                put(plan, 2, &[count as u8]);
            } else {
                spoil_length(rng, plan, 5, other.plan_length(groups, sites));
            }
        }
        11 => {
            if groups == 0 {
                return false;
            }
            let (at, mark) = if sites == 0 || rng.percent(50) {
                (base.group_at(rng.below(groups)), e.share)
            } else {
                (base.share_at(rng.below(sites)), other.share)
            };
            spoil_mark(rng, plan, at, mark);
        }
        12 => {
            if groups == 0 {
                return false;
            }
            let k = rng.below(groups);
            if k > 0 && rng.percent(70) {
                // a depot of an earlier group as the bytes have it now
                let earlier = base.group_at(rng.below(k)) + 2;
                let depots: Vec<usize> = (0..64).filter(|d| plan[earlier + d / 8] >> (d % 8) & 1 == 1).collect();
                let d = rng.pick(&depots);
                plan[base.group_at(k) + 2 + d / 8] |= 1 << (d % 8);
            } else {
                put(plan, base.group_at(k) + 2, &[0; 8]);
            }
        }
        13 => {
            if groups == 0 {
                return false;
            }
            let k = rng.below(groups);
            let set = base.plan.groups[k];
            let free = members(!listed(&base.list));
            let set = if set.count_ones() > 1 && (free.is_empty() || rng.percent(50)) {
                set & !(1 << rng.pick(&members(set)))
            } else if free.is_empty() {
                return false;
            } else {
                set | 1 << rng.pick(&free)
            };
            put(plan, base.group_at(k) + 2, &set.to_le_bytes());
        }
        14 => {
            if sites == 0 {
                return false;
            }
            let i = rng.below(sites);
            let s = &base.list[i];
            let (first, second, whole) = base.carried(s);
            let fixed = s.first == s.second || first != second;
            let share = match rng.below(4) {
                0 if fixed => {
                    let right = if first < second { 0 } else { whole };
                    let wrong = rng.from_to(0, whole as usize) as u64;
                    if wrong == right {
                        whole - right
                    } else {
                        wrong
                    }
                }
                1 => e.most_share() - rng.below(1000) as u64,
                // right in its low bytes
                2 => base.plan.shares[i] | 1 << (8 * (e.share_bytes - 3) + rng.below(8)),
                _ => whole + 1,
            };
            put(plan, base.share_at(i) + 2, &e.s(share));
        }
        15 => {
            let open = |s: &&Site| s.first != s.second && base.place(s.first) == base.place(s.second);
            if !base.list.iter().any(|s| open(&s)) {
                return false;
            }
            let i = loop {
                let i = rng.below(sites);
                if open(&&base.list[i]) {
                    break i;
                }
            };
            let (_, _, whole) = base.carried(&base.list[i]);
            let share = base.plan.shares[i];
            let other = match rng.below(3) {
                0 if share < whole => share + 1,
                1 if share > 0 => share - 1,
                _ => rng.from_to(0, whole as usize) as u64,
            };
            let other = if other == share { whole - share } else { other };
            let other = if other == share { share + 1 } else { other };
            put(plan, base.share_at(i) + 2, &e.s(other));
        }
        _ => unreachable!("no damage for row {row}"),
    }
    true
}

/// The groups in another order in which every site is still carried by the same group, if there is
/// one: the plan stays level, and row 16 refuses it.
pub fn reordered(rng: &mut Rng, base: &Base) -> Option<Plan> {
    let groups = &base.plan.groups;
    let n = groups.len();
    if n < 2 {
        return None;
    }
    let tied = |j: usize, k: usize| {
        base.list.iter().any(|s| {
            let both = 1u64 << s.first | 1u64 << s.second;
            both & groups[j] != 0 && both & groups[k] != 0
        })
    };
    let mut order: Vec<usize> = (0..n).collect();
    for _ in 0..2 * n {
        let k = rng.below(n - 1);
        if !tied(order[k], order[k + 1]) {
            order.swap(k, k + 1);
        }
    }
    let swapped: Vec<u64> = order.iter().map(|&k| groups[k]).collect();
    (swapped != *groups).then(|| Plan { groups: swapped, shares: base.plan.shares.clone() })
}

/// Whether damage done to `whole` still stands in `twice`, which was damaged again: its length and each byte that it
/// changed.
pub fn kept(whole: &[u8], once: &[u8], twice: &[u8]) -> bool {
    let changed = |i: &usize| whole.get(*i) != once.get(*i);
    once == whole || once.len() == twice.len() && (0..once.len()).filter(changed).all(|i| once[i] == twice[i])
}
