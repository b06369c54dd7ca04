//! Check, Make and the converter written by hand in plain Rust, for comparison: nothing is proved of them.
//!
//! Functions over an edition have the bytes of a place, two depots and litres, as P, those of a site's record, which has
//! a mark before it, as R, and those of a share as S: 4, 6 and 4 in edition 1, 6, 8 and 8 in edition 2. They are compiled
//! for each edition by itself; and those that count crews for a roll and for none, so that without a roll none is read.

use std::ops::{AddAssign, Sub, SubAssign};

use engine_tests::records::{Edition, Roll, ONE, ROLL_BYTES, ROLL_MARK, TWO};

pub(crate) const GROUP: u16 = u16::from_le_bytes(*b"GR");

/// The edition whose places have so many bytes.
pub(crate) const fn edition(place: usize) -> Edition {
    if place == 4 {
        ONE
    } else {
        TWO
    }
}

pub(crate) fn half(r: &[u8], at: usize) -> u16 {
    u16::from_le_bytes([r[at], r[at + 1]])
}

/// Litres or a share, in 2, 4 or 8 bytes.
#[inline(always)]
pub(crate) fn number(bytes: &[u8]) -> u64 {
    match *bytes {
        [a, b] => u64::from(u16::from_le_bytes([a, b])),
        [a, b, c, d] => u64::from(u32::from_le_bytes([a, b, c, d])),
        [a, b, c, d, e, f, g, h] => u64::from_le_bytes([a, b, c, d, e, f, g, h]),
        _ => unreachable!("no number has {} bytes", bytes.len()),
    }
}

/// Records of a mark and N bytes.
pub(crate) fn records<const N: usize>(bytes: &[u8]) -> impl ExactSizeIterator<Item = (u16, &[u8; N])> {
    bytes.chunks_exact(N + 2).map(|r| (half(r, 0), r.last_chunk().expect("N bytes behind the mark")))
}

/// A site's record without its mark.
fn unmarked<const P: usize, const R: usize>(site: &[u8; R]) -> &[u8; P] {
    site.last_chunk().expect("P bytes behind the mark")
}

/// The crews of depots: those of a roll, or one each.
pub(crate) trait Crews: Copy {
    fn at(self, depot: usize) -> u64;

    /// Those of a set added up.
    fn of(self, set: u64) -> u64;
}

/// Where there is no roll.
#[derive(Clone, Copy)]
pub(crate) struct OneEach;

impl Crews for OneEach {
    #[inline(always)]
    fn at(self, _: usize) -> u64 {
        1
    }

    #[inline(always)]
    fn of(self, set: u64) -> u64 {
        u64::from(set.count_ones())
    }
}

impl Crews for &Roll {
    #[inline(always)]
    fn at(self, depot: usize) -> u64 {
        u64::from(self[depot & 63])
    }

    #[inline(always)]
    fn of(self, set: u64) -> u64 {
        let (mut sum, mut rest) = (0, set);
        while rest != 0 {
            sum += self.at(rest.trailing_zeros() as usize);
            rest &= rest - 1;
        }
        sum
    }
}

/// The depots with crews in a roll, where sites name these depots, or row 22 or 23.
pub(crate) fn enrolled(roll: &Roll, named: u64) -> Result<u64, i64> {
    let (mut above, mut crewed) = (false, 0u64);
    for (d, &crews) in roll.iter().enumerate() {
        above |= crews > 9;
        crewed |= u64::from(crews != 0) << d;
    }
    if above {
        return Err(22);
    }
    if named & !crewed != 0 {
        return Err(23);
    }
    Ok(crewed)
}

/// Whether a list is read as one of edition 2.
fn is_second(list: &[u8]) -> bool {
    list.starts_with(&TWO.list)
}

/// What a list that reads has: the records of its sites, the listed depots, a roll or none.
pub(crate) struct Read<'a, const R: usize> {
    pub sites: &'a [[u8; R]],
    pub listed: u64,
    pub roll: Option<&'a Roll>,
}

/// A list of at most so many sites, or the row. One pass over the records notes what is wrong with any of them; the rows
/// are then answered in order.
pub(crate) fn read<const P: usize, const R: usize>(list: &[u8], most: usize) -> Result<Read<'_, R>, i64> {
    if list.len() < 4 || list[..2] != edition(P).list {
        return Err(1);
    }
    let count = usize::from(half(list, 2));
    if count > most {
        return Err(2);
    }
    let taken = |behind: &[u8]| behind.is_empty() || P == 6 && behind.len() == ROLL_BYTES;
    let (front, behind) = list.split_at_checked(4 + R * count).filter(|parts| taken(parts.1)).ok_or(3)?;
    let (sites, _) = front[4..].as_chunks();
    let roll = behind.last_chunk::<64>();
    let (mut marks, mut depots, mut dry, mut named) = (0, 0, false, 0);
    for r in sites {
        marks |= half(r, 0) ^ u16::from_le_bytes(edition(P).site);
        depots |= r[2] | r[3];
        dry |= number(&r[4..]) == 0;
        named |= 1u64 << (r[2] & 63) | 1u64 << (r[3] & 63);
    }
    if marks != 0 || roll.is_some() && behind[..2] != ROLL_MARK {
        return Err(4);
    }
    if depots > 63 {
        return Err(5);
    }
    if dry {
        return Err(6);
    }
    let listed = roll.map_or(Ok(named), |roll| enrolled(roll, named))?;
    Ok(Read { sites, listed, roll })
}

/// 0 where the plan passes, otherwise -row.
pub fn check(list: &[u8], plan: &[u8]) -> i64 {
    match if is_second(list) { refusal::<6, 8, 8>(list, plan) } else { refusal::<4, 6, 4>(list, plan) } {
        Ok(()) => 0,
        Err(row) => -row,
    }
}

fn refusal<const P: usize, const R: usize, const S: usize>(list: &[u8], plan: &[u8]) -> Result<(), i64> {
    let read = read::<P, R>(list, SITES)?;
    plan_refusal::<P, S>(read.sites.iter().map(unmarked), read.listed, read.roll, plan)
}

/// Rows 7 to 16 of a plan for sites that read: first depot, second depot, litres.
pub(crate) fn plan_refusal<'a, const P: usize, const S: usize>(
    sites: impl ExactSizeIterator<Item = &'a [u8; P]>,
    listed: u64,
    roll: Option<&Roll>,
    plan: &[u8],
) -> Result<(), i64> {
    match roll {
        // edition 1 has none
        Some(roll) if P == 6 => refusal_by::<P, S>(sites, listed, roll, plan),
        _ => refusal_by::<P, S>(sites, listed, OneEach, plan),
    }
}

fn refusal_by<'a, const P: usize, const S: usize>(
    sites: impl ExactSizeIterator<Item = &'a [u8; P]>,
    listed: u64,
    crews: impl Crews,
    plan: &[u8],
) -> Result<(), i64> {
    if plan.len() < 5 || plan[..2] != edition(P).plan {
        return Err(7);
    }
    let count = usize::from(plan[2]);
    if count > 64 {
        return Err(8);
    }
    if usize::from(half(plan, 3)) != sites.len() {
        return Err(9);
    }
    if plan.len() != 5 + 10 * count + (S + 2) * sites.len() {
        return Err(10);
    }
    let (groups, shares) = plan[5..].split_at(10 * count);

    // one pass over the groups, one over the sites with their shares; sums may wrap where a row refuses
    let (mut marks, mut unfit, mut seen) = (0, false, 0u64);
    let mut place = [0u8; 64];
    let mut size = [0u64; 64];
    for (k, (mark, r)) in records(groups).enumerate() {
        marks |= mark ^ GROUP;
        let set = u64::from_le_bytes(*r);
        unfit |= set == 0 || set & seen != 0;
        size[k] = crews.of(set);
        let mut rest = set & !seen;
        while rest != 0 {
            place[rest.trailing_zeros() as usize] = k as u8;
            rest &= rest - 1;
        }
        seen |= set;
    }
    let mut litres = [0u64; 64];
    let mut load = [0u64; 64];
    let mut wrong = false;
    for (site, (mark, share)) in sites.zip(records::<S>(shares)) {
        marks |= mark ^ u16::from_le_bytes(edition(P).share);
        let (first, second) = (usize::from(site[0] & 63), usize::from(site[1] & 63));
        let (w, s) = (number(&site[2..]), number(share));
        let (j, k) = (place[first], place[second]);
        let carrier = usize::from(j.max(k) & 63);
        let whole = w * size[carrier];
        let rest = whole.wrapping_sub(s);
        wrong |= (s > whole) | ((s != 0) & (j < k)) | ((rest != 0) & ((k < j) | (first == second)));
        litres[carrier] += w;
        load[first] = load[first].wrapping_add(s);
        load[second] = load[second].wrapping_add(rest);
    }
    if marks != 0 {
        return Err(11);
    }
    if unfit {
        return Err(12);
    }
    if seen != listed {
        return Err(13);
    }
    if wrong {
        return Err(14);
    }
    let mut rest = listed;
    while rest != 0 {
        let d = rest.trailing_zeros() as usize;
        if load[d] != crews.at(d) * litres[usize::from(place[d] & 63)] {
            return Err(15);
        }
        rest &= rest - 1;
    }
    for k in 1..count {
        if litres[k - 1] * size[k] <= litres[k] * size[k - 1] {
            return Err(16);
        }
    }
    Ok(())
}

/// A list of edition 1 and its plan in edition 2: the lengths, the list's first, or the row.
pub fn upgrade(list: &[u8], plan: &[u8], list_out: &mut [u8], plan_out: &mut [u8]) -> Result<(usize, usize), i64> {
    convert::<4, 6, 4, 6, 8, 8>(list, plan, list_out, plan_out)
}

/// A list of edition 2 and its plan in edition 1.
pub fn downgrade(list: &[u8], plan: &[u8], list_out: &mut [u8], plan_out: &mut [u8]) -> Result<(usize, usize), i64> {
    convert::<6, 8, 8, 4, 6, 4>(list, plan, list_out, plan_out)
}

/// From the edition of P, R and S to that of P2, R2 and S2. Figures are copied from record to record: their low bytes, and
/// 0 behind them.
fn convert<const P: usize, const R: usize, const S: usize, const P2: usize, const R2: usize, const S2: usize>(
    list: &[u8],
    plan: &[u8],
    list_out: &mut [u8],
    plan_out: &mut [u8],
) -> Result<(usize, usize), i64> {
    let Read { sites, listed, roll } = read::<P, R>(list, SITES)?;
    if P > P2 && (roll.is_some() || sites.iter().fold(0, |all, r| all | number(&r[4..])) > 65_535) {
        return Err(21);
    }
    plan_refusal::<P, S>(sites.iter().map(unmarked), listed, None, plan)?;
    let front = 5 + 10 * usize::from(plan[2]);
    let lengths = (4 + R2 * sites.len(), front + (S2 + 2) * sites.len());
    if list_out.len() < lengths.0 || plan_out.len() < lengths.1 {
        return Err(20);
    }
    list_out[..2].copy_from_slice(&edition(P2).list);
    list_out[2..4].copy_from_slice(&list[2..4]);
    for (to, from) in list_out[4..].as_chunks_mut::<R2>().0.iter_mut().zip(sites) {
        to[..2].copy_from_slice(&edition(P2).site);
        to[2..4].copy_from_slice(&from[2..4]);
        to[4..].copy_from_slice(&number(&from[4..]).to_le_bytes()[..R2 - 4]);
    }
    plan_out[..front].copy_from_slice(&plan[..front]);
    plan_out[..2].copy_from_slice(&edition(P2).plan);
    for (to, (_, s)) in plan_out[front..lengths.1].chunks_exact_mut(S2 + 2).zip(records::<S>(&plan[front..])) {
        to[..2].copy_from_slice(&edition(P2).share);
        to[2..].copy_from_slice(&number(s).to_le_bytes()[..S2]);
    }
    Ok(lengths)
}

/// The plan's length where one is written, otherwise -row. The method is the engine's: a stack of
/// nested sets; each attempt lays the sites of a set on their first depots and moves share along
/// residual arcs; a set that comes out level is a group, otherwise its denser part is tried next.
pub fn make(list: &[u8], out: &mut [u8]) -> i64 {
    match if is_second(list) { try_make::<6, 8, 8, u64>(list, out) } else { try_make::<4, 6, 4, u32>(list, out) } {
        Ok(length) => length as i64,
        Err(row) => -row,
    }
}

fn try_make<const P: usize, const R: usize, const S: usize, F: Figure>(
    list: &[u8],
    out: &mut [u8],
) -> Result<usize, i64> {
    let Read { sites, listed, roll } = read::<P, R>(list, SITES)?;
    match roll {
        None => write_made::<P, S, F>(Maker::new(sites, OneEach), listed, out),
        Some(roll) => write_made::<P, S, F>(Maker::new(sites, roll), listed, out),
    }
}

fn write_made<const P: usize, const S: usize, F: Figure>(
    mut maker: Maker<F, impl Crews>,
    listed: u64,
    out: &mut [u8],
) -> Result<usize, i64> {
    let (groups, count) = maker.groups(listed);
    let length = 5 + 10 * count + (S + 2) * maker.count;
    if out.len() < length {
        return Err(20);
    }
    let (head, rest) = out.split_at_mut(5);
    head[..2].copy_from_slice(&edition(P).plan);
    head[2] = count as u8;
    head[3..].copy_from_slice(&(maker.count as u16).to_le_bytes());
    let (front, rest) = rest.split_at_mut(10 * count);
    for (r, set) in front.chunks_exact_mut(10).zip(groups) {
        r[..2].copy_from_slice(&GROUP.to_le_bytes());
        r[2..].copy_from_slice(&set.to_le_bytes());
    }
    for (r, &share) in rest.chunks_exact_mut(S + 2).zip(&maker.share[..maker.count]) {
        r[..2].copy_from_slice(&edition(P).share);
        r[2..].copy_from_slice(&share.into().to_le_bytes()[..S]);
    }
    Ok(length)
}

/// Shares and loads: 32 bits hold those of edition 1, 64 those of edition 2.
trait Figure: Copy + Ord + Default + AddAssign + Sub<Output = Self> + SubAssign + Into<u64> {
    fn of(x: u64) -> Self;
}

impl Figure for u32 {
    fn of(x: u64) -> u32 {
        x as u32
    }
}

impl Figure for u64 {
    fn of(x: u64) -> u64 {
        x
    }
}

const SITES: usize = 512;

/// Site i has two arcs: i at its first depot, i + 512 at its second.
struct Maker<F, C> {
    crews: C,
    count: usize,
    litres: [u32; SITES],
    ends: [u8; 2 * SITES],
    /// What the depot of each arc has of the site.
    share: [F; 2 * SITES],
    /// The arcs at depot d are arcs[from[d]..from[d + 1]].
    arcs: [u16; 2 * SITES],
    from: [u16; 65],
    load: [F; 64],
    target: [F; 64],
}

fn other(arc: usize) -> usize {
    arc ^ SITES
}

fn has(set: u64, depot: u8) -> bool {
    set >> (depot & 63) & 1 == 1
}

impl<F: Figure, C: Crews> Maker<F, C> {
    fn new<const R: usize>(sites: &[[u8; R]], crews: C) -> Maker<F, C> {
        let mut m = Maker {
            crews,
            count: sites.len(),
            litres: [0; SITES],
            ends: [0; 2 * SITES],
            share: [F::default(); 2 * SITES],
            arcs: [0; 2 * SITES],
            from: [0; 65],
            load: [F::default(); 64],
            target: [F::default(); 64],
        };
        let mut next = [0u16; 65];
        for (i, r) in sites.iter().enumerate() {
            m.ends[i] = r[2];
            m.ends[i + SITES] = r[3];
            m.litres[i] = number(&r[4..]) as u32;
            next[usize::from(r[2] & 63) + 1] += 1;
            next[usize::from(r[3] & 63) + 1] += 1;
        }
        for d in 0..64 {
            next[d + 1] += next[d];
        }
        m.from = next;
        for i in 0..m.count {
            for arc in [i, i + SITES] {
                let d = usize::from(m.ends[arc] & 63);
                m.arcs[usize::from(next[d]) & (2 * SITES - 1)] = arc as u16;
                next[d] += 1;
            }
        }
        m
    }

    /// The groups of the listed depots and how many they are.
    fn groups(&mut self, listed: u64) -> ([u64; 64], usize) {
        let mut groups = [0; 64];
        let mut count = 0;
        let mut stack = [0; 64];
        let mut top = 0;
        stack[0] = listed;
        let mut before = 0;
        while before != listed {
            let set = stack[top] & !before;
            self.lay(set, before);
            let reached = self.relax(set);
            if reached == 0 {
                groups[count] = set;
                count += 1;
                before |= set;
                top = top.saturating_sub(1);
            } else {
                top += 1;
                stack[top] = before | (set & !reached);
            }
        }
        (groups, count)
    }

    /// Lays the sites that the set carries on their first depot in it.
    fn lay(&mut self, set: u64, before: u64) {
        let q = self.crews.of(set);
        let none = F::default();
        self.load = [none; 64];
        let mut litres = 0;
        for i in 0..self.count {
            let (first, second) = (self.ends[i] & 63, self.ends[i + SITES] & 63);
            let both = 1u64 << first | 1u64 << second;
            if both & set == 0 || both & !(set | before) != 0 {
                continue;
            }
            let w = u64::from(self.litres[i]);
            litres += w;
            let (one, two) = if has(set, first) { (F::of(w * q), none) } else { (none, F::of(w * q)) };
            self.share[i] = one;
            self.share[i + SITES] = two;
            self.load[usize::from(first)] += one;
            self.load[usize::from(second)] += two;
        }
        for d in 0..64 {
            self.target[d] = if has(set, d as u8) { F::of(litres * self.crews.at(d)) } else { none };
        }
    }

    /// Moves share from depots above the target until none of them leads to one below. Answers the
    /// depots that do lead there.
    fn relax(&mut self, set: u64) -> u64 {
        loop {
            let mut order = [0u8; 64];
            let mut rank = [64u8; 64];
            let mut reached = 0u64;
            let mut n = 0;
            let mut rest = set;
            while rest != 0 {
                let d = rest.trailing_zeros() as usize;
                if self.load[d] < self.target[d] {
                    order[n] = d as u8;
                    rank[d] = n as u8;
                    reached |= 1 << d;
                    n += 1;
                }
                rest &= rest - 1;
            }
            let start = n;
            let mut over = false;
            let mut k = 0;
            while k < n {
                for &arc in self.arcs_at(order[k]) {
                    let opposite = other(usize::from(arc)) & (2 * SITES - 1);
                    let u = self.ends[opposite] & 63;
                    if self.share[opposite] > F::default() && has(set & !reached, u) {
                        let d = usize::from(u);
                        order[n] = u;
                        rank[d] = n as u8;
                        reached |= 1 << d;
                        n += 1;
                        over |= self.load[d] > self.target[d];
                    }
                }
                k += 1;
            }
            if !over {
                return reached;
            }
            for k in (start..n).rev() {
                self.discharge(order[k], &rank);
            }
        }
    }

    fn arcs_at(&self, depot: u8) -> &[u16] {
        let d = usize::from(depot & 63);
        &self.arcs[usize::from(self.from[d])..usize::from(self.from[d + 1])]
    }

    /// Moves what a depot has above the target to depots earlier in the order.
    fn discharge(&mut self, depot: u8, rank: &[u8; 64]) {
        let u = usize::from(depot & 63);
        let (from, to) = (usize::from(self.from[u]), usize::from(self.from[u + 1]));
        for place in from..to {
            let excess = self.load[u] - self.target[u].min(self.load[u]);
            if excess == F::default() {
                return;
            }
            let arc = usize::from(self.arcs[place]) & (2 * SITES - 1);
            let opposite = other(arc);
            let v = usize::from(self.ends[opposite] & 63);
            if rank[v] < rank[u] {
                let amount = excess.min(self.share[arc]);
                self.share[arc] -= amount;
                self.share[opposite] += amount;
                self.load[u] -= amount;
                self.load[v] += amount;
            }
        }
    }
}
