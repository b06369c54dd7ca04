//! Near misses: plans that have the right form and are close to a true one. Some are true.

use crate::decompose::{by_cuts, innermost_core, shares};
use crate::families::roll;
use crate::records::{isolated, listed, members, named, Edition, List, Plan, Site};
use crate::rng::Rng;

/// The groups with shares as level as a flow can make them.
fn levelled(list: &List, groups: Vec<u64>) -> Plan {
    let shares = shares(list, &groups).0;
    Plan { groups, shares }
}

/// One share moved, by one or by any amount. It may be greater than what can be written, and is then cut.
fn moved(rng: &mut Rng, e: Edition, plan: &Plan) -> Plan {
    let mut plan = plan.clone();
    let i = rng.below(plan.shares.len());
    let s = plan.shares[i];
    plan.shares[i] = match rng.below(4) {
        0 => s.wrapping_add(1),
        1 => s.wrapping_sub(1),
        2 => s ^ 1 << rng.below(8 * (e.share_bytes - 2)),
        _ => rng.from_to(0, 2 * s as usize + 1) as u64,
    };
    plan
}

/// Two shares moved against each other: still level where the sites are parallel.
fn exchanged(rng: &mut Rng, sites: &[Site], plan: &Plan) -> Plan {
    let mut plan = plan.clone();
    let n = plan.shares.len();
    let i = rng.below(n);
    let parallel: Vec<usize> = (0..n)
        .filter(|&j| j != i)
        .filter(|&j| {
            let (a, b) = (sites[i], sites[j]);
            (a.first, a.second) == (b.first, b.second) || (a.first, a.second) == (b.second, b.first)
        })
        .collect();
    let j = if parallel.is_empty() { rng.below(n) } else { *rng.pick(&parallel) };
    let amount = rng.from_to(0, plan.shares[i] as usize) as u64;
    plan.shares[i] -= amount;
    if sites[i].first == sites[j].first {
        plan.shares[j] = plan.shares[j].wrapping_add(amount);
    } else {
        plan.shares[j] = plan.shares[j].wrapping_sub(amount);
    }
    plan
}

/// Groups changed: merged, split, swapped, two depots exchanged, one depot moved.
fn regrouped(rng: &mut Rng, groups: &[u64]) -> Vec<u64> {
    let mut groups = groups.to_vec();
    let n = groups.len();
    let k = rng.below(n);
    match rng.below(5) {
        0 if n > 1 => {
            let k = rng.below(n - 1);
            groups[k] |= groups[k + 1];
            groups.remove(k + 1);
        }
        1 if n > 1 => {
            let k = rng.below(n - 1);
            groups.swap(k, k + 1);
        }
        2 if n > 1 => {
            let j = rng.below(n);
            let (a, b) = (1u64 << rng.pick(&members(groups[j])), 1u64 << rng.pick(&members(groups[k])));
            if j != k {
                groups[j] = groups[j] & !a | b;
                groups[k] = groups[k] & !b | a;
            }
        }
        3 if n > 1 && groups[k].count_ones() > 1 => {
            let a = 1u64 << rng.pick(&members(groups[k]));
            groups[k] &= !a;
            groups[(k + 1) % n] |= a;
        }
        _ => {
            let part = groups[k] & rng.word();
            if part != 0 && part != groups[k] && n < 64 {
                groups[k] &= !part;
                groups.insert(k + rng.below(2), part);
            }
        }
    }
    groups
}

/// The innermost core as the first group, then the groups without it.
fn core_first(sites: &[Site], groups: &[u64]) -> Vec<u64> {
    let core = innermost_core(sites);
    let mut changed = vec![core];
    changed.extend(groups.iter().map(|g| g & !core).filter(|&g| g != 0));
    changed
}

/// Whole shares at the scale of the first depot's group, where the carrying group's is right.
fn misscaled(plan: &Plan, list: &List) -> Plan {
    let mut plan = plan.clone();
    for (s, share) in list.iter().zip(&mut plan.shares) {
        let q = |d: u8| plan.groups.iter().find(|&g| g >> d & 1 == 1).map_or(1, |&g| list.size(g));
        if *share == u64::from(s.litres) * q(s.second) {
            *share = u64::from(s.litres) * q(s.first);
        }
    }
    plan
}

/// A plan that leaves crews out somewhere: a true one of the sites without the roll; its groups and, where there are
/// any, the depots that no site names, with level shares; or the right groups, level at another scale or with each depot
/// at W.
fn miscrewed(rng: &mut Rng, list: &List, plan: &Plan) -> Plan {
    let plain = List::from(list.sites.clone());
    let last = Some(isolated(list)).filter(|&set| set != 0);
    match rng.below(4) {
        0 => levelled(&plain, by_cuts(&plain)),
        1 => levelled(list, by_cuts(&plain).into_iter().chain(last).collect()),
        2 => levelled(&plain, plan.groups.clone()),
        _ => {
            // level without the roll, brought to the scale with it
            let mut even = levelled(&plain, plan.groups.clone());
            for (s, share) in list.iter().zip(&mut even.shares) {
                let carrier = plan.groups.iter().rfind(|&g| g & (1 << s.first | 1 << s.second) != 0);
                let set = *carrier.expect("a grouped depot");
                *share = *share * list.size(set) / u64::from(set.count_ones());
            }
            even
        }
    }
}

/// The depots that no site names, where a list has any, otherwise than as the last group of its true plan: the row that
/// refuses it, and the plan.
pub fn misplaced(list: &List, plan: &Plan) -> Vec<(u8, Plan)> {
    let all = isolated(list);
    if all == 0 {
        return vec![];
    }
    let front = &plan.groups[..plan.groups.len() - 1];
    let with = |last: &[u64]| Plan { groups: [front, last].concat(), shares: plan.shares.clone() };
    // left out
    let mut near = vec![(13, with(&[]))];
    let depots: Vec<u64> = members(all).into_iter().map(|d| 1 << d).collect();
    if depots.len() > 1 {
        // one of them left out; each in a group of its own; two groups, either first
        let (first, last) = (depots[0], depots[depots.len() - 1]);
        near.extend([(13, with(&[all & !first])), (13, with(&[all & !last])), (16, with(&depots))]);
        near.extend([(16, with(&[first, all & !first])), (16, with(&[all & !last, last]))]);
    }
    if let Some(free) = members(!listed(list)).first() {
        // with one that is not listed, in their group and in one behind it
        near.extend([(13, with(&[all | 1 << free])), (13, with(&[all, 1 << free]))]);
    }
    if let Some((before, front)) = front.split_last() {
        // all and one of them joined to the group before, to the first, and in front of all
        let joined = |groups: &[&[u64]]| levelled(list, groups.concat());
        let rest = all & !depots[0];
        near.push((15, joined(&[front, &[before | all]])));
        if rest != 0 {
            near.push((15, joined(&[front, &[before | depots[0], rest]])));
        }
        let mut groups = [front, &[*before]].concat();
        near.push((16, Plan { groups: [&[all], &groups[..]].concat(), shares: plan.shares.clone() }));
        groups[0] |= all;
        near.push((15, levelled(list, groups)));
    }
    near
}

/// A plan close to a true one of a list, of an edition, with at least one site.
pub fn miss(rng: &mut Rng, e: Edition, list: &List, plan: &Plan) -> Plan {
    match rng.below(if list.roll.is_some() { 13 } else { 10 }) {
        0..=2 => moved(rng, e, plan),
        3 => exchanged(rng, list, plan),
        4 => Plan { groups: regrouped(rng, &plan.groups), shares: plan.shares.clone() },
        5..=7 => levelled(list, regrouped(rng, &plan.groups)),
        8 => levelled(list, core_first(list, &plan.groups)),
        9 => misscaled(plan, list),
        _ => miscrewed(rng, list, plan),
    }
}

/// Another roll, or none, or a first one: crews at one depot changed, which no site need name, two depots' exchanged,
/// ones, any.
fn recrewed(rng: &mut Rng, list: &mut List) {
    let (named, isolated) = (members(named(list)), members(isolated(list)));
    match (&mut list.roll, rng.below(6)) {
        (Some(crews), 0 | 1) => {
            let d = if rng.percent(80) { *rng.pick(&named) } else { rng.below(64) };
            crews[d] = if crews[d] == 9 || rng.percent(50) { crews[d].max(2) - 1 } else { crews[d] + 1 };
        }
        (Some(crews), 5) if !isolated.is_empty() => crews[*rng.pick(&isolated)] = rng.below(10) as u8,
        (Some(crews), 2) => crews.swap(*rng.pick(&named), *rng.pick(&named)),
        (Some(_), 3) => list.roll = None,
        (None, 0 | 1) => *list = list.with_ones(),
        _ => list.roll = Some(roll(rng, list)),
    }
}

/// Next season's list, of an edition: one site's litres changed, also in one bit, two sites exchanged, a site's ends
/// exchanged or replaced; another roll. The old plan has the right form for it.
pub fn next_season(rng: &mut Rng, e: Edition, list: &List) -> List {
    let mut next = list.clone();
    if e.has_rolls() && rng.percent(25) {
        recrewed(rng, &mut next);
        return next;
    }
    let listed = members(listed(&next));
    let sites = &mut next.sites;
    let n = sites.len();
    let i = rng.below(n);
    match rng.below(7) {
        0 => sites[i].litres = sites[i].litres.saturating_add(1).min(e.most()),
        1 => sites[i].litres = (sites[i].litres - 1).max(1),
        2 => sites.swap(i, rng.below(n)),
        3 => sites[i] = Site { first: sites[i].second, second: sites[i].first, ..sites[i] },
        4 => sites[i].second = *rng.pick(&listed) as u8,
        5 => sites[i].litres = (sites[i].litres ^ 1 << rng.below(8 * (e.site_bytes - 4))).max(1),
        _ => sites[i].litres = rng.from_to(1, e.most() as usize) as u32,
    }
    next
}
