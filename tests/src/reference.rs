//! Document 01's rows, read and tried literally: each row over all records before the next; in either edition of
//! document 02, and with its rolls.

use crate::records::{
    list_bytes, number, plan_bytes, Edition, List, Plan, Roll, Site, ONE, ROLL_BYTES, ROLL_MARK, TWO,
};

/// A set of depots: whether each is in it.
pub type Depots = [bool; 64];

/// The edition that a list is read by: "list edition 2 begins 4C 32"; row 1 of edition 1 is about any other beginning.
pub fn edition_of(list: &[u8]) -> Edition {
    if list.starts_with(&[0x4C, 0x32]) {
        TWO
    } else {
        ONE
    }
}

/// The row that refuses a list of an edition, or what it has.
pub fn read_list(e: Edition, list: &[u8]) -> Result<List, u8> {
    read_list_into(e, list, 512)
}

/// The same of a list for which there are so many places.
pub fn read_list_into(e: Edition, list: &[u8], places: usize) -> Result<List, u8> {
    if list.len() < 4 || list[..2] != e.list {
        return Err(1);
    }
    let count = number(&list[2..4]) as usize;
    if count > 512 || count > places {
        return Err(2);
    }
    // "with or without 66 more bytes", in edition 2
    let length = e.list_length(count);
    if list.len() != length && !(e.has_rolls() && list.len() == length + ROLL_BYTES) {
        return Err(3);
    }
    let records: Vec<&[u8]> = list[4..length].chunks(e.site_bytes).collect();
    let rolls: Vec<&[u8]> = list[length..].chunks(ROLL_BYTES).collect();
    if records.iter().any(|r| r[..2] != e.site) || rolls.iter().any(|r| r[..2] != ROLL_MARK) {
        return Err(4);
    }
    if records.iter().any(|r| r[2] > 63 || r[3] > 63) {
        return Err(5);
    }
    if records.iter().any(|r| r[4..].iter().all(|&b| b == 0)) {
        return Err(6);
    }
    let sites: Vec<Site> =
        records.iter().map(|r| Site { first: r[2], second: r[3], litres: number(&r[4..]) as u32 }).collect();
    let roll = rolls.first().map(|r| std::array::from_fn(|d| r[2 + d]));
    match roll {
        Some(roll) if above(&roll) => Err(22),
        Some(roll) if sites.iter().any(|site| without_crews(&roll, site)) => Err(23),
        roll => Ok(List { sites, roll }),
    }
}

/// Row 22: "a roll byte is above 9".
pub fn above(roll: &Roll) -> bool {
    roll.iter().any(|&crews| crews > 9)
}

/// Row 23: the "site names a depot whose roll byte is 0".
pub fn without_crews(roll: &Roll, site: &Site) -> bool {
    roll[usize::from(site.first)] == 0 || roll[usize::from(site.second)] == 0
}

/// The row that refuses a plan's form for a list of `sites` sites, of an edition, or its groups and shares.
pub fn read_plan(e: Edition, plan: &[u8], sites: usize) -> Result<(Vec<Depots>, Vec<u64>), u8> {
    if plan.len() < 5 || plan[..2] != e.plan {
        return Err(7);
    }
    let groups = usize::from(plan[2]);
    if groups > 64 {
        return Err(8);
    }
    let count = number(&plan[3..5]) as usize;
    if count != sites {
        return Err(9);
    }
    if plan.len() != e.plan_length(groups, sites) {
        return Err(10);
    }
    let (front, back) = plan[5..].split_at(10 * groups);
    if front.chunks(10).any(|r| r[..2] != [0x47, 0x52]) || back.chunks(e.share_bytes).any(|r| r[..2] != e.share) {
        return Err(11);
    }
    let sets = front.chunks(10).map(|r| {
        let mut set = [false; 64];
        for (d, member) in set.iter_mut().enumerate() {
            *member = r[2 + d / 8] & (1 << (d % 8)) != 0;
        }
        set
    });
    let shares = back.chunks(e.share_bytes).map(|r| number(&r[2..]));
    Ok((sets.collect(), shares.collect()))
}

/// q of a group: its crews added up.
fn size(list: &List, group: &Depots) -> u64 {
    (0..64).filter(|&d| group[d]).map(|d| list.crews(d)).sum()
}

/// The place of a depot's group.
fn place(groups: &[Depots], depot: u8) -> usize {
    groups.iter().position(|g| g[usize::from(depot)]).expect("a grouped depot")
}

/// A site is carried by the later of its depots' groups.
fn carrier(groups: &[Depots], site: &Site) -> usize {
    place(groups, site.first).max(place(groups, site.second))
}

/// Row 14 of one site of a list.
fn share_refused(list: &List, groups: &[Depots], site: &Site, s: u64) -> bool {
    let k = carrier(groups, site);
    let whole = u64::from(site.litres) * size(list, &groups[k]);
    s > whole
        || site.first == site.second && s != whole
        || place(groups, site.first) < k && s != 0
        || place(groups, site.second) < k && s != whole
}

/// W of each group: the litres of the sites that it carries.
fn litres(sites: &[Site], groups: &[Depots]) -> Vec<u64> {
    let mut litres = vec![0; groups.len()];
    for site in sites {
        litres[carrier(groups, site)] += u64::from(site.litres);
    }
    litres
}

/// For each depot of each group, whether its shares from the sites that the group carries add up to its crews times W.
fn level(list: &List, groups: &[Depots], shares: &[u64]) -> bool {
    let litres = litres(list, groups);
    let mut loads = vec![[0u64; 64]; groups.len()];
    for (site, s) in list.iter().zip(shares) {
        let k = carrier(groups, site);
        let whole = u64::from(site.litres) * size(list, &groups[k]);
        loads[k][usize::from(site.first)] += s;
        loads[k][usize::from(site.second)] += whole - s;
    }
    groups.iter().enumerate().all(|(k, g)| (0..64).all(|d| !g[d] || loads[k][d] == list.crews(d) * litres[k]))
}

/// The depots that some site names, and those with crews in the roll.
fn listed(list: &List) -> Depots {
    let mut set = list.roll.map_or([false; 64], |roll| roll.map(|crews| crews > 0));
    for site in list.iter() {
        set[usize::from(site.first)] = true;
        set[usize::from(site.second)] = true;
    }
    set
}

/// The first of rows 12 to 16 that refuses a plan, or 0.
pub fn plan_row(list: &List, groups: &[Depots], shares: &[u64]) -> u8 {
    for (k, g) in groups.iter().enumerate() {
        if g.iter().all(|&member| !member) || groups[..k].iter().any(|h| (0..64).any(|d| g[d] && h[d])) {
            return 12;
        }
    }
    let listed = listed(list);
    if (0..64).any(|d| listed[d] != groups.iter().any(|g| g[d])) {
        return 13;
    }
    if list.iter().zip(shares).any(|(site, &s)| share_refused(list, groups, site, s)) {
        return 14;
    }
    if !level(list, groups, shares) {
        return 15;
    }
    let litres = litres(list, groups);
    for k in 1..groups.len() {
        if litres[k - 1] * size(list, &groups[k]) <= litres[k] * size(list, &groups[k - 1]) {
            return 16;
        }
    }
    0
}

/// Check's answer: 0 where it passes, otherwise the row. The plan is read in the list's edition.
pub fn check(list: &[u8], plan: &[u8]) -> u8 {
    let e = edition_of(list);
    let list = match read_list(e, list) {
        Ok(list) => list,
        Err(row) => return row,
    };
    match read_plan(e, plan, list.len()) {
        Ok((groups, shares)) => plan_row(&list, &groups, &shares),
        Err(row) => row,
    }
}

/// Document 02's request d: "each way takes one edition only", up edition 1 and back edition 2. A list of that edition,
/// or the row.
fn read_to_convert(from: Edition, list: &[u8]) -> Result<List, u8> {
    let list = read_list(from, list)?;
    // "21, going back, if a site's litres are outside 1 to 65,535; after all rows of the list, before the plan is read";
    // "row 21 also refuses a list with" a roll
    let outside = list.iter().any(|site| site.litres < 1 || site.litres > 65_535);
    if from == TWO && (outside || list.roll.is_some()) {
        return Err(21);
    }
    Ok(list)
}

/// A list of an edition in the other, "with the same figures in the same order", for so many bytes; or the row.
pub fn convert_list(from: Edition, list: &[u8], room: usize) -> Result<Vec<u8>, u8> {
    let list = list_bytes(from.other(), &read_to_convert(from, list)?);
    // "row 20 comes last"
    if room < list.len() {
        return Err(20);
    }
    Ok(list)
}

/// "A plan is converted along with its list": both, for so many bytes each; or the row. "The list is read first by all
/// its rows, then the plan by rows 7 to 16; row 20 comes last and covers a buffer too short for what is converted, the
/// list's first."
pub fn convert_plan(from: Edition, list: &[u8], plan: &[u8], room: [usize; 2]) -> Result<[Vec<u8>; 2], u8> {
    let list = read_to_convert(from, list)?;
    let (groups, shares) = read_plan(from, plan, list.len())?;
    match plan_row(&list, &groups, &shares) {
        0 => {}
        row => return Err(row),
    }
    let list = list_bytes(from.other(), &list);
    let plan = plan_bytes(from.other(), &Plan { groups: sets(&groups), shares });
    if room[0] < list.len() {
        return Err(20);
    }
    if room[1] < plan.len() {
        return Err(20);
    }
    Ok([list, plan])
}

/// Groups as numbers, bit n for depot n.
pub fn sets(groups: &[Depots]) -> Vec<u64> {
    groups.iter().map(|g| (0..64).map(|d| u64::from(g[d]) << d).sum()).collect()
}

/// Whether a plan of the right form is true of the list with the given decomposition: its groups are
/// those of the definition, its shares keep the rules and are level. Neither row 12, 13 nor 16 is used.
pub fn is_true(list: &List, decomposition: &[u64], groups: &[Depots], shares: &[u64]) -> bool {
    sets(groups) == decomposition
        && list.iter().zip(shares).all(|(site, &s)| !share_refused(list, groups, site, s))
        && level(list, groups, shares)
}
