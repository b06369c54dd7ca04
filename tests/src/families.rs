//! Families of lists, from small to the largest (512 sites, 64 depots).

use crate::records::{members, named, site, Edition, List, Roll, Site, ONE};
use crate::rng::Rng;

/// How large a list is to be. Litres run from 1 to `litres`; some families have up to the edition's most.
#[derive(Clone, Copy)]
pub struct Extent {
    pub edition: Edition,
    pub sites: usize,
    pub depots: usize,
    pub litres: u32,
}

/// The largest lists, with small litres.
pub const LARGEST: Extent = Extent { edition: ONE, sites: 512, depots: 64, litres: 100 };

/// A list of so many sites and depots, with litres of any size that the edition has.
pub fn extent(rng: &mut Rng, edition: Edition, sites: usize, depots: usize) -> Extent {
    let litres = match rng.below(6) {
        0 => edition.most(),
        // in fewer bits the least of these are 0 and 1
        1 if edition != ONE => *rng.pick(&[65_536, 65_537]),
        _ => *rng.pick(&[1, 2, 3, 10, 100]),
    };
    Extent { edition, sites, depots, litres }
}

type Family = fn(&mut Rng, Extent) -> Vec<Site>;

pub const FAMILIES: [(&str, Family); 14] = [
    ("random", random),
    ("random, large litres", large_litres),
    ("clustered", clustered),
    ("path", path),
    ("star", star),
    ("complete", complete),
    ("all equal", all_equal),
    ("one group each", one_each),
    ("own sites, equal", own_equal),
    ("core and periphery", core_periphery),
    ("grid", grid),
    ("falling band", band),
    ("layers", layers),
    ("barbell", barbell),
];

fn some_litres(rng: &mut Rng, e: Extent) -> u32 {
    rng.from_to(1, e.litres as usize) as u32
}

/// Litres that may be more than the edition has.
fn at_most(e: Extent, litres: u64) -> u32 {
    litres.min(u64::from(e.edition.most())) as u32
}

/// A site for each number below e.sites.
fn each(e: Extent, mut of: impl FnMut(usize) -> Site) -> Vec<Site> {
    (0..e.sites).map(&mut of).collect()
}

/// Both depots at random, one site in ten an own site.
pub fn random(rng: &mut Rng, e: Extent) -> Vec<Site> {
    each(e, |_| {
        let first = rng.below(e.depots);
        let second = if rng.percent(10) { first } else { rng.below(e.depots) };
        site(first as u8, second as u8, some_litres(rng, e))
    })
}

fn large_litres(rng: &mut Rng, e: Extent) -> Vec<Site> {
    random(rng, Extent { litres: e.edition.most(), ..e })
}

/// Clusters of eight depots, nine sites in ten within one, and each cluster of another weight.
fn clustered(rng: &mut Rng, e: Extent) -> Vec<Site> {
    each(e, |_| {
        let first = rng.below(e.depots);
        let base = first / 8 * 8;
        let width = (e.depots - base).min(8);
        let second = if rng.percent(90) { base + rng.below(width) } else { rng.below(e.depots) };
        let litres = u64::from(some_litres(rng, e)) * (1 + base as u64 / 8);
        site(first as u8, second as u8, at_most(e, litres))
    })
}

/// Neighbours in a row, in parallel.
fn path(rng: &mut Rng, e: Extent) -> Vec<Site> {
    each(e, |i| {
        let d = i % e.depots.saturating_sub(1).max(1);
        site(d as u8, (d + 1).min(e.depots - 1) as u8, some_litres(rng, e))
    })
}

/// Depot 0 with every other.
fn star(rng: &mut Rng, e: Extent) -> Vec<Site> {
    each(e, |i| site(0, ((1 + i % e.depots.saturating_sub(1).max(1)) % e.depots) as u8, some_litres(rng, e)))
}

/// All pairs of as many depots as the sites allow, then a site of each further depot with one of them.
fn complete(rng: &mut Rng, e: Extent) -> Vec<Site> {
    let pairs = |m: usize| m * m.saturating_sub(1) / 2;
    let m = (1..=e.depots).rev().find(|&m| pairs(m) <= e.sites).unwrap_or(1);
    let mut sites = Vec::new();
    for second in 0..m {
        for first in 0..second {
            sites.push(site(first as u8, second as u8, some_litres(rng, e)));
        }
    }
    for i in sites.len()..e.sites {
        let further = if m < e.depots { m + i % (e.depots - m) } else { i % m };
        sites.push(site(rng.below(m) as u8, further as u8, some_litres(rng, e)));
    }
    sites
}

/// A ring of equal sites: one group.
fn all_equal(_: &mut Rng, e: Extent) -> Vec<Site> {
    each(e, |i| site((i % e.depots) as u8, ((i + 1) % e.depots) as u8, e.litres))
}

/// Own sites that fall steeply from depot to depot, then light sites between neighbours.
fn one_each(rng: &mut Rng, e: Extent) -> Vec<Site> {
    each(e, |i| {
        let d = i % e.depots;
        if i < e.depots {
            site(d as u8, d as u8, e.edition.most() / 65_535 * 1000 * (64 - d as u32))
        } else {
            site(d as u8, rng.below(e.depots) as u8, rng.from_to(1, 9) as u32)
        }
    })
}

/// Own sites of the most litres.
fn own_equal(_: &mut Rng, e: Extent) -> Vec<Site> {
    each(e, |i| site((i % e.depots) as u8, (i % e.depots) as u8, e.edition.most()))
}

/// A dense quarter of heavy sites, and the rest hanging on it by light ones.
fn core_periphery(rng: &mut Rng, e: Extent) -> Vec<Site> {
    let core = (e.depots / 4).max(1);
    each(e, |_| {
        if rng.percent(60) {
            site(rng.below(core) as u8, rng.below(core) as u8, some_litres(rng, e))
        } else {
            let litres = 1 + some_litres(rng, e) / 8;
            site(rng.below(e.depots) as u8, rng.below(core) as u8, litres)
        }
    })
}

/// A grid of eight columns, its sites in either direction.
fn grid(rng: &mut Rng, e: Extent) -> Vec<Site> {
    each(e, |_| {
        let d = rng.below(e.depots);
        let step = if rng.percent(50) && d % 8 < 7 { 1 } else { 8 };
        let other = if d + step < e.depots { d + step } else { d };
        let (first, second) = if rng.percent(50) { (d, other) } else { (other, d) };
        site(first as u8, second as u8, some_litres(rng, e))
    })
}

/// Each depot with one of the next three, litres falling along the row.
fn band(rng: &mut Rng, e: Extent) -> Vec<Site> {
    each(e, |i| {
        let d = i % e.depots;
        let second = (d + 1 + rng.below(3)).min(e.depots - 1);
        site(d as u8, second as u8, at_most(e, 1 + u64::from(e.litres) * (e.depots - d) as u64 / e.depots as u64))
    })
}

/// Layers of four depots, each with the next, and one heavy site at the front.
fn layers(rng: &mut Rng, e: Extent) -> Vec<Site> {
    let count = (e.depots / 4).max(1);
    each(e, |i| {
        let layer = i % count;
        let first = (layer * 4 + rng.below(4)) % e.depots;
        let second = ((layer + 1) * 4 + rng.below(4)) % e.depots;
        site(first as u8, second as u8, if i == 0 { e.litres } else { some_litres(rng, e) })
    })
}

/// Two dense ends, one heavier, with a row of depots between them.
fn barbell(rng: &mut Rng, e: Extent) -> Vec<Site> {
    let end = (e.depots / 3).max(1);
    each(e, |i| match i % 3 {
        0 => site(rng.below(end) as u8, rng.below(end) as u8, e.litres),
        1 => site((e.depots - 1 - rng.below(end)) as u8, (e.depots - 1 - rng.below(end)) as u8, 1 + e.litres / 2),
        _ => {
            let d = rng.below(e.depots);
            site(d as u8, (d + 1).min(e.depots - 1) as u8, some_litres(rng, e))
        }
    })
}

/// The depots renamed by a random choice of numbers, the sites in a random order, ends exchanged at random.
pub fn scattered(rng: &mut Rng, sites: &[Site]) -> Vec<Site> {
    let mut names: Vec<u8> = (0..64).collect();
    rng.shuffle(&mut names);
    let mut renamed: Vec<Site> = sites
        .iter()
        .map(|s| {
            let (first, second) = (names[usize::from(s.first)], names[usize::from(s.second)]);
            if rng.percent(50) {
                site(first, second, s.litres)
            } else {
                site(second, first, s.litres)
            }
        })
        .collect();
    rng.shuffle(&mut renamed);
    renamed
}

/// The sites as a list of an edition: in edition 2 half of them have a roll.
pub fn rolled(rng: &mut Rng, edition: Edition, sites: Vec<Site>) -> List {
    let roll = (edition.has_rolls() && rng.percent(50)).then(|| roll(rng, &sites));
    List { sites, roll }
}

/// A roll that rows 22 and 23 let through with these sites: 1 to 9 crews for each depot that they name; any others have
/// none, some, or as many, or few of them have some.
pub fn roll(rng: &mut Rng, sites: &[Site]) -> Roll {
    let named = named(sites);
    let (one, other) = (rng.from_to(1, 9) as u8, rng.below(10) as u8);
    let odd = members(named).get(rng.below(64)).copied();
    let few = (0..rng.from_to(1, 4)).fold(0u64, |set, _| set | 1 << rng.below(64));
    let kind = rng.below(12);
    std::array::from_fn(|d| match kind {
        // as without a roll
        0 => (named >> d & 1) as u8,
        1 => 9,
        // one depot with other crews
        2 if Some(d) == odd => 10 - one,
        2 => one,
        _ if named >> d & 1 == 1 => rng.from_to(1, if kind == 3 { 2 } else { 9 }) as u8,
        3 | 4 => 0,
        5 => other,
        6 | 7 => rng.below(10) as u8,
        _ if few >> d & 1 == 1 => rng.from_to(1, 9) as u8,
        _ => 0,
    })
}

/// Two lists on different depots (the second's behind the first's), one after the other.
pub fn union(front: &[Site], depots: usize, back: &[Site]) -> Vec<Site> {
    let k = depots as u8;
    let mut sites = front.to_vec();
    sites.extend(back.iter().map(|s| site(s.first + k, s.second + k, s.litres)));
    sites
}
