//! The groups of the definition, twice: by minimum cuts, and by a count over all sets.

use std::collections::BTreeMap;

use crate::flow::Graph;
use crate::records::{listed, named, List, Site};

/// "The litres of a set, given the depots already grouped, are those of all sites that touch the set
/// and whose depots all lie in the set or among the grouped ones. A site counts once."
pub fn litres(sites: &[Site], set: u64, grouped: u64) -> u64 {
    let mut sum = 0;
    for s in sites {
        let both = 1u64 << s.first | 1u64 << s.second;
        if both & set != 0 && both & !(set | grouped) == 0 {
            sum += u64::from(s.litres);
        }
    }
    sum
}

/// The groups by trying every set of the depots not yet grouped.
pub fn by_all_sets(list: &List) -> Vec<u64> {
    let all = listed(list);
    let mut grouped = 0;
    let mut groups = Vec::new();
    while grouped != all {
        let rest = all & !grouped;
        let (mut best, mut most, mut size) = (0u64, 0u64, 0u64);
        let mut ties = 0;
        let mut set = rest;
        while set != 0 {
            let w = litres(list, set, grouped);
            let q = list.size(set);
            if best == 0 || w * size > most * q || w * size == most * q && q > size {
                (best, most, size, ties) = (set, w, q, 0);
            } else if w * size == most * q && q == size {
                ties += 1;
            }
            set = (set - 1) & rest;
        }
        assert_eq!(ties, 0, "the largest of the heaviest sets is unique");
        groups.push(best);
        grouped |= best;
    }
    groups
}

/// The largest set X of `rest` for which size × litres(X) - most × |X| is greatest, |X| its crews, by a minimum cut:
/// a site earns its litres if all its depots not yet grouped are taken, and each of these costs by its crews.
fn greatest(list: &List, pairs: &BTreeMap<u64, u64>, rest: u64, most: u64, size: u64) -> u64 {
    let depots = rest.count_ones() as usize;
    let vertex = |d: u32| 2 + (rest & ((1u64 << d) - 1)).count_ones() as usize;
    let (source, sink) = (0, 1);
    let mut graph = Graph::new(2 + depots + pairs.len());
    for d in 0..64 {
        if rest >> d & 1 == 1 {
            graph.edge(vertex(d), sink, most * list.crews(d as usize));
        }
    }
    for (i, (&ends, &w)) in pairs.iter().enumerate() {
        let node = 2 + depots + i;
        graph.edge(source, node, size * w);
        for d in 0..64 {
            if ends >> d & 1 == 1 {
                graph.edge(node, vertex(d), u64::MAX >> 1);
            }
        }
    }
    graph.maximum(source, sink);
    let reaching = graph.reaching(sink);
    (0..64).filter(|&d| rest >> d & 1 == 1 && !reaching[vertex(d)]).fold(0, |set, d| set | 1 << d)
}

/// The groups by Dinkelbach's method over minimum cuts: from a set's litres per crew to a heavier
/// set, until the largest set that is not lighter is no heavier either.
pub fn by_cuts(list: &List) -> Vec<u64> {
    let all = listed(list);
    let mut grouped = 0;
    let mut groups = Vec::new();
    while grouped != all {
        let rest = all & !grouped;
        // sites that are left, by their depots that are not grouped
        let mut pairs = BTreeMap::new();
        for s in list.iter() {
            let ends = (1u64 << s.first | 1u64 << s.second) & rest;
            if ends != 0 {
                *pairs.entry(ends).or_insert(0) += u64::from(s.litres);
            }
        }
        let mut set = rest;
        loop {
            let (most, size) = (litres(list, set, grouped), list.size(set));
            let next = greatest(list, &pairs, rest, most, size);
            let (w, q) = (litres(list, next, grouped), list.size(next));
            assert!(next != 0 && w * size >= most * q, "a cut is no lighter than the set it starts from");
            set = next;
            if w * size == most * q {
                break;
            }
        }
        groups.push(set);
        grouped |= set;
    }
    groups
}

/// Shares for groups in a given order, by a flow from sites to the depots of their carrying group;
/// and whether they are level. Where they cannot be level, what is left of a site goes to its first
/// depot in the carrying group. Every listed depot is in one group.
pub fn shares(list: &List, groups: &[u64]) -> (Vec<u64>, bool) {
    let place = |d: u8| groups.iter().position(|g| g >> d & 1 == 1).expect("a grouped depot");
    let mut shares = vec![0; list.len()];
    let mut level = true;
    let mut grouped = 0;
    for (k, &g) in groups.iter().enumerate() {
        let (w, q) = (litres(list, g, grouped), list.size(g));
        let mut graph = Graph::new(66 + list.len());
        let (source, sink) = (64, 65);
        for d in 0..64 {
            if g >> d & 1 == 1 {
                graph.edge(d, sink, list.crews(d) * w);
            }
        }
        // of each site that the group carries: its edge, and that to its first depot if it may have a share
        let mut carried = Vec::new();
        for (i, s) in list.iter().enumerate() {
            let (first, second) = (place(s.first), place(s.second));
            if first.max(second) != k {
                continue;
            }
            let whole = q * u64::from(s.litres);
            let node = 66 + i;
            let from = graph.edge(source, node, whole);
            let to_first = (first == k).then(|| graph.edge(node, usize::from(s.first), whole));
            if second == k && s.first != s.second {
                graph.edge(node, usize::from(s.second), whole);
            }
            carried.push((i, from, to_first, whole));
        }
        level &= graph.maximum(source, sink) == w * q;
        for (i, from, to_first, whole) in carried {
            shares[i] = to_first.map_or(0, |e| graph.flow(e) + whole - graph.flow(from));
        }
        grouped |= g;
    }
    (shares, level)
}

/// The innermost core: what is left when the depot with the fewest litres to the others that are left
/// is taken away again and again, at the point where that fewest was greatest. (Not a group in general.)
pub fn innermost_core(sites: &[Site]) -> u64 {
    let mut set = named(sites);
    let (mut core, mut greatest) = (set, 0);
    while set != 0 {
        let degree = |d: u32| -> u64 {
            let inside = sites.iter().filter(|s| set >> s.first & 1 == 1 && set >> s.second & 1 == 1);
            inside.filter(|s| u32::from(s.first) == d || u32::from(s.second) == d).map(|s| u64::from(s.litres)).sum()
        };
        let (least, depot) = (0..64).filter(|&d| set >> d & 1 == 1).map(|d| (degree(d), d)).min().expect("a depot");
        if least > greatest {
            (core, greatest) = (set, least);
        }
        set &= !(1 << depot);
    }
    core
}
