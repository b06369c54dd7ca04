//! Lists and plans as values, and their bytes in either edition.

use std::ops::{Deref, DerefMut};

/// An edition by its records: their marks, and how long they are.
#[derive(Clone, Copy, Debug, PartialEq, Eq)]
pub struct Edition {
    pub number: usize,
    pub list: [u8; 2],
    pub site: [u8; 2],
    pub plan: [u8; 2],
    pub share: [u8; 2],
    /// The bytes of a site's record: mark, two depots, litres.
    pub site_bytes: usize,
    /// The bytes of a share's record: mark, s.
    pub share_bytes: usize,
}

/// The records of document 01.
pub const ONE: Edition = Edition {
    number: 1,
    list: [0x4C, 0x53],
    site: [0x53, 0x54],
    plan: [0x50, 0x4C],
    share: [0x53, 0x48],
    site_bytes: 6,
    share_bytes: 6,
};

/// The records of document 02's request c: litres in 4 bytes, s in 8.
pub const TWO: Edition = Edition {
    number: 2,
    list: [0x4C, 0x32],
    site: [0x53, 0x32],
    plan: [0x50, 0x32],
    share: [0x53, 0x33],
    site_bytes: 8,
    share_bytes: 10,
};

pub const EDITIONS: [Edition; 2] = [ONE, TWO];

impl Edition {
    pub fn other(self) -> Edition {
        EDITIONS[2 - self.number]
    }

    /// The most litres that a site can have.
    pub fn most(self) -> u32 {
        u32::MAX >> (8 * (8 - self.site_bytes))
    }

    /// The greatest s that can be written.
    pub fn most_share(self) -> u64 {
        u64::MAX >> (8 * (10 - self.share_bytes))
    }

    /// The length of a list without a roll.
    pub fn list_length(self, sites: usize) -> usize {
        4 + self.site_bytes * sites
    }

    /// The length of the longest list: in edition 2 one with a roll.
    pub fn longest_list(self) -> usize {
        self.list_length(512) + if self.has_rolls() { ROLL_BYTES } else { 0 }
    }

    /// Whether a list of the edition may end in a roll (document 02's request g).
    pub fn has_rolls(self) -> bool {
        self == TWO
    }

    pub fn plan_length(self, groups: usize, sites: usize) -> usize {
        5 + 10 * groups + self.share_bytes * sites
    }

    /// The bytes of a store: three figures and 64 sets of 8 bytes each, 512 shares; in edition 2 also whether there is a
    /// roll, in 8 bytes, and 64 bytes of crews.
    pub fn store_bytes(self) -> usize {
        self.store_roll() + if self.has_rolls() { 8 + 64 } else { 0 }
    }

    /// Where a store of edition 2 says whether there is a roll. The crews stand 8 bytes behind.
    pub fn store_roll(self) -> usize {
        self.store_share(512)
    }

    /// Where a share stands in a store.
    pub fn store_share(self, site: usize) -> usize {
        24 + 8 * 64 + (self.share_bytes - 2) * site
    }

    /// The bytes of a place of the table: two depots, litres.
    pub fn place_bytes(self) -> usize {
        self.site_bytes - 2
    }

    /// The bytes of litres.
    pub fn litres(self, litres: u32) -> Vec<u8> {
        litres.to_le_bytes()[..self.site_bytes - 4].to_vec()
    }

    /// The bytes of s, the low ones where it is too great.
    pub fn s(self, s: u64) -> Vec<u8> {
        s.to_le_bytes()[..self.share_bytes - 2].to_vec()
    }
}

/// A site as the list has it. A damaged list may name any byte as a depot.
#[derive(Clone, Copy, Debug, PartialEq, Eq)]
pub struct Site {
    pub first: u8,
    pub second: u8,
    pub litres: u32,
}

pub fn site(first: u8, second: u8, litres: u32) -> Site {
    Site { first, second, litres }
}

/// The crews of each depot.
pub type Roll = [u8; 64];

pub const ROLL_MARK: [u8; 2] = [0x44, 0x52];

/// The bytes of a roll's record: mark, 64 depots.
pub const ROLL_BYTES: usize = 66;

/// The sites of a list, and its roll where it has one.
#[derive(Clone, Debug, Default, PartialEq, Eq)]
pub struct List {
    pub sites: Vec<Site>,
    pub roll: Option<Roll>,
}

impl List {
    /// "Without a roll a listed depot has one crew."
    pub fn crews(&self, depot: usize) -> u64 {
        self.roll.map_or(1, |roll| u64::from(roll[depot]))
    }

    /// "The size of a set becomes its crews added up."
    pub fn size(&self, set: u64) -> u64 {
        members(set).into_iter().map(|d| self.crews(d)).sum()
    }

    /// The length of its bytes.
    pub fn length(&self, e: Edition) -> usize {
        e.list_length(self.len()) + if self.roll.is_some() { ROLL_BYTES } else { 0 }
    }

    /// The same sites with a roll of one crew for each depot that a site names and none for every other.
    pub fn with_ones(&self) -> List {
        let named = named(self);
        List { roll: Some(std::array::from_fn(|d| (named >> d & 1) as u8)), ..self.clone() }
    }
}

/// Sites without a roll.
impl From<Vec<Site>> for List {
    fn from(sites: Vec<Site>) -> List {
        List { sites, roll: None }
    }
}

impl Deref for List {
    type Target = [Site];
    fn deref(&self) -> &[Site] {
        &self.sites
    }
}

impl DerefMut for List {
    fn deref_mut(&mut self) -> &mut [Site] {
        &mut self.sites
    }
}

/// A plan's groups, bit n for depot n, and its shares.
#[derive(Clone, Debug, PartialEq, Eq)]
pub struct Plan {
    pub groups: Vec<u64>,
    pub shares: Vec<u64>,
}

pub fn list_bytes(e: Edition, list: &List) -> Vec<u8> {
    let mut bytes = e.list.to_vec();
    bytes.extend((list.len() as u16).to_le_bytes());
    for s in list.iter() {
        bytes.extend(e.site);
        bytes.extend([s.first, s.second]);
        bytes.extend(e.litres(s.litres));
    }
    if let Some(roll) = list.roll {
        bytes.extend(roll_bytes(&roll));
    }
    bytes
}

pub fn roll_bytes(roll: &Roll) -> Vec<u8> {
    [&ROLL_MARK[..], roll].concat()
}

pub fn plan_bytes(e: Edition, plan: &Plan) -> Vec<u8> {
    let mut bytes = e.plan.to_vec();
    bytes.push(plan.groups.len() as u8);
    bytes.extend((plan.shares.len() as u16).to_le_bytes());
    for set in &plan.groups {
        bytes.extend(b"GR");
        bytes.extend(set.to_le_bytes());
    }
    for &share in &plan.shares {
        bytes.extend(e.share);
        bytes.extend(e.s(share));
    }
    bytes
}

/// The plan of a list without sites.
pub fn no_plan() -> Plan {
    Plan { groups: vec![], shares: vec![] }
}

/// A stored number, low byte first.
pub fn number(bytes: &[u8]) -> u64 {
    bytes.iter().enumerate().map(|(i, &b)| u64::from(b) << (8 * i)).sum()
}

/// The depots of a set, in rising order.
pub fn members(set: u64) -> Vec<usize> {
    (0..64).filter(|&d| set >> d & 1 == 1).collect()
}

/// The depots that some site names.
pub fn named(sites: &[Site]) -> u64 {
    sites.iter().fold(0, |set, s| set | 1 << s.first | 1 << s.second)
}

/// Those, and "a depot with crews in the roll is listed even without sites".
pub fn listed(list: &List) -> u64 {
    let crewed = |roll: Roll| (0..64).filter(|&d| roll[d] > 0).fold(0, |set, d| set | 1 << d);
    named(list) | list.roll.map_or(0, crewed)
}

/// The listed depots that no site names.
pub fn isolated(list: &List) -> u64 {
    listed(list) & !named(list)
}

pub fn hex(bytes: &[u8]) -> String {
    bytes.iter().map(|b| format!("{b:02X}")).collect()
}
