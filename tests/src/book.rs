//! The plain book of document 01: a list, a plan or none, and the rows in the paper's order; before them the
//! store's length, which is no row. With document 02's question a, the depots at or over a mark, its call b, the list
//! written out, its editions (c), its step of a desk of edition 1 to edition 2 (e), its rolls (g), and the depots with
//! crews that no site names (h).

use crate::decompose::by_cuts;
use crate::records::{list_bytes, listed, number, plan_bytes, Edition, List, Plan, Roll, Site, EDITIONS, ONE, TWO};
use crate::reference::{self, Depots};

/// Litres as a change or an added site is given them: 16 bits by the functions of edition 1, 32 by those of edition 2.
#[derive(Clone, Copy, Debug)]
pub enum Litres {
    Bits16(u16),
    Bits32(u32),
}

impl Litres {
    /// The low bits of a figure, as many as the edition has.
    pub fn of(e: Edition, figure: u32) -> Litres {
        if e == ONE {
            Litres::Bits16(figure as u16)
        } else {
            Litres::Bits32(figure)
        }
    }

    fn edition(self) -> Edition {
        match self {
            Litres::Bits16(_) => ONE,
            Litres::Bits32(_) => TWO,
        }
    }

    fn figure(self) -> u32 {
        match self {
            Litres::Bits16(litres) => u32::from(litres),
            Litres::Bits32(litres) => litres,
        }
    }
}

/// A desk call, with what it is given beside the desk and the table.
#[derive(Clone, Debug)]
pub enum Call {
    Load(Vec<u8>),
    Change(usize, Litres),
    Add(u8, u8, Litres),
    Propose(Vec<u8>),
    Share(usize),
    Depot(u8),
    Difference(u8, u8),
    /// The bytes of the buffer.
    Written(usize),
    /// The mark in litres.
    AtLeast(u32),
    /// The bytes of the buffer.
    List(usize),
}

impl Call {
    /// The call's place among the ten.
    pub fn kind(&self) -> usize {
        match self {
            Call::Load(_) => 0,
            Call::Change(..) => 1,
            Call::Add(..) => 2,
            Call::Propose(_) => 3,
            Call::Share(_) => 4,
            Call::Depot(_) => 5,
            Call::Difference(..) => 6,
            Call::Written(_) => 7,
            Call::AtLeast(_) => 8,
            Call::List(_) => 9,
        }
    }

    /// The edition of a call that serves one edition only.
    fn edition(&self) -> Option<Edition> {
        match self {
            Call::Change(_, litres) | Call::Add(_, _, litres) => Some(litres.edition()),
            _ => None,
        }
    }

    /// The bytes of the buffer that the call is lent to write into, where it is lent one.
    pub fn room(&self) -> Option<usize> {
        match *self {
            Call::Written(room) | Call::List(room) => Some(room),
            _ => None,
        }
    }
}

/// Why a call is refused.
#[derive(Clone, Copy, Debug, PartialEq, Eq)]
pub enum Refusal {
    /// The store's length is that of no store that the call serves.
    NoStore,
    Row(u8),
}

impl Refusal {
    /// The refusal as a code: row 0 has no number below zero, and no store has no row.
    pub fn code(self) -> i64 {
        match self {
            Refusal::NoStore => -257,
            Refusal::Row(0) => -256,
            Refusal::Row(row) => -i64::from(row),
        }
    }
}

/// What a call answers where nothing refuses it.
#[derive(Clone, Debug, PartialEq, Eq)]
pub enum Told {
    Done,
    Figures(u64, u64),
    Difference(i64, u64),
    Wrote(Vec<u8>),
    Depots(u64),
}

#[derive(Clone, Debug)]
pub struct Book {
    pub edition: Edition,
    pub places: usize,
    /// "Its list includes the roll, or the lack of one."
    pub list: List,
    pub plan: Option<Plan>,
    /// What stands in a store where crews would, if there is no roll. Nobody looks at it; a load clears it.
    beside: Roll,
    /// The groups of the definition, worked out at most once for a list.
    groups: Option<Vec<u64>>,
    /// Figures go by the groups held, where the plan held may be none that passed.
    by_held: bool,
}

impl Book {
    pub fn new(edition: Edition, places: usize) -> Book {
        Book { edition, places, list: List::default(), plan: None, beside: [0; 64], groups: None, by_held: false }
    }

    /// A book whose figures go by the groups of the plan that it holds, true or not.
    pub fn holding(edition: Edition, places: usize, list: List, plan: Option<Plan>) -> Book {
        Book { list, plan, by_held: true, ..Book::new(edition, places) }
    }

    fn listed(&mut self, list: List) {
        *self = Book { list, beside: self.beside, ..Book::new(self.edition, self.places) };
    }

    fn definition(&mut self) -> &[u64] {
        self.groups.get_or_insert_with(|| by_cuts(&self.list))
    }

    fn groups(&mut self) -> &[u64] {
        if self.by_held {
            &self.plan.as_ref().expect("a plan").groups
        } else {
            self.definition()
        }
    }

    /// The place of a depot's group.
    fn place(&mut self, depot: u8) -> usize {
        self.groups().iter().position(|g| g >> depot & 1 == 1).expect("a listed depot")
    }

    /// W and q of the group at a place: the litres of the sites that it carries, and its size.
    fn group(&mut self, place: usize) -> (u64, u64) {
        let mut litres = 0;
        for site in self.list.sites.clone() {
            if self.place(site.first).max(self.place(site.second)) == place {
                litres += u64::from(site.litres);
            }
        }
        let group = self.groups()[place];
        (litres, self.list.size(group))
    }

    fn depot(&mut self, depot: u8) -> Result<(u64, u64), u8> {
        if depot > 63 || listed(&self.list) >> depot & 1 == 0 {
            return Err(19);
        }
        let place = self.place(depot);
        Ok(self.group(place))
    }

    /// W and q of every group, in their order.
    pub fn figures(&mut self) -> Vec<(u64, u64)> {
        (0..self.groups().len()).map(|place| self.group(place)).collect()
    }

    /// "The set of depots whose W/q is at least" the mark, depot by depot.
    fn at_least(&mut self, mark: u32) -> u64 {
        (0..64).filter(|&d| self.depot(d).is_ok_and(|(w, q)| w >= u64::from(mark) * q)).map(|d| 1 << d).sum()
    }

    /// On groups that may not fall: "reading ends at the first group below the mark".
    fn read_to(&mut self, mark: u32) -> u64 {
        let below = self.figures().iter().position(|&(w, q)| w < u64::from(mark) * q);
        let read = below.unwrap_or(self.groups().len());
        self.groups()[..read].iter().fold(0, |set, group| set | group)
    }

    /// The rows of a call that serves the book's edition, in the paper's order, or what it answers; the book is as it is
    /// after it.
    pub fn answer(&mut self, call: &Call) -> Result<Told, u8> {
        match call {
            Call::Load(list) => {
                let list = reference::read_list_into(self.edition, list, self.places)?;
                self.listed(list);
                self.beside = [0; 64];
                Ok(Told::Done)
            }
            &Call::Change(site, litres) => {
                let litres = litres.figure();
                if litres == 0 {
                    return Err(6);
                }
                let mut list = self.list.clone();
                list.get_mut(site).ok_or(18)?.litres = litres;
                self.listed(list);
                Ok(Told::Done)
            }
            &Call::Add(first, second, litres) => {
                let litres = litres.figure();
                if self.list.len() >= 512 || self.list.len() >= self.places {
                    return Err(2);
                }
                if first > 63 || second > 63 {
                    return Err(5);
                }
                if litres == 0 {
                    return Err(6);
                }
                let (mut list, site) = (self.list.clone(), Site { first, second, litres });
                if list.roll.is_some_and(|roll| reference::without_crews(&roll, &site)) {
                    return Err(23);
                }
                list.sites.push(site);
                self.listed(list);
                Ok(Told::Done)
            }
            Call::Propose(plan) => {
                let (groups, shares) = reference::read_plan(self.edition, plan, self.list.len())?;
                let row = reference::plan_row(&self.list, &groups, &shares);
                let list = self.list.clone();
                let is_true = reference::is_true(&list, self.definition(), &groups, &shares);
                assert_eq!(is_true, row == 0, "the rows and the definition differ");
                match row {
                    0 => {
                        self.plan = Some(Plan { groups: groups.iter().map(worth).collect(), shares });
                        Ok(Told::Done)
                    }
                    row => Err(row),
                }
            }
            &Call::Share(site) => {
                let share = self.plan.as_ref().ok_or(17)?.shares.get(site).copied();
                let s = *self.list.get(site).ok_or(18)?;
                let carrier = self.place(s.first).max(self.place(s.second));
                let q = self.group(carrier).1;
                Ok(Told::Figures(share.expect("a share for each site"), u64::from(s.litres) * q))
            }
            &Call::Depot(depot) => {
                self.plan.as_ref().ok_or(17)?;
                let (litres, size) = self.depot(depot)?;
                Ok(Told::Figures(litres, size))
            }
            &Call::Difference(a, b) => {
                self.plan.as_ref().ok_or(17)?;
                let ((wa, qa), (wb, qb)) = (self.depot(a)?, self.depot(b)?);
                Ok(Told::Difference((wa * qb) as i64 - (wb * qa) as i64, qa * qb))
            }
            &Call::Written(room) => {
                let bytes = plan_bytes(self.edition, self.plan.as_ref().ok_or(17)?);
                if room < bytes.len() {
                    return Err(20);
                }
                Ok(Told::Wrote(bytes))
            }
            &Call::AtLeast(mark) => {
                self.plan.as_ref().ok_or(17)?;
                Ok(Told::Depots(if self.by_held { self.read_to(mark) } else { self.at_least(mark) }))
            }
            // "the book gives row 20, or its list and the length, and stays as it is"
            &Call::List(room) => {
                let bytes = list_bytes(self.edition, &self.list);
                if room < bytes.len() {
                    return Err(20);
                }
                Ok(Told::Wrote(bytes))
            }
        }
    }

    /// The step to edition 2 and a new table: row 2 for too few places; otherwise "the book keeps its list and plan, now in
    /// edition 2, from there on with the new table and its places".
    pub fn migrated(&self, places: usize) -> Result<Book, u8> {
        if places < self.list.len() {
            return Err(2);
        }
        Ok(Book { edition: TWO, places, ..self.clone() })
    }

    /// The store as bytes: sites, whether a plan is held, groups, 64 sets, 512 shares; zero beyond what is held. In edition
    /// 2 whether there is a roll, and its crews.
    pub fn store(&self) -> Vec<u8> {
        let (groups, shares) = self.plan.as_ref().map_or((&[][..], &[][..]), |p| (&p.groups, &p.shares));
        let mut bytes = Vec::new();
        for figure in [self.list.len() as u64, u64::from(self.plan.is_some()), groups.len() as u64] {
            bytes.extend(figure.to_le_bytes());
        }
        groups.iter().for_each(|g| bytes.extend(g.to_le_bytes()));
        bytes.resize(24 + 8 * 64, 0);
        shares.iter().for_each(|&s| bytes.extend(self.edition.s(s)));
        bytes.resize(self.edition.store_roll(), 0);
        if self.edition.has_rolls() {
            bytes.extend(u64::from(self.list.roll.is_some()).to_le_bytes());
            bytes.extend(self.list.roll.unwrap_or(self.beside));
        }
        bytes
    }

    /// The table after a call: the sites stand in front, the rest keeps its content.
    pub fn table(&self, before: &[u8]) -> Vec<u8> {
        let mut bytes = before.to_vec();
        for (place, s) in bytes.chunks_mut(self.edition.place_bytes()).zip(&self.list.sites) {
            place[..2].copy_from_slice(&[s.first, s.second]);
            place[2..].copy_from_slice(&self.edition.litres(s.litres));
        }
        bytes
    }
}

fn worth(set: &Depots) -> u64 {
    (0..64).map(|d| u64::from(set[d]) << d).sum()
}

fn depots(set: u64) -> Depots {
    std::array::from_fn(|d| set >> d & 1 == 1)
}

/// Every call, a fresh store and a load too, first looks which edition's store the bytes can be: 2,584 of them or 4,704.
pub fn sized(store: &[u8]) -> Result<Edition, Refusal> {
    EDITIONS.into_iter().find(|e| store.len() == e.store_bytes()).ok_or(Refusal::NoStore)
}

/// The edition of the bytes, where they can be a store that the call serves.
pub fn served(store: &[u8], call: &Call) -> Result<Edition, Refusal> {
    let e = sized(store)?;
    match call.edition() {
        Some(of_call) if of_call != e => Err(Refusal::NoStore),
        _ => Ok(e),
    }
}

/// The book that the bytes of a store and a table stand for; or no store; or row 0: "held site count above 512 or
/// the table's places, a held site that rows 5 or 6 refuse, or a held plan that rows 8 or 12 to 14 refuse", or "a held
/// roll or site that rows 22 or 23 refuse".
pub fn held(store: &[u8], table: &[u8]) -> Result<Book, Refusal> {
    let e = sized(store)?;
    let corrupt = Err(Refusal::Row(0));
    let figure = |at: usize| number(&store[at..at + 8]);
    let places = table.len() / e.place_bytes();
    if figure(8) > 1 || figure(0) > 512 || figure(0) > places as u64 {
        return corrupt;
    }
    let count = figure(0) as usize;
    let site = |p: &[u8]| Site { first: p[0], second: p[1], litres: number(&p[2..]) as u32 };
    let sites: Vec<Site> = table.chunks_exact(e.place_bytes()).take(count).map(site).collect();
    if sites.iter().any(|s| s.first > 63 || s.second > 63 || s.litres == 0) {
        return corrupt;
    }
    let (there, crews) = roll_held(e, store);
    if there > 1 {
        return corrupt;
    }
    let (roll, beside) = if there == 1 { (Some(crews), [0; 64]) } else { (None, crews) };
    if roll.is_some_and(|roll| reference::above(&roll) || sites.iter().any(|s| reference::without_crews(&roll, s))) {
        return corrupt;
    }
    let list = List { sites, roll };
    let holding = |list, plan| Ok(Book { beside, ..Book::holding(e, places, list, plan) });
    if figure(8) == 0 {
        return holding(list, None);
    }
    if figure(16) > 64 {
        return corrupt;
    }
    let groups: Vec<u64> = (0..figure(16) as usize).map(|k| figure(24 + 8 * k)).collect();
    let shares: Vec<u64> = (0..count).map(|i| number(&store[e.store_share(i)..e.store_share(i + 1)])).collect();
    let sets: Vec<Depots> = groups.iter().map(|&g| depots(g)).collect();
    match reference::plan_row(&list, &sets, &shares) {
        12..=14 => corrupt,
        _ => holding(list, Some(Plan { groups, shares })),
    }
}

/// Whether a store has a roll, and the bytes for its crews. That of edition 1 has none.
fn roll_held(e: Edition, store: &[u8]) -> (u64, Roll) {
    if !e.has_rolls() {
        return (0, [0; 64]);
    }
    let (there, crews) = store[e.store_roll()..].split_at(8);
    (number(there), crews.try_into().expect("64 bytes"))
}
