//! The lists of document 01 with known plans, and its examples of refusals, in either edition; and lists that need
//! edition 2, with rolls among them.

use crate::records::{list_bytes, plan_bytes, roll_bytes, site, Edition, List, Plan, Roll, Site, ONE, TWO};

/// A list, its groups, and shares that pass where the document gives them.
pub struct Known {
    pub list: List,
    pub groups: Vec<u64>,
    pub shares: Option<Vec<u64>>,
}

fn known(sites: &[(u8, u8, u32)], groups: &[u64], shares: &[u64]) -> Known {
    let sites: Vec<Site> = sites.iter().map(|&(a, b, w)| site(a, b, w)).collect();
    Known { list: sites.into(), groups: groups.to_vec(), shares: Some(shares.to_vec()) }
}

/// The same with a roll.
fn enrolled(known: Known, roll: Roll) -> Known {
    Known { list: List { roll: Some(roll), ..known.list }, ..known }
}

fn crewed(known: Known, crews: &[(usize, u8)]) -> Known {
    enrolled(known, roll(crews))
}

/// A roll with crews at these depots and at no other.
pub fn roll(crews: &[(usize, u8)]) -> Roll {
    let mut roll = [0; 64];
    for &(depot, crews) in crews {
        roll[depot] = crews;
    }
    roll
}

/// T is the list of one site (0,1) of 10.
const T1: [u8; 10] = [0x4C, 0x53, 0x01, 0x00, 0x53, 0x54, 0x00, 0x01, 0x0A, 0x00];
const T1_PLAN: [u8; 21] =
    [0x50, 0x4C, 0x01, 0x01, 0x00, 0x47, 0x52, 0x03, 0, 0, 0, 0, 0, 0, 0, 0x53, 0x48, 0x0A, 0x00, 0x00, 0x00];

/// The same in edition 2.
const T2: [u8; 12] = [0x4C, 0x32, 0x01, 0x00, 0x53, 0x32, 0x00, 0x01, 0x0A, 0x00, 0x00, 0x00];
const T2_PLAN: [u8; 25] = [
    0x50, 0x32, 0x01, 0x01, 0x00, 0x47, 0x52, 0x03, 0, 0, 0, 0, 0, 0, 0, 0x53, 0x33, 0x0A, 0x00, 0x00, 0x00, 0, 0, 0, 0,
];

/// T and its plan.
pub fn t(e: Edition) -> (Vec<u8>, Vec<u8>) {
    if e == ONE {
        (T1.to_vec(), T1_PLAN.to_vec())
    } else {
        (T2.to_vec(), T2_PLAN.to_vec())
    }
}

/// The nine sites of document 01 whose innermost core is not the heaviest group.
fn nine() -> Vec<Site> {
    let pairs = [(0, 1), (0, 2), (0, 3), (1, 2), (1, 3), (2, 3), (0, 4), (1, 4), (4, 5)];
    pairs.iter().map(|&(a, b)| site(a, b, 1)).collect()
}

/// Site i from 0 to 511 an own site of depot i mod 64, each of the same litres.
pub fn own_sites(litres: u32) -> Vec<Site> {
    (0..512).map(|i| site(i as u8 % 64, i as u8 % 64, litres)).collect()
}

/// "Lists with known plans"; in edition 2 also lists with more litres than edition 1 has.
pub fn lists(e: Edition) -> Vec<Known> {
    let mut lists = vec![
        known(&[], &[], &[]),
        known(&[(0, 1, 10)], &[3], &[10]),
        known(&[(0, 0, 7)], &[1], &[7]),
        known(&[(0, 0, 4), (1, 1, 4)], &[3], &[8, 8]),
        known(&[(0, 0, 4), (1, 1, 3)], &[1, 2], &[4, 3]),
        known(&[(0, 0, 7), (0, 1, 6)], &[1, 2], &[7, 0]),
        known(&[(0, 0, 6), (0, 1, 6)], &[3], &[12, 0]),
        known(&[(0, 0, 5), (0, 1, 6)], &[3], &[10, 1]),
        known(&[(0, 1, 9), (1, 2, 1)], &[3, 4], &[9, 0]),
        known(&[(0, 1, 1), (1, 2, 1), (0, 2, 1)], &[7], &[3, 3, 0]),
    ];
    let all = |litres: u32, share: u64| Known {
        list: own_sites(litres).into(),
        groups: vec![u64::MAX],
        shares: Some(vec![share; 512]),
    };
    lists.push(Known { list: nine().into(), groups: vec![31, 32], shares: None });
    lists.push(all(65_535, 4_194_240));
    if e == TWO {
        lists.extend([
            known(&[(0, 1, 70_000)], &[3], &[70_000]),
            // 65,536 and 65,537 are 0 and 1 in 16 bits
            known(&[(0, 0, 65_536)], &[1], &[65_536]),
            known(&[(0, 0, 65_535), (1, 1, 65_536)], &[2, 1], &[65_535, 65_536]),
            known(&[(0, 0, 2), (1, 1, 65_537)], &[2, 1], &[2, 65_537]),
            known(&[(0, 0, 65_537), (0, 1, 65_536)], &[1, 2], &[65_537, 0]),
            known(&[(0, 0, 65_536), (0, 1, 65_536)], &[3], &[131_072, 0]),
            known(&[(0, 0, 65_535), (0, 1, 65_536)], &[3], &[131_070, 1]),
            // the most litres: W and w x q have more than 32 bits
            known(&[(63, 63, 4_294_967_295)], &[1 << 63], &[4_294_967_295]),
            known(&[(0, 1, 4_294_967_295)], &[3], &[4_294_967_295]),
            known(&[(0, 0, 4_294_967_295), (1, 1, 4_294_967_294)], &[1, 2], &[4_294_967_295, 4_294_967_294]),
            known(&[(0, 0, 4_294_967_295), (0, 1, 4_294_967_295)], &[3], &[8_589_934_590, 0]),
            known(&[(0, 0, 4_294_967_294), (0, 1, 4_294_967_295)], &[3], &[8_589_934_588, 1]),
            all(4_294_967_295, 274_877_906_880),
            // one depot with all that a list can have: W 2,199,023,255,040
            Known {
                list: vec![site(5, 5, 4_294_967_295); 512].into(),
                groups: vec![32],
                shares: Some(vec![4_294_967_295; 512]),
            },
        ]);
        // with rolls: a depot's load is its crews times W
        lists.extend([
            crewed(known(&[], &[], &[]), &[]),
            // a roll of ones: as without
            crewed(known(&[(0, 1, 10)], &[3], &[10]), &[(0, 1), (1, 1)]),
            crewed(known(&[(0, 1, 9), (1, 2, 1)], &[3, 4], &[9, 0]), &[(0, 1), (1, 1), (2, 1)]),
            // q 4: 36 of 48 and 12; q 18: half each
            crewed(known(&[(0, 1, 12)], &[3], &[36]), &[(0, 3), (1, 1)]),
            crewed(known(&[(0, 1, 10)], &[3], &[90]), &[(0, 9), (1, 9)]),
            // equal litres per crew, and not
            crewed(known(&[(0, 0, 4), (1, 1, 8)], &[3], &[12, 24]), &[(0, 1), (1, 2)]),
            crewed(known(&[(0, 0, 4), (1, 1, 8)], &[1, 2], &[4, 24]), &[(0, 1), (1, 3)]),
            crewed(known(&[(0, 0, 4), (1, 1, 4)], &[2, 1], &[8, 4]), &[(0, 2), (1, 1)]),
            // crews at one depot alone, which has all sites
            crewed(known(&[(63, 63, 4_294_967_295), (63, 63, 1)], &[1 << 63], &[38_654_705_655, 9]), &[(63, 9)]),
            // by crews other groups: 10/19 is more than 9/18
            crewed(known(&[(0, 1, 9), (1, 2, 1)], &[7], &[90, 9]), &[(0, 9), (1, 9), (2, 1)]),
            crewed(known(&[(0, 1, 9), (1, 2, 1)], &[3, 4], &[9, 0]), &[(0, 1), (1, 1), (2, 9)]),
        ]);
        // crews at depots that no site names: the last group, W 0
        lists.extend([
            crewed(known(&[], &[1], &[]), &[(0, 1)]),
            crewed(known(&[], &[1 | 1 << 63], &[]), &[(0, 1), (63, 9)]),
            crewed(known(&[(5, 5, 7)], &[32, 64], &[14]), &[(5, 2), (6, 9)]),
            crewed(known(&[(5, 5, 7)], &[32, 1 << 4 | 1 << 63], &[14]), &[(4, 1), (5, 2), (63, 1)]),
            crewed(known(&[(0, 1, 10)], &[3, 4], &[10]), &[(0, 1), (1, 1), (2, 1)]),
            crewed(known(&[(1, 2, 10)], &[6, 1], &[10]), &[(0, 9), (1, 1), (2, 1)]),
            crewed(known(&[(0, 0, 4), (1, 1, 4)], &[3, 12], &[8, 8]), &[(0, 1), (1, 1), (2, 3), (3, 7)]),
            crewed(known(&[(0, 1, 9), (1, 2, 1)], &[3, 4, 8], &[9, 0]), &[(0, 1), (1, 1), (2, 9), (3, 1)]),
            // one litre at nine crews is more than none at one
            crewed(known(&[(7, 7, 1)], &[128, 1], &[9]), &[(7, 9), (0, 1)]),
            // 63 of them and one own site
            enrolled(known(&[(63, 63, 1)], &[1 << 63, u64::MAX >> 1], &[1]), [1; 64]),
            enrolled(known(&[(0, 0, 4_294_967_295)], &[1, u64::MAX << 1], &[38_654_705_655]), [9; 64]),
            // all 64
            enrolled(known(&[], &[u64::MAX], &[]), [1; 64]),
            enrolled(known(&[], &[u64::MAX], &[]), [9; 64]),
        ]);
        // the greatest q, 576, with W of 41 bits
        lists.push(enrolled(all(4_294_967_295, 2_473_901_161_920), [9; 64]));
    }
    lists
}

fn changed(bytes: &[u8], place: usize, with: &[u8]) -> Vec<u8> {
    let mut changed = bytes.to_vec();
    changed[place..place + with.len()].copy_from_slice(with);
    changed
}

/// The examples of rows 1 to 16, and of rows 22 and 23: row, list, plan.
pub fn refusals(e: Edition) -> Vec<(u8, Vec<u8>, Vec<u8>)> {
    let (t, p) = self::t(e);
    let (_, of_other) = self::t(e.other());
    let head = |mark: [u8; 2], rest: &[u8]| [&mark[..], rest].concat();
    let plan =
        |groups: &[u64], shares: &[u64]| plan_bytes(e, &Plan { groups: groups.to_vec(), shares: shares.to_vec() });
    // T with a roll
    let rolled = |crews: &[(usize, u8)]| [t.clone(), roll_bytes(&roll(crews))].concat();
    let mut examples = vec![
        (1, vec![], p.clone()),
        (1, changed(&t, 0, &[0x4C, 0x33]), p.clone()),
        (1, changed(&t, 0, &[0x4C, 0x31]), p.clone()),
        (1, t[..3].to_vec(), p.clone()),
        (2, head(e.list, &[0x01, 0x02]), p.clone()),
        (3, head(e.list, &[0x00, 0x02]), p.clone()),
        (3, t[..t.len() - 1].to_vec(), p.clone()),
        // the other edition's head on these records
        (3, changed(&t, 0, &e.other().list), p.clone()),
        (4, changed(&t, 5, &[0x55]), p.clone()),
        (4, changed(&t, 4, &e.other().site), p.clone()),
        (5, changed(&t, 7, &[0x40]), p.clone()),
        (6, changed(&t, 8, &[0x00]), p.clone()),
        (7, t.clone(), head([0x50, 0x4D], &[0x01, 0x01, 0x00])),
        (7, t.clone(), vec![]),
        // "each edition of plan passes only with its own edition of list, and row 7 refuses the other"
        (7, t.clone(), of_other),
        (7, t.clone(), changed(&p, 0, &e.other().plan)),
        (8, t.clone(), head(e.plan, &[0x41, 0x01, 0x00])),
        (9, t.clone(), head(e.plan, &[0x01, 0x02, 0x00])),
        (10, t.clone(), [p.clone(), vec![0]].concat()),
        (11, t.clone(), changed(&p, 16, &[0x47])),
        (11, t.clone(), changed(&p, 15, &e.other().share)),
        (12, t.clone(), plan(&[1, 3], &[10])),
        (13, t.clone(), plan(&[1], &[10])),
        (14, t.clone(), plan(&[3], &[21])),
        (15, t.clone(), plan(&[3], &[11])),
        (16, list_bytes(e, &vec![site(0, 0, 4), site(1, 1, 4)].into()), plan(&[1, 2], &[4, 4])),
        // the innermost core {0,1,2,3} of the nine sites first: level, 6/4 and then 2/1
        (16, list_bytes(e, &nine().into()), plan(&[15, 16, 32], &[4, 2, 0, 4, 2, 4, 0, 0, 0])),
        (0, t.clone(), p.clone()),
    ];
    let ones = rolled(&[(0, 1), (1, 1)]);
    if e == ONE {
        examples.extend([(3, ones.clone(), p.clone()), (3, changed(&ones, 0, &TWO.list), p.clone())]);
        return examples;
    }
    // a roll and no sites
    let none = |crews: &[(usize, u8)]| list_bytes(e, &List { sites: vec![], roll: Some(roll(crews)) });
    let own = |litres: [u32; 2], crews: &[(usize, u8)]| {
        let sites = vec![site(0, 0, litres[0]), site(1, 1, litres[1])];
        list_bytes(e, &List { sites, roll: Some(roll(crews)) })
    };
    examples.extend([
        (0, ones.clone(), p.clone()),
        (1, changed(&ones, 0, b"L3"), p.clone()),
        (3, ones[..ones.len() - 1].to_vec(), p.clone()),
        (3, [ones.clone(), vec![0]].concat(), p.clone()),
        (3, [ones.clone(), roll_bytes(&[1; 64])].concat(), p.clone()),
        (3, ones[..t.len() + 2].to_vec(), p.clone()),
        (3, changed(&ones, 2, &[2]), p.clone()),
        (4, changed(&ones, t.len(), &[0x45]), p.clone()),
        (4, changed(&ones, t.len() + 1, &[0x53]), p.clone()),
        (4, changed(&ones, t.len(), b"RD"), p.clone()),
        // a row of the sites before those of the roll
        (5, changed(&rolled(&[(0, 10)]), 7, &[0x40]), p.clone()),
        (6, changed(&rolled(&[(0, 10)]), 8, &[0x00]), p.clone()),
        (22, rolled(&[(0, 10), (1, 1)]), p.clone()),
        (22, rolled(&[(0, 255), (1, 1)]), p.clone()),
        (22, rolled(&[(0, 1), (1, 1), (63, 10)]), p.clone()),
        (22, rolled(&[(0, 10)]), p.clone()),
        (23, rolled(&[(0, 1)]), p.clone()),
        (23, rolled(&[(1, 9)]), p.clone()),
        (23, rolled(&[]), p.clone()),
        // before the rows of the plan
        (22, rolled(&[(0, 1), (1, 16)]), vec![]),
        (23, rolled(&[(0, 1)]), vec![]),
        (7, ones.clone(), vec![]),
        // crews at depots that no site names: left out, one alone left out, and one too many
        (0, rolled(&[(0, 1), (1, 1), (2, 1)]), plan(&[3, 4], &[10])),
        (13, rolled(&[(0, 1), (1, 1), (2, 1)]), plan(&[3], &[10])),
        (13, rolled(&[(0, 1), (1, 1), (2, 1), (63, 1)]), plan(&[3, 4], &[10])),
        (13, rolled(&[(0, 1), (1, 1), (2, 1)]), plan(&[3, 12], &[10])),
        (13, rolled(&[(0, 1), (1, 1)]), plan(&[3, 4], &[10])),
        (13, none(&[(0, 1)]), plan(&[], &[])),
        (13, none(&[(0, 1), (5, 9)]), plan(&[1], &[])),
        (13, none(&[]), plan(&[1], &[])),
        // joined to the group before: depot 1 has 20 of 30, and depot 2 none
        (15, rolled(&[(0, 1), (1, 1), (2, 1)]), plan(&[7], &[10])),
        (15, rolled(&[(0, 1), (1, 1), (2, 1), (3, 1)]), plan(&[7, 8], &[15])),
        // each in a group of its own, either first, and before the others
        (16, rolled(&[(0, 1), (1, 1), (2, 1), (3, 2)]), plan(&[3, 4, 8], &[10])),
        (16, rolled(&[(0, 1), (1, 1), (2, 1), (3, 2)]), plan(&[3, 8, 4], &[10])),
        (16, rolled(&[(0, 1), (1, 1), (2, 1)]), plan(&[4, 3], &[10])),
        (16, none(&[(0, 1), (5, 9)]), plan(&[1, 32], &[])),
        (0, none(&[(0, 1), (5, 9)]), plan(&[33], &[])),
        (0, none(&[]), plan(&[], &[])),
        // q is 4: 40 in all, 30 for depot 0
        (0, rolled(&[(0, 3), (1, 1)]), plan(&[3], &[30])),
        (14, rolled(&[(0, 3), (1, 1)]), plan(&[3], &[41])),
        (15, rolled(&[(0, 3), (1, 1)]), plan(&[3], &[20])),
        (15, rolled(&[(0, 3), (1, 1)]), p.clone()),
        // an own site is whole at 8 x 2
        (14, own([4, 8], &[(0, 1), (1, 2)]), plan(&[1, 2], &[4, 8])),
        // 4/1 and 8/2 are equal; 4/2 is below 4/1
        (16, own([4, 8], &[(0, 1), (1, 2)]), plan(&[1, 2], &[4, 16])),
        (16, own([4, 4], &[(0, 2), (1, 1)]), plan(&[1, 2], &[8, 4])),
    ]);
    examples
}
