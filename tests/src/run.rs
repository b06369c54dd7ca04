//! One case: a call of the engine, compared with the reference.

use crate::damage::list_rows;
use crate::decompose::{by_all_sets, by_cuts, shares};
use crate::lent::{self, Lent};
use crate::records::{hex, isolated, list_bytes, listed, members, plan_bytes, Edition, List, Plan, ONE, TWO};
use crate::reference::{self, edition_of};
use crate::rng::Rng;

/// Lists of at most this many depots are decomposed by a count over all sets too.
pub const FEW: u32 = 10;

/// After this many failures the run stops.
const MOST: usize = 20;

/// How many rows there are.
pub const ROWS: usize = 24;

pub struct Run {
    pub rng: Rng,
    seed: u64,
    pub cases: usize,
    pub failed: usize,
    /// How often each row was the answer, in each edition; place 0 is a plan that passes.
    pub checks: [[usize; ROWS]; 2],
    pub makes: [[usize; ROWS]; 2],
    /// The same of lists converted from each edition, alone and with a plan.
    pub converted: [[[usize; ROWS]; 2]; 2],
    /// How often the count over all sets agreed with the minimum cuts.
    pub counted: usize,
    /// How often the rows agreed with the definition: passes just where the plan is true.
    pub judged: usize,
    /// How often a list without a roll and the same with a roll of ones were answered alike.
    pub alike: usize,
    /// How often a list with isolated depots was answered as the definition has it beside the list without them.
    pub apart: usize,
    /// The list worked on, and its groups.
    held: (List, Vec<u64>),
}

impl Run {
    pub fn new(seed: u64) -> Run {
        Run {
            rng: Rng::new(seed),
            seed,
            cases: 0,
            failed: 0,
            checks: [[0; ROWS]; 2],
            makes: [[0; ROWS]; 2],
            converted: [[[0; ROWS]; 2]; 2],
            counted: 0,
            judged: 0,
            alike: 0,
            apart: 0,
            held: (List::default(), Vec::new()),
        }
    }

    /// The groups of a list by minimum cuts; on few depots the count over all sets must agree.
    pub fn groups(&mut self, list: &List) -> Vec<u64> {
        if self.held.0 != *list {
            let groups = by_cuts(list);
            if listed(list).count_ones() <= FEW {
                self.counted += 1;
                if by_all_sets(list) != groups {
                    let list = list_bytes(TWO, list);
                    self.fail("the minimum cuts and the count over all sets differ", &[("list", &list)]);
                }
            }
            self.held = (list.clone(), groups);
        }
        self.held.1.clone()
    }

    /// A true plan by minimum cuts and flows.
    pub fn plan(&mut self, list: &List) -> Plan {
        let groups = self.groups(list);
        let (shares, level) = shares(list, &groups);
        if !level {
            self.fail("no level shares for the groups", &[("list", &list_bytes(TWO, list))]);
        }
        Plan { groups, shares }
    }

    pub fn fail(&mut self, what: &str, bytes: &[(&str, &[u8])]) {
        println!("FAILED, seed {}, case {}: {what}", self.seed, self.cases);
        for (name, bytes) in bytes {
            println!("  {name} {}", hex(bytes));
        }
        self.failed += 1;
        if self.failed == MOST {
            println!("{} cases, {} failed (stopped)", self.cases, self.failed);
            std::process::exit(1);
        }
    }

    /// Check on a list and a plan. Answers the reference's row.
    pub fn check(&mut self, list: &[u8], plan: &[u8]) -> u8 {
        self.check_before(list, &[], plan, &[])
    }

    /// Check on a list and a plan that are followed in memory by bytes which are not theirs.
    pub fn check_before(&mut self, list: &[u8], behind_list: &[u8], plan: &[u8], behind_plan: &[u8]) -> u8 {
        self.cases += 1;
        let row = reference::check(list, plan);
        self.checks[edition_of(list).number - 1][usize::from(row)] += 1;
        let both: [(&str, &[u8]); 2] = [("list", list), ("plan", plan)];
        if row == 0 || (12..=16).contains(&row) {
            self.judge(list, plan, row);
        }
        let lent_list = Lent::new(&mut self.rng, list, behind_list);
        let lent_plan = Lent::new(&mut self.rng, plan, behind_plan);
        let answer = lent::check(&lent_list, &lent_plan);
        if answer != -i64::from(row) {
            self.fail(&format!("check answers {answer}, expected {}", -i64::from(row)), &both);
        }
        if !lent_list.unchanged_from(0) || !lent_plan.unchanged_from(0) {
            self.fail("check wrote", &both);
        }
        let wrapped = sulgheti::check(list, plan).map_or_else(|row| row.0, |()| 0);
        if wrapped != row {
            self.fail(&format!("the wrapper's check answers {wrapped}, expected {row}"), &both);
        }
        row
    }

    /// The rows against the definition: a plan of the right form passes just where it is true.
    fn judge(&mut self, list: &[u8], plan: &[u8], row: u8) {
        let e = edition_of(list);
        let read = reference::read_list(e, list).expect("a list that reads");
        let (groups, shares) = reference::read_plan(e, plan, read.len()).expect("a plan of the right form");
        let held = self.held.0 == read;
        let decomposition = if held { self.held.1.clone() } else { by_cuts(&read) };
        self.judged += 1;
        if reference::is_true(&read, &decomposition, &groups, &shares) != (row == 0) {
            self.fail("the rows and the definition differ", &[("list", list), ("plan", plan)]);
        }
        if e.has_rolls() && read.roll.is_none() {
            self.judge_ones(&read, plan, row);
        }
        if isolated(&read) != 0 {
            self.judge_apart(&read, plan, row);
        }
    }

    /// "A roll with 1 for each depot that a site names and 0 for every other lets exactly those plans pass that pass
    /// without a roll": what is refused is refused by the same row too.
    fn judge_ones(&mut self, list: &List, plan: &[u8], row: u8) {
        self.alike += 1;
        let rolled = list_bytes(TWO, &list.with_ones());
        let answer = sulgheti::check(&rolled, plan).map_or_else(|row| row.0, |()| 0);
        if answer != row || reference::check(&rolled, plan) != row {
            let what = format!("with a roll of ones check answers {answer}, without {row}");
            self.fail(&what, &[("list", &rolled), ("plan", plan)]);
        }
    }

    /// "Such depots form the last group": a plan of a list with isolated depots passes just where they are its last group
    /// and, without that group, it passes with the list whose roll has no crews for them.
    fn judge_apart(&mut self, list: &List, plan: &[u8], row: u8) {
        self.apart += 1;
        let (groups, shares) = reference::read_plan(TWO, plan, list.len()).expect("a plan of the right form");
        let mut groups = reference::sets(&groups);
        let alone = isolated(list);
        let mut without = list.clone();
        for d in members(alone) {
            without.roll.as_mut().expect("a roll")[d] = 0;
        }
        let passes = groups.pop() == Some(alone) && {
            let rest = plan_bytes(TWO, &Plan { groups, shares });
            sulgheti::check(&list_bytes(TWO, &without), &rest).is_ok()
        };
        if passes != (row == 0) {
            let what = format!(
                "row {row}, and without its isolated depots the plan {}",
                if passes { "passes" } else { "fails" }
            );
            self.fail(&what, &[("list", &list_bytes(TWO, list)), ("plan", plan)]);
        }
    }

    /// Make on a list that reads or not, into `room` bytes. Answers the plan if one was made.
    pub fn make(&mut self, list: &[u8], behind: &[u8], room: usize) -> Option<Vec<u8>> {
        self.cases += 1;
        let content = self.junk(room);
        let lent_list = Lent::new(&mut self.rng, list, behind);
        let mut out = Lent::new(&mut self.rng, &content, &[]);
        let answer = lent::make(&lent_list, &mut out);
        let e = edition_of(list);
        let expected = match reference::read_list(e, list) {
            Err(row) => Err(row),
            Ok(read) => {
                let groups = self.groups(&read);
                let length = e.plan_length(groups.len(), read.len());
                if room < length {
                    Err(20)
                } else {
                    Ok((read, groups, length))
                }
            }
        };
        self.makes[e.number - 1][usize::from(*expected.as_ref().err().unwrap_or(&0))] += 1;
        let wanted = match &expected {
            Err(row) => -i64::from(*row),
            Ok((_, _, length)) => *length as i64,
        };
        if answer != wanted {
            self.fail(&format!("make into {room} bytes answers {answer}, expected {wanted}"), &[("list", list)]);
            return None;
        }
        if !lent_list.unchanged_from(0) {
            self.fail("make wrote into the list", &[("list", list)]);
        }
        if !out.unchanged_from(answer.max(0) as usize) {
            self.fail(&format!("make into {room} bytes wrote outside the plan"), &[("list", list)]);
        }
        let (read, groups, length) = expected.ok()?;
        let plan = out.bytes()[..length].to_vec();
        let both: [(&str, &[u8]); 2] = [("list", list), ("plan", &plan)];
        match reference::read_plan(e, &plan, read.len()) {
            Err(row) => self.fail(&format!("make's plan is refused by row {row}"), &both),
            Ok((sets, shares)) => {
                if !reference::is_true(&read, &groups, &sets, &shares) {
                    self.fail("make's plan is not true", &both);
                }
            }
        }
        let mut again = content;
        if sulgheti::make(list, &mut again) != Ok(length) || again != out.bytes() {
            self.fail("the wrapper's make differs", &both);
        }
        Some(plan)
    }

    /// So many bytes of any content.
    pub fn junk(&mut self, room: usize) -> Vec<u8> {
        (0..room).map(|_| self.rng.byte()).collect()
    }

    /// A list put to the way from an edition, into `room` bytes. Answers the reference's row, 0 where it is converted.
    pub fn convert_list(&mut self, from: Edition, list: &[u8], behind: &[u8], room: usize) -> u8 {
        self.cases += 1;
        let given: [(&str, &[u8]); 1] = [("list", list)];
        let expected = reference::convert_list(from, list, room);
        let row = *expected.as_ref().err().unwrap_or(&0);
        self.converted[from.number - 1][0][usize::from(row)] += 1;
        let content = self.junk(room);
        let lent_list = Lent::new(&mut self.rng, list, behind);
        let mut out = Lent::new(&mut self.rng, &content, &[]);
        let answer = lent::convert_list(from, &lent_list, &mut out);
        let wanted = expected.as_ref().map_or_else(|row| -i64::from(*row), |bytes| bytes.len() as i64);
        let what = format!("a list from edition {} into {room} bytes", from.number);
        if answer != wanted {
            self.fail(&format!("{what}: answers {answer}, expected {wanted}"), &given);
        }
        if !lent_list.unchanged_from(0) {
            self.fail(&format!("{what}: the list is written"), &given);
        }
        let left = over(&content, expected.as_deref().unwrap_or(&[]));
        if out.bytes() != left || !out.kept_around() {
            self.fail(&format!("{what}: leaves another buffer, or writes beside it"), &given);
        }
        let mut again = content;
        if wrapped_list(from, list, &mut again).map_err(|row| row.0)
            != expected.as_ref().map_or(Err(row), |b| Ok(b.len()))
            || again != left
        {
            self.fail(&format!("{what}: the wrapper differs"), &given);
        }
        if let Ok(bytes) = expected {
            let mut back = vec![0; list.len()];
            if wrapped_list(from.other(), &bytes, &mut back) != Ok(list.len()) || back != list {
                self.fail(&format!("{what}: there and back are other bytes"), &given);
            }
        }
        row
    }

    /// A list and a plan put to the way from an edition, into buffers of so many bytes. Answers the reference's row, 0
    /// where both are converted.
    pub fn convert_plan(&mut self, from: Edition, list: &[u8], plan: &[u8], room: [usize; 2]) -> u8 {
        self.convert_before(from, list, &[], plan, &[], room)
    }

    /// The same where list and plan are followed in memory by bytes which are not theirs.
    pub fn convert_before(
        &mut self,
        from: Edition,
        list: &[u8],
        behind_list: &[u8],
        plan: &[u8],
        behind_plan: &[u8],
        room: [usize; 2],
    ) -> u8 {
        self.cases += 1;
        let given: [(&str, &[u8]); 2] = [("list", list), ("plan", plan)];
        let expected = reference::convert_plan(from, list, plan, room);
        let row = *expected.as_ref().err().unwrap_or(&0);
        self.converted[from.number - 1][1][usize::from(row)] += 1;
        let content = room.map(|n| self.junk(n));
        let figures: [usize; 3] = std::array::from_fn(|_| self.rng.word() as usize);
        let lent_list = Lent::new(&mut self.rng, list, behind_list);
        let lent_plan = Lent::new(&mut self.rng, plan, behind_plan);
        let mut list_out = Lent::new(&mut self.rng, &content[0], &[]);
        let mut plan_out = Lent::new(&mut self.rng, &content[1], &[]);
        let mut after = figures;
        let answer = lent::convert_plan(from, &lent_list, &lent_plan, &mut list_out, &mut plan_out, &mut after[1]);
        let lengths = expected.as_ref().map(|both| (both[0].len(), both[1].len()));
        let (wanted, written) = lengths.map_or_else(|row| (-i64::from(*row), figures[1]), |(n, m)| (n as i64, m));
        let what = format!("a plan from edition {} into {} and {} bytes", from.number, room[0], room[1]);
        if answer != wanted {
            self.fail(&format!("{what}: answers {answer}, expected {wanted}"), &given);
        }
        if after != [figures[0], written, figures[2]] {
            self.fail(&format!("{what}: the plan's length is {}, expected {written}", after[1]), &given);
        }
        if !lent_list.unchanged_from(0) || !lent_plan.unchanged_from(0) {
            self.fail(&format!("{what}: the list or the plan is written"), &given);
        }
        let none = [vec![], vec![]];
        let wrote = expected.as_ref().unwrap_or(&none);
        let left = [over(&content[0], &wrote[0]), over(&content[1], &wrote[1])];
        if list_out.bytes() != left[0] || !list_out.kept_around() {
            self.fail(&format!("{what}: leaves another buffer of the list, or writes beside it"), &given);
        }
        if plan_out.bytes() != left[1] || !plan_out.kept_around() {
            self.fail(&format!("{what}: leaves another buffer of the plan, or writes beside it"), &given);
        }
        // by the wrapper into one block: the list's buffer, directly behind it the plan's, then guard bytes
        let guard = self.junk(24);
        let mut block = [&content[0][..], &content[1], &guard].concat();
        let (list_out, behind) = block.split_at_mut(room[0]);
        let wrapped = wrapped_plan(from, list, plan, list_out, &mut behind[..room[1]]);
        if wrapped.map_err(|row| row.0) != lengths.map_err(|row| *row)
            || block != [&left[0][..], &left[1], &guard].concat()
        {
            self.fail(&format!("{what}: the wrapper differs"), &given);
        }
        self.convert_judged(from, list, plan, &what, expected.as_ref().map_err(|row| *row));
        row
    }

    /// What is converted, and what is refused, by Check: a plan goes through just where it passes with a list of the way's
    /// edition; it passes after; and it comes back as the same bytes.
    fn convert_judged(&mut self, from: Edition, list: &[u8], plan: &[u8], what: &str, told: Result<&[Vec<u8>; 2], u8>) {
        let given: [(&str, &[u8]); 2] = [("list", list), ("plan", plan)];
        let verdict = |list: &[u8], plan: &[u8]| sulgheti::check(list, plan).map_or_else(|row| row.0, |()| 0);
        let before = verdict(list, plan);
        let right = match told {
            _ if edition_of(list) != from => told == Err(1),
            Ok(_) | Err(20) => before == 0,
            Err(21) => from == TWO && !list_rows(TWO).contains(&before),
            Err(row) => before == row,
        };
        if !right {
            self.fail(&format!("{what}: Check answers {before}, which does not go with it"), &given);
        }
        let Ok([new_list, new_plan]) = told else { return };
        if verdict(new_list, new_plan) != 0 || reference::check(new_list, new_plan) != 0 {
            self.fail(&format!("{what}: the plan does not pass after"), &given);
        }
        let (mut back, mut plan_back) = (vec![0; list.len()], vec![0; plan.len()]);
        let lengths = wrapped_plan(from.other(), new_list, new_plan, &mut back, &mut plan_back);
        if lengths != Ok((list.len(), plan.len())) || back != list || plan_back != plan {
            self.fail(&format!("{what}: there and back are other bytes"), &given);
        }
    }
}

/// A buffer with other bytes at its front.
fn over(buffer: &[u8], front: &[u8]) -> Vec<u8> {
    [front, &buffer[front.len()..]].concat()
}

/// The wrapper's way from an edition, for a list.
fn wrapped_list(from: Edition, list: &[u8], out: &mut [u8]) -> Result<usize, sulgheti::Row> {
    if from == ONE {
        sulgheti::upgrade_list(list, out)
    } else {
        sulgheti::downgrade_list(list, out)
    }
}

/// The wrapper's way from an edition, for a list and its plan.
fn wrapped_plan(
    from: Edition,
    list: &[u8],
    plan: &[u8],
    list_out: &mut [u8],
    plan_out: &mut [u8],
) -> Result<(usize, usize), sulgheti::Row> {
    if from == ONE {
        sulgheti::upgrade_plan(list, plan, list_out, plan_out)
    } else {
        sulgheti::downgrade_plan(list, plan, list_out, plan_out)
    }
}
