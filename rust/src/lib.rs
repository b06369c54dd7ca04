//! Safe calls of the proved engine for fair-load plans.
//!
//! A list and a plan are bytes as `include/sulgheti.h` lays them out, in edition 1 or 2, a list of edition 2 with a roll
//! of crews or without one; it says too what W, q, s and w x q are. [`check`] and [`make`] take either edition;
//! [`upgrade_list`], [`upgrade_plan`], [`downgrade_list`] and [`downgrade_plan`] turn one into the other. The engine keeps
//! nothing between calls and allocates nothing; a [`Store`] (edition 1) or a [`Store2`] (edition 2) owns its bytes and its
//! table. A thread with 128 KB of stack can make every call. `libengine.a` and `libdesk.a`, for x86-64 Linux, are looked
//! for in the folder that `SULGHETI_LIB` names, or in the repository's `target/staticlib`.
//!
//! ```
//! // One site of 10 litres that depots 0 and 1 supply.
//! let list = [0x4C, 0x53, 1, 0, 0x53, 0x54, 0, 1, 10, 0];
//! let mut out = [0; sulgheti::PLAN_MAX];
//! let n = sulgheti::make(&list, &mut out).unwrap();
//! assert_eq!(sulgheti::check(&list, &out[..n]), Ok(()));
//! assert_eq!(sulgheti::check(&list, &out[..n - 1]), Err(sulgheti::Row(10)));
//!
//! let mut store = sulgheti::Store::new(100);
//! store.load(&list).unwrap();
//! assert_eq!(store.depot(0), Err(sulgheti::Row(17)));
//! store.propose(&out[..n]).unwrap();
//! assert_eq!(store.depot(0), Ok((10, 2)));
//! // Who brings at least 5 litres, and who 6: bit n of the set stands for depot n.
//! assert_eq!(store.at_least(5), Ok(0b11));
//! assert_eq!(store.at_least(6), Ok(0));
//! // The list written out is the list that was loaded; a buffer one byte shorter is refused.
//! let mut file = [0; sulgheti::LIST_MAX];
//! let length = store.list(&mut file).unwrap();
//! assert_eq!(file[..length], list);
//! assert_eq!(store.list(&mut file[..length - 1]), Err(sulgheti::Row(20)));
//! // Questions change nothing: threads may ask one store at once.
//! std::thread::scope(|threads| {
//!     threads.spawn(|| assert_eq!(store.share(0), Ok((10, 20))));
//!     threads.spawn(|| assert_eq!(store.difference(0, 1), Ok((0, 4))));
//! });
//! // A store that was kept.
//! let (bytes, table) = store.bytes();
//! assert_eq!(sulgheti::Store::from_bytes(*bytes, table.to_vec()), store);
//! store.change(0, 11).unwrap();
//! assert_eq!(store.propose(&out[..n]), Err(sulgheti::Row(15)));
//! assert!(format!("{:?}", sulgheti::Row(15)).starts_with("refused 15: a depot's shares"));
//! ```
//!
//! Edition 2 has litres up to 4,294,967,295, in lists, plans and stores of its own:
//!
//! ```
//! // One site of 70,000 litres (0x11170) that depots 0 and 1 supply, and one of 10 litres in edition 1.
//! let list2 = [0x4C, 0x32, 1, 0, 0x53, 0x32, 0, 1, 0x70, 0x11, 0x01, 0];
//! let list = [0x4C, 0x53, 1, 0, 0x53, 0x54, 0, 1, 10, 0];
//! let mut plan2 = [0; sulgheti::PLAN2_MAX];
//! let n2 = sulgheti::make(&list2, &mut plan2).unwrap();
//! let mut plan = [0; sulgheti::PLAN_MAX];
//! let n = sulgheti::make(&list, &mut plan).unwrap();
//! // A plan passes with a list of its own edition only.
//! assert_eq!(sulgheti::check(&list2, &plan2[..n2]), Ok(()));
//! assert_eq!(sulgheti::check(&list2, &plan[..n]), Err(sulgheti::Row(7)));
//! assert_eq!(sulgheti::check(&list, &plan2[..n2]), Err(sulgheti::Row(7)));
//!
//! // A store takes lists and plans of its own edition only.
//! let mut store = sulgheti::Store2::new(100);
//! assert_eq!(store.load(&list), Err(sulgheti::Row(1)));
//! store.load(&list2).unwrap();
//! assert_eq!(store.propose(&plan[..n]), Err(sulgheti::Row(7)));
//! store.propose(&plan2[..n2]).unwrap();
//! assert_eq!(store.share(0), Ok((70_000, 140_000)));
//! assert_eq!(store.depot(1), Ok((70_000, 2)));
//! store.change(0, 4_294_967_295).unwrap();
//! store.add(1, 2, 65_536).unwrap();
//! let mut file = [0; sulgheti::LIST2_MAX];
//! assert_eq!(store.list(&mut file), Ok(20));
//! assert_eq!(file[..20], *b"L2\x02\x00S2\x00\x01\xFF\xFF\xFF\xFFS2\x01\x02\x00\x00\x01\x00");
//! assert_eq!(sulgheti::Store::new(100).load(&file[..20]), Err(sulgheti::Row(1)));
//! ```
//!
//! A list of edition 2 may end in a roll, which has the crews of each depot; a group's q is its crews added up:
//!
//! ```
//! // One site of 12 litres; depot 0 has three crews and depot 1 one.
//! let mut list = b"L2\x01\x00S2\x00\x01\x0C\x00\x00\x00DR".to_vec();
//! list.extend([3, 1]);
//! list.extend([0; 62]);
//! let mut plan = [0; sulgheti::PLAN2_MAX];
//! let n = sulgheti::make(&list, &mut plan).unwrap();
//!
//! let mut store = sulgheti::Store2::new(100);
//! store.load(&list).unwrap();
//! store.propose(&plan[..n]).unwrap();
//! // Depot 0 brings 36 of 48 quarters of a litre: 3 litres for each crew.
//! assert_eq!(store.share(0), Ok((36, 48)));
//! assert_eq!(store.depot(0), Ok((12, 4)));
//! assert_eq!(store.at_least(3), Ok(0b11));
//! // Depot 2 has no crew. The store keeps the roll, and writes it out with the list.
//! assert_eq!(store.add(1, 2, 5), Err(sulgheti::Row(23)));
//! let mut file = [0; sulgheti::LIST2_MAX];
//! assert_eq!(store.list(&mut file), Ok(78));
//! assert_eq!(file[..78], list);
//! // Depot 5 has two crews and no site: it is listed too, in the last group, with W 0.
//! list[14 + 5] = 2;
//! let n = sulgheti::make(&list, &mut plan).unwrap();
//! store.load(&list).unwrap();
//! store.propose(&plan[..n]).unwrap();
//! assert_eq!(store.depot(5), Ok((0, 2)));
//! assert_eq!(store.at_least(0), Ok(0b100011));
//! // More than 9 crews are refused. Edition 1 has no rolls.
//! list[14] = 10;
//! assert_eq!(store.load(&list), Err(sulgheti::Row(22)));
//! assert_eq!(sulgheti::downgrade_list(&file[..78], &mut [0; 10]), Err(sulgheti::Row(21)));
//! ```
//!
//! A list and its plan go from one edition to the other, with the same figures in the same order, and back:
//!
//! ```
//! // One site of 10 litres that depots 0 and 1 supply, and its plan.
//! let list = *b"LS\x01\x00ST\x00\x01\x0A\x00";
//! let plan = *b"PL\x01\x01\x00GR\x03\0\0\0\0\0\0\0SH\x0A\0\0\0";
//! let (mut list2, mut plan2) = ([0; sulgheti::LIST2_MAX], [0; sulgheti::PLAN2_MAX]);
//! assert_eq!(sulgheti::upgrade_plan(&list, &plan, &mut list2, &mut plan2), Ok((12, 25)));
//! assert_eq!(list2[..12], *b"L2\x01\x00S2\x00\x01\x0A\x00\x00\x00");
//! assert_eq!(plan2[..25], *b"P2\x01\x01\x00GR\x03\0\0\0\0\0\0\0S3\x0A\0\0\0\0\0\0\0");
//! assert_eq!(sulgheti::check(&list2[..12], &plan2[..25]), Ok(()));
//! let (mut list1, mut plan1) = ([0; 10], [0; 21]);
//! assert_eq!(sulgheti::downgrade_plan(&list2[..12], &plan2[..25], &mut list1, &mut plan1), Ok((10, 21)));
//! assert_eq!((list1, plan1), (list, plan));
//! // Each way takes one edition only, and a plan only if it passes; edition 1 has litres up to 65,535.
//! assert_eq!(sulgheti::upgrade_list(&list2[..12], &mut [0; 12]), Err(sulgheti::Row(1)));
//! assert_eq!(sulgheti::downgrade_plan(&list2[..12], &plan, &mut list1, &mut plan1), Err(sulgheti::Row(7)));
//! assert_eq!(sulgheti::downgrade_list(&list2[..12], &mut [0; 9]), Err(sulgheti::Row(20)));
//! list2[10] = 1;
//! assert_eq!(sulgheti::downgrade_list(&list2[..12], &mut list1), Err(sulgheti::Row(21)));
//! ```
//!
//! A busy store goes over to edition 2 with its list and its plan by [`Store::migrate`].

use std::fmt;

/// The longest list of edition 1 in bytes: 512 sites. A buffer of this length is never too short for the list that a
/// [`Store`] holds.
pub const LIST_MAX: usize = 4 + 6 * 512;

/// The longest plan of edition 1 in bytes: 64 groups and 512 sites. A buffer of this length is never too short for a
/// plan of edition 1, nor for a list of it.
pub const PLAN_MAX: usize = 5 + 10 * 64 + 6 * 512;

/// The longest list of edition 2 in bytes: 512 sites and a roll. A buffer of this length is never too short for the list
/// that a [`Store2`] holds, nor for one of edition 1.
pub const LIST2_MAX: usize = 4 + 8 * 512 + 66;

/// The longest plan of edition 2 in bytes. A buffer of this length is never too short for a plan or a list of either
/// edition.
pub const PLAN2_MAX: usize = 5 + 10 * 64 + 10 * 512;

/// The bytes of a store of edition 1.
pub const STORE_BYTES: usize = 24 + 8 * 64 + 4 * 512;

/// The bytes of a place of edition 1's table.
pub const PLACE_BYTES: usize = 4;

/// The bytes of a store of edition 2: the library's own and no file format; a later version may have more.
pub const STORE2_BYTES: usize = 24 + 8 * 64 + 8 * 512 + 8 + 64;

/// The bytes of a place of edition 2's table.
pub const PLACE2_BYTES: usize = 6;

/// The functions and codes of the archive, as `include/sulgheti.h` has them.
pub mod ffi {
    /// Row 0, which with a minus sign would be 0.
    pub const CORRUPT: i64 = -256;

    /// No row: the store's length is neither [`STORE_BYTES`](crate::STORE_BYTES) nor
    /// [`STORE2_BYTES`](crate::STORE2_BYTES), or for fresh, change, add and migrate that of the other edition.
    pub const NO_STORE: i64 = -257;

    extern "C" {
        pub fn sulgheti_check(list: *const u8, list_len: usize, plan: *const u8, plan_len: usize) -> i64;
        pub fn sulgheti_make(list: *const u8, list_len: usize, out: *mut u8, out_len: usize) -> i64;
        pub fn sulgheti_upgrade_list(list: *const u8, list_len: usize, out: *mut u8, out_len: usize) -> i64;
        pub fn sulgheti_downgrade_list(list: *const u8, list_len: usize, out: *mut u8, out_len: usize) -> i64;
        pub fn sulgheti_upgrade_plan(
            list: *const u8,
            list_len: usize,
            plan: *const u8,
            plan_len: usize,
            list_out: *mut u8,
            list_out_len: usize,
            plan_out: *mut u8,
            plan_out_len: usize,
            plan_written: *mut usize,
        ) -> i64;
        pub fn sulgheti_downgrade_plan(
            list: *const u8,
            list_len: usize,
            plan: *const u8,
            plan_len: usize,
            list_out: *mut u8,
            list_out_len: usize,
            plan_out: *mut u8,
            plan_out_len: usize,
            plan_written: *mut usize,
        ) -> i64;
        pub fn sulgheti_fresh(store: *mut u8, store_len: usize) -> i64;
        pub fn sulgheti_fresh2(store: *mut u8, store_len: usize) -> i64;
        pub fn sulgheti_load(
            store: *mut u8,
            store_len: usize,
            table: *mut u8,
            table_len: usize,
            list: *const u8,
            list_len: usize,
        ) -> i64;
        pub fn sulgheti_change(
            store: *mut u8,
            store_len: usize,
            table: *mut u8,
            table_len: usize,
            site: usize,
            litres: u16,
        ) -> i64;
        pub fn sulgheti_change2(
            store: *mut u8,
            store_len: usize,
            table: *mut u8,
            table_len: usize,
            site: usize,
            litres: u32,
        ) -> i64;
        pub fn sulgheti_add(
            store: *mut u8,
            store_len: usize,
            table: *mut u8,
            table_len: usize,
            first: u8,
            second: u8,
            litres: u16,
        ) -> i64;
        pub fn sulgheti_add2(
            store: *mut u8,
            store_len: usize,
            table: *mut u8,
            table_len: usize,
            first: u8,
            second: u8,
            litres: u32,
        ) -> i64;
        pub fn sulgheti_propose(
            store: *mut u8,
            store_len: usize,
            table: *const u8,
            table_len: usize,
            plan: *const u8,
            plan_len: usize,
        ) -> i64;
        pub fn sulgheti_share(
            store: *const u8,
            store_len: usize,
            table: *const u8,
            table_len: usize,
            site: usize,
            share: *mut u64,
            whole: *mut u64,
        ) -> i64;
        pub fn sulgheti_depot(
            store: *const u8,
            store_len: usize,
            table: *const u8,
            table_len: usize,
            depot: u8,
            litres: *mut u64,
            size: *mut u64,
        ) -> i64;
        pub fn sulgheti_difference(
            store: *const u8,
            store_len: usize,
            table: *const u8,
            table_len: usize,
            a: u8,
            b: u8,
            difference: *mut i64,
            divisor: *mut u64,
        ) -> i64;
        pub fn sulgheti_written(
            store: *const u8,
            store_len: usize,
            table: *const u8,
            table_len: usize,
            buffer: *mut u8,
            buffer_len: usize,
        ) -> i64;
        pub fn sulgheti_at_least(
            store: *const u8,
            store_len: usize,
            table: *const u8,
            table_len: usize,
            litres: u32,
            depots: *mut u64,
        ) -> i64;
        pub fn sulgheti_list(
            store: *const u8,
            store_len: usize,
            table: *const u8,
            table_len: usize,
            buffer: *mut u8,
            buffer_len: usize,
        ) -> i64;
        pub fn sulgheti_migrate(
            store: *const u8,
            store_len: usize,
            table: *const u8,
            table_len: usize,
            store2: *mut u8,
            store2_len: usize,
            table2: *mut u8,
            table2_len: usize,
        ) -> i64;
    }
}

/// Whether the plan is true of the list, both in edition 1 or both in edition 2. Refused by rows 1 to 16, and between rows
/// 6 and 7 by rows 22 and 23 of a roll.
pub fn check(list: &[u8], plan: &[u8]) -> Result<(), Row> {
    // SAFETY: both slices are valid for their lengths, and the function writes nothing.
    let answer = unsafe { ffi::sulgheti_check(list.as_ptr(), list.len(), plan.as_ptr(), plan.len()) };
    taken(answer).map(|_| ())
}

/// Writes a plan that passes, in the list's edition, to the front of `out` and answers its length; the bytes behind it
/// are unchanged. Refused by rows 1 to 6, 22, 23 and 20, and then all of `out` is unchanged.
pub fn make(list: &[u8], out: &mut [u8]) -> Result<usize, Row> {
    // SAFETY: both slices are valid for their lengths, and `out` overlaps nothing.
    let answer = unsafe { ffi::sulgheti_make(list.as_ptr(), list.len(), out.as_mut_ptr(), out.len()) };
    taken(answer)
}

/// Writes a list of edition 1 in edition 2, with the same sites in the same order, to the front of `out` and answers its
/// length; the bytes behind it are unchanged. Refused by rows 1 to 6 and 20, a list of edition 2 by row 1, and then all
/// of `out` is unchanged.
///
/// ```
/// let mut out = [0xA5; 13];
/// assert_eq!(sulgheti::upgrade_list(b"LS\x01\x00ST\x00\x01\xFF\xFF", &mut out), Ok(12));
/// assert_eq!(out, *b"L2\x01\x00S2\x00\x01\xFF\xFF\x00\x00\xA5");
/// ```
pub fn upgrade_list(list: &[u8], out: &mut [u8]) -> Result<usize, Row> {
    // SAFETY: both slices are valid for their lengths, and `out` overlaps nothing.
    taken(unsafe { ffi::sulgheti_upgrade_list(list.as_ptr(), list.len(), out.as_mut_ptr(), out.len()) })
}

/// Writes a list of edition 2 in edition 1, as [`upgrade_list`] does the other way. Refused by rows 1 to 6, 22, 23, 21 and
/// 20: by row 1 a list of edition 1, by row 21 litres that edition 1 does not have, and a roll.
///
/// ```
/// let mut out = [0xA5; 11];
/// assert_eq!(sulgheti::downgrade_list(b"L2\x01\x00S2\x00\x01\x00\x00\x01\x00", &mut out), Err(sulgheti::Row(21)));
/// assert_eq!(out, [0xA5; 11]);
/// assert_eq!(sulgheti::downgrade_list(b"L2\x01\x00S2\x00\x01\xFF\xFF\x00\x00", &mut out), Ok(10));
/// assert_eq!(out, *b"LS\x01\x00ST\x00\x01\xFF\xFF\xA5");
/// ```
pub fn downgrade_list(list: &[u8], out: &mut [u8]) -> Result<usize, Row> {
    // SAFETY: both slices are valid for their lengths, and `out` overlaps nothing.
    taken(unsafe { ffi::sulgheti_downgrade_list(list.as_ptr(), list.len(), out.as_mut_ptr(), out.len()) })
}

/// Writes a list of edition 1 and a plan that is true of it in edition 2, with the same sites, groups and shares in the
/// same order, to the fronts of `list_out` and `plan_out` and answers both lengths, the list's first; the plan passes with
/// the list there too. The bytes behind them are unchanged. Refused by rows 1 to 16, what is of edition 2 by row 1 or 7,
/// and by row 20 where either buffer is too short, and then all of both is unchanged.
///
/// ```
/// let list = b"LS\x01\x00ST\x00\x01\x0A\x00";
/// let plan = b"PL\x01\x01\x00GR\x03\0\0\0\0\0\0\0SH\x0A\0\0\0";
/// let (mut list2, mut plan2) = ([0; 12], [0; 25]);
/// assert_eq!(sulgheti::upgrade_plan(list, plan, &mut list2, &mut plan2[..24]), Err(sulgheti::Row(20)));
/// assert_eq!(list2, [0; 12]);
/// assert_eq!(sulgheti::upgrade_plan(list, plan, &mut list2, &mut plan2), Ok((12, 25)));
/// assert_eq!(sulgheti::check(&list2, &plan2), Ok(()));
/// ```
pub fn upgrade_plan(list: &[u8], plan: &[u8], list_out: &mut [u8], plan_out: &mut [u8]) -> Result<(usize, usize), Row> {
    with_plan(ffi::sulgheti_upgrade_plan, list, plan, list_out, plan_out)
}

/// Writes a list of edition 2 and a plan that is true of it in edition 1, as [`upgrade_plan`] does the other way. Refused
/// by rows 1 to 16, 22, 23 and 20, what is of edition 1 by row 1 or 7; and by row 21, before the plan is read, where a
/// site's litres are outside 1 to 65,535 or the list has a roll.
///
/// ```
/// let list2 = b"L2\x01\x00S2\x00\x01\x0A\x00\x00\x00";
/// let plan2 = b"P2\x01\x01\x00GR\x03\0\0\0\0\0\0\0S3\x0A\0\0\0\0\0\0\0";
/// let (mut list, mut plan) = ([0; 10], [0; 21]);
/// assert_eq!(sulgheti::downgrade_plan(list2, plan2, &mut list, &mut plan), Ok((10, 21)));
/// assert_eq!(sulgheti::check(&list, &plan), Ok(()));
/// ```
pub fn downgrade_plan(
    list: &[u8],
    plan: &[u8],
    list_out: &mut [u8],
    plan_out: &mut [u8],
) -> Result<(usize, usize), Row> {
    with_plan(ffi::sulgheti_downgrade_plan, list, plan, list_out, plan_out)
}

type WithPlan =
    unsafe extern "C" fn(*const u8, usize, *const u8, usize, *mut u8, usize, *mut u8, usize, *mut usize) -> i64;

/// A list and its plan converted by one of the two functions for them.
fn with_plan(
    convert: WithPlan,
    list: &[u8],
    plan: &[u8],
    list_out: &mut [u8],
    plan_out: &mut [u8],
) -> Result<(usize, usize), Row> {
    let (n, m, list_room, plan_room) = (list.len(), plan.len(), list_out.len(), plan_out.len());
    let (list_out, plan_out) = (list_out.as_mut_ptr(), plan_out.as_mut_ptr());
    let mut written = 0;
    // SAFETY: all slices are valid for their lengths, and what is written overlaps nothing.
    let answer =
        unsafe { convert(list.as_ptr(), n, plan.as_ptr(), m, list_out, list_room, plan_out, plan_room, &mut written) };
    taken(answer).map(|length| (length, written))
}

mod sealed {
    pub trait Sealed {}
    impl Sealed for super::Edition1 {}
    impl Sealed for super::Edition2 {}
}

type Fresh = unsafe extern "C" fn(*mut u8, usize) -> i64;
type Change<Litres> = unsafe extern "C" fn(*mut u8, usize, *mut u8, usize, usize, Litres) -> i64;
type Add<Litres> = unsafe extern "C" fn(*mut u8, usize, *mut u8, usize, u8, u8, Litres) -> i64;

/// An edition of lists, plans and stores: [`Edition1`] or [`Edition2`], and no other.
pub trait Edition: sealed::Sealed + Copy + Eq + fmt::Debug {
    /// Litres as a change and an added site name them.
    type Litres;
    /// The bytes of a store, an array of bytes.
    type Bytes: Copy + Eq + fmt::Debug + AsRef<[u8]> + AsMut<[u8]>;
    /// The bytes of a place of the table.
    const PLACE_BYTES: usize;
    #[doc(hidden)]
    const ZERO: Self::Bytes;
    #[doc(hidden)]
    const FRESH: Fresh;
    #[doc(hidden)]
    const CHANGE: Change<Self::Litres>;
    #[doc(hidden)]
    const ADD: Add<Self::Litres>;
}

/// Litres of 16 bits, shares of 32.
#[derive(Clone, Copy, Debug, PartialEq, Eq)]
pub enum Edition1 {}

impl Edition for Edition1 {
    type Litres = u16;
    type Bytes = [u8; STORE_BYTES];
    const PLACE_BYTES: usize = PLACE_BYTES;
    const ZERO: Self::Bytes = [0; STORE_BYTES];
    const FRESH: Fresh = ffi::sulgheti_fresh;
    const CHANGE: Change<u16> = ffi::sulgheti_change;
    const ADD: Add<u16> = ffi::sulgheti_add;
}

/// Litres of 32 bits, shares of 64.
#[derive(Clone, Copy, Debug, PartialEq, Eq)]
pub enum Edition2 {}

impl Edition for Edition2 {
    type Litres = u32;
    type Bytes = [u8; STORE2_BYTES];
    const PLACE_BYTES: usize = PLACE2_BYTES;
    const ZERO: Self::Bytes = [0; STORE2_BYTES];
    const FRESH: Fresh = ffi::sulgheti_fresh2;
    const CHANGE: Change<u32> = ffi::sulgheti_change2;
    const ADD: Add<u32> = ffi::sulgheti_add2;
}

/// A store of edition 1: litres come as `u16`, and its bytes are `[u8; STORE_BYTES]`.
pub type Store = StoreOf<Edition1>;

/// A store of edition 2: litres come as `u32`, and its bytes are `[u8; STORE2_BYTES]`.
pub type Store2 = StoreOf<Edition2>;

/// The same type as [`Store`].
pub type Desk = Store;

/// A store of an edition and a table of places for sites, both in bytes that it owns.
///
/// It takes lists and plans of its own edition only: row 1 refuses another list, row 7 another plan. A refused call
/// changes nothing. Row 0 is answered only by a store made of foreign bytes. Questions, [`written`](StoreOf::written)
/// among them, and [`list`](StoreOf::list) take `&self`: the engine only reads store and table.
#[derive(Clone, Debug, PartialEq, Eq)]
pub struct StoreOf<E: Edition> {
    store: E::Bytes,
    table: Vec<u8>,
}

impl<E: Edition> StoreOf<E> {
    /// An empty store with a table of so many places; more than 512 are of no use.
    pub fn new(places: usize) -> Self {
        let mut store = E::ZERO;
        let bytes = store.as_mut();
        // SAFETY: the store is valid for its length.
        let answer = unsafe { E::FRESH(bytes.as_mut_ptr(), bytes.len()) };
        debug_assert_eq!(answer, 0);
        StoreOf { store, table: vec![0; E::PLACE_BYTES * places] }
    }

    /// A store of bytes that were kept, of any content: every call but a load tries row 0. A slice of another length
    /// is no store of the edition: its `try_into` fails.
    pub fn from_bytes(store: E::Bytes, table: Vec<u8>) -> Self {
        StoreOf { store, table }
    }

    /// The bytes of the store and of the table, as `include/sulgheti.h` lays them out.
    pub fn bytes(&self) -> (&E::Bytes, &[u8]) {
        (&self.store, &self.table)
    }

    /// The pointers and lengths of the store and of the table, to be read.
    fn parts(&self) -> (*const u8, usize, *const u8, usize) {
        let store = self.store.as_ref();
        (store.as_ptr(), store.len(), self.table.as_ptr(), self.table.len())
    }

    /// The same, to be written.
    fn parts_mut(&mut self) -> (*mut u8, usize, *mut u8, usize) {
        let store = self.store.as_mut();
        (store.as_mut_ptr(), store.len(), self.table.as_mut_ptr(), self.table.len())
    }

    /// The list becomes the store's, in edition 2 with its roll or without one, and no plan is held. Refused by rows 1 to 6,
    /// 22 and 23.
    pub fn load(&mut self, list: &[u8]) -> Result<(), Row> {
        let (store, n, table, m) = self.parts_mut();
        // SAFETY: here and below, all parts are valid for their lengths, what is written is borrowed for writing, and it
        // overlaps nothing.
        taken(unsafe { ffi::sulgheti_load(store, n, table, m, list.as_ptr(), list.len()) }).map(|_| ())
    }

    /// A site gets other litres, and no plan is held. Refused by rows 0, 6 and 18.
    pub fn change(&mut self, site: usize, litres: E::Litres) -> Result<(), Row> {
        let (store, n, table, m) = self.parts_mut();
        // SAFETY: as above.
        taken(unsafe { E::CHANGE(store, n, table, m, site, litres) }).map(|_| ())
    }

    /// A site joins the end, and no plan is held. Refused by rows 0, 2, 5 and 6, and by row 23 where there is a roll and
    /// the site names a depot without crews.
    pub fn add(&mut self, first: u8, second: u8, litres: E::Litres) -> Result<(), Row> {
        let (store, n, table, m) = self.parts_mut();
        // SAFETY: as above.
        taken(unsafe { E::ADD(store, n, table, m, first, second, litres) }).map(|_| ())
    }

    /// A plan that is true of the list held becomes the plan held. Refused by rows 0 and 7 to 16.
    pub fn propose(&mut self, plan: &[u8]) -> Result<(), Row> {
        let (store, n, table, m) = self.parts_mut();
        // SAFETY: as above.
        taken(unsafe { ffi::sulgheti_propose(store, n, table, m, plan.as_ptr(), plan.len()) }).map(|_| ())
    }

    /// A site's s and w x q. Refused by rows 0, 17 and 18.
    pub fn share(&self, site: usize) -> Result<(u64, u64), Row> {
        let (store, n, table, m) = self.parts();
        let (mut share, mut whole) = (0, 0);
        // SAFETY: as above.
        taken(unsafe { ffi::sulgheti_share(store, n, table, m, site, &mut share, &mut whole) })?;
        Ok((share, whole))
    }

    /// W and q of a depot's group; q is its crews, one for each depot without a roll. Refused by rows 0, 17 and 19.
    pub fn depot(&self, depot: u8) -> Result<(u64, u64), Row> {
        let (store, n, table, m) = self.parts();
        let (mut litres, mut size) = (0, 0);
        // SAFETY: as above.
        taken(unsafe { ffi::sulgheti_depot(store, n, table, m, depot, &mut litres, &mut size) })?;
        Ok((litres, size))
    }

    /// W of a x q of b less W of b x q of a, and the divisor q of a x q of b. Refused by rows 0, 17 and 19.
    pub fn difference(&self, a: u8, b: u8) -> Result<(i64, u64), Row> {
        let (store, n, table, m) = self.parts();
        let (mut difference, mut divisor) = (0, 0);
        // SAFETY: as above.
        taken(unsafe { ffi::sulgheti_difference(store, n, table, m, a, b, &mut difference, &mut divisor) })?;
        Ok((difference, divisor))
    }

    /// The plan held is written to the front of `buffer`; answers its length. Refused by rows 0, 17 and 20.
    pub fn written(&self, buffer: &mut [u8]) -> Result<usize, Row> {
        let (store, n, table, m) = self.parts();
        // SAFETY: as above.
        taken(unsafe { ffi::sulgheti_written(store, n, table, m, buffer.as_mut_ptr(), buffer.len()) })
    }

    /// The listed depots whose W/q, litres per crew, is at least so many litres (W at least litres x q), as a set: bit n
    /// stands for depot n. 0 litres give all listed depots. Refused by rows 0 and 17. On foreign bytes whose groups do not
    /// fall: the depots of the groups before the first below the mark.
    pub fn at_least(&self, litres: u32) -> Result<u64, Row> {
        let (store, n, table, m) = self.parts();
        let mut depots = 0;
        // SAFETY: as above.
        taken(unsafe { ffi::sulgheti_at_least(store, n, table, m, litres, &mut depots) })?;
        Ok(depots)
    }

    /// The list held is written to the front of `buffer`, with its roll if it has one; answers its length. No plan need be
    /// held. Refused by rows 0 and 20.
    ///
    /// ```
    /// let mut store = sulgheti::Store::new(2);
    /// store.add(0, 1, 9).unwrap();
    /// store.add(1, 2, 1).unwrap();
    /// let mut list = [0xA5; 17];
    /// assert_eq!(store.list(&mut list), Ok(16));
    /// assert_eq!(list, *b"LS\x02\x00ST\x00\x01\x09\x00ST\x01\x02\x01\x00\xA5");
    /// assert_eq!(store.list(&mut list[..15]), Err(sulgheti::Row(20)));
    ///
    /// // Another store loads what was written, and holds the same list.
    /// let mut other = sulgheti::Store::new(2);
    /// other.load(&list[..16]).unwrap();
    /// assert_eq!(other, store);
    /// ```
    pub fn list(&self, buffer: &mut [u8]) -> Result<usize, Row> {
        let (store, n, table, m) = self.parts();
        // SAFETY: as above.
        taken(unsafe { ffi::sulgheti_list(store, n, table, m, buffer.as_mut_ptr(), buffer.len()) })
    }
}

impl Store {
    /// The store goes over to edition 2 and a new table of so many places, all zero, and stays as it is itself. The sites,
    /// the plan held and the lack of one carry over, and the new store has no roll: each question to it gets the figures
    /// that it got from this one, and [`list`](StoreOf::list) and [`written`](StoreOf::written) write in edition 2, the same
    /// figures in the longer records: of a store that its own calls alone wrote, what [`upgrade_list`] and [`upgrade_plan`]
    /// make of what they write here. Refused by rows 0 and 2, by row 2 where there are fewer places than sites.
    ///
    /// ```
    /// let mut store = sulgheti::Store::new(2);
    /// store.load(b"LS\x01\x00ST\x00\x01\x0A\x00").unwrap();
    /// store.propose(b"PL\x01\x01\x00GR\x03\0\0\0\0\0\0\0SH\x0A\0\0\0").unwrap();
    /// assert_eq!(store.migrate(0), Err(sulgheti::Row(2)));
    /// let mut store2 = store.migrate(3).unwrap();
    /// assert_eq!(store2.share(0), store.share(0));
    /// assert_eq!(store2.depot(1), Ok((10, 2)));
    /// let mut plan = [0; 25];
    /// assert_eq!(store2.written(&mut plan), Ok(25));
    /// assert_eq!(plan, *b"P2\x01\x01\x00GR\x03\0\0\0\0\0\0\0S3\x0A\0\0\0\0\0\0\0");
    ///
    /// // The new store has litres above 65,535; the old one still has its list and its plan.
    /// store2.change(0, 70_000).unwrap();
    /// assert_eq!(store2.depot(1), Err(sulgheti::Row(17)));
    /// assert_eq!(store.depot(1), Ok((10, 2)));
    /// ```
    pub fn migrate(&self, places: usize) -> Result<Store2, Row> {
        let (mut store2, mut table2) = (Edition2::ZERO, vec![0; PLACE2_BYTES * places]);
        let (store, n, table, m) = self.parts();
        let (new, k) = (store2.as_mut_ptr(), store2.len());
        // SAFETY: all are valid for their lengths, the new ones are borrowed for writing, and they overlap nothing.
        taken(unsafe { ffi::sulgheti_migrate(store, n, table, m, new, k, table2.as_mut_ptr(), table2.len()) })?;
        Ok(Store2 { store: store2, table: table2 })
    }
}

/// An answer taken apart: a figure, or the refusing row below zero.
fn taken(answer: i64) -> Result<usize, Row> {
    match answer {
        0.. => Ok(answer as usize),
        ffi::CORRUPT => Err(Row(0)),
        // never answered here: a store has the length of its edition by its type, and its edition's functions
        ffi::NO_STORE => unreachable!("a store of another length"),
        _ => Err(Row(answer.unsigned_abs() as u8)),
    }
}

/// A refusal: the number of the first row that applies, of the table "What a refusal means" in README.md.
#[derive(Clone, Copy, PartialEq, Eq, PartialOrd, Ord, Hash)]
pub struct Row(pub u8);

/// What each row means and what to do about it, by number, in the words of README.md.
const TEXTS: [(&str, &str); 24] = [
    ("the desk or its table does not hold what a desk can hold", "the memory lent to the desk was overwritten: begin with a fresh desk and load the list again"),
    ("the list has under 4 bytes or does not begin with 4C 53 or, in edition 2, 4C 32; or it is loaded and of the other edition than the desk, or converted and already of the edition asked for", "is this a list at all? give its bytes from the first on; load it into a desk of its own edition; upgrade edition 1, downgrade edition 2"),
    ("the list has more than 512 sites, or more than the desk's table has places; or a site is added and there is no place left; or a desk goes over to a table with fewer places than it has sites", "split the list, or lend a longer table"),
    ("the list's length is not 4 + 6 x sites or, in edition 2, 4 + 8 x sites, and 66 more with a roll", "it was cut off, something follows it, or the count is wrong"),
    ("a site does not begin with 53 54 or, in edition 2, 53 32, or a roll not with 44 52", "a record is damaged or has not 6 bytes (edition 2: 8, a roll 66): write the list again"),
    ("a site names a depot above 63", "number the depots from 0 to 63"),
    ("a site has 0 litres", "leave the site out, or give its litres"),
    ("the plan has under 5 bytes or does not begin with 50 4C or, for a list of edition 2, 50 32", "is this a plan at all, and of the list's edition? give its bytes from the first on"),
    ("the plan has more than 64 groups", "no list has so many: a depot is in one group only"),
    ("the plan's site count is not the list's", "use the plan that belongs to this list"),
    ("the plan's length is not 5 + 10 x groups + 6 x sites or, in edition 2, 5 + 10 x groups + 10 x sites", "it was cut off, something follows it, or a count is wrong"),
    ("a group does not begin with 47 52, or a share not with 53 48 or, in edition 2, 53 33", "a record is damaged: write the plan again"),
    ("a group is empty or meets an earlier one", "put each depot into one group, and leave empty groups out"),
    ("the groups together are not the listed depots", "group every depot that a site names or that has crews in the roll, and no other"),
    ("a share is above w x q, an own site is not whole, or a depot of an earlier group has a share", "give shares in q-ths of a litre, q the crews of the later of the site's two groups, and all of the site to the depot in that group"),
    ("a depot's shares do not add up to its crews times its group's litres", "level the shares within the group, or make the plan anew"),
    ("litres per crew do not fall strictly from group to group", "the groups are wrong: make the plan anew"),
    ("no plan is held", "propose a plan that passes first; a load, a change or an added site drops the plan held"),
    ("the site number is not on the desk", "sites are counted from 0: load or add the site first"),
    ("no site names the depot, and it has no crews in a roll", "ask for a listed depot"),
    ("a buffer is shorter than the plan or the list that is written into it", "lend 5 + 10 x groups + 6 x sites bytes for a plan, 4 + 6 x sites for a list (written in edition 2: 10 and 8 x sites, 66 more with a roll); 3,717 always suffice (edition 2: 5,765)"),
    ("a site's litres are outside 1 to 65,535 or the list has a roll, and the list is to go back to edition 1", "edition 1 has no such litres and no rolls: keep list and plan in edition 2"),
    ("the roll has more than 9 crews for a depot", "give each depot 0 to 9 crews"),
    ("a site names a depot for which the roll has no crew", "give the depot its crews in the roll, or name another"),
];

impl Row {
    /// What the row means.
    pub fn meaning(self) -> &'static str {
        TEXTS.get(usize::from(self.0)).map_or("no row of the table", |text| text.0)
    }

    /// What to do about it.
    pub fn advice(self) -> &'static str {
        TEXTS.get(usize::from(self.0)).map_or("", |text| text.1)
    }
}

impl fmt::Display for Row {
    fn fmt(&self, f: &mut fmt::Formatter<'_>) -> fmt::Result {
        write!(f, "refused {}: {} ({})", self.0, self.meaning(), self.advice())
    }
}

/// The same words, so that an error of `main` or of `unwrap` is told in them.
impl fmt::Debug for Row {
    fn fmt(&self, f: &mut fmt::Formatter<'_>) -> fmt::Result {
        fmt::Display::fmt(self, f)
    }
}

impl std::error::Error for Row {}

#[cfg(test)]
mod tests {
    use super::*;

    #[test]
    fn figures_are_those_of_the_header() {
        let header = include_str!("../../include/sulgheti.h");
        let sizes = [
            ("LIST_MAX", LIST_MAX),
            ("PLAN_MAX", PLAN_MAX),
            ("STORE_BYTES", STORE_BYTES),
            ("PLACE_BYTES", PLACE_BYTES),
            ("LIST2_MAX", LIST2_MAX),
            ("PLAN2_MAX", PLAN2_MAX),
            ("STORE2_BYTES", STORE2_BYTES),
            ("PLACE2_BYTES", PLACE2_BYTES),
        ];
        for (name, bytes) in sizes {
            assert!(header.contains(&format!("\n#define SULGHETI_{name} {bytes}\n")), "{name}");
        }
        for (name, code) in [("CORRUPT", ffi::CORRUPT), ("NO_STORE", ffi::NO_STORE)] {
            assert!(header.contains(&format!("\n#define SULGHETI_{name} ({code})\n")), "{name}");
        }
    }

    #[test]
    fn words_are_those_of_the_readme() {
        let readme = include_str!("../../README.md").replace('×', "x");
        for n in 0..=23 {
            let line = format!("\n| {n} | {} | {} |\n", Row(n).meaning(), Row(n).advice());
            assert!(readme.contains(&line), "{line}");
        }
    }
}
