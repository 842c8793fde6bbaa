//! Building the dwarf tree of a sheet.

use crate::call::call;
use crate::{refusal, Kind, Refusal, Sheets};
#[cfg(feature = "alloc")]
use alloc::vec::Vec;

/// No dwarf tree has more nodes than this, three times 1024 leaves, less 3: room for so many entries is enough for any sheet.
///
/// ```
/// let mut labels = [0; kressedach::MOST_NODES];
/// let mut lists = kressedach::RunLists { roots: &mut [], counts: &mut [], labels: &mut labels };
/// assert_eq!(kressedach::run_into(b"\x01\0\x02\0\x01\x02\0\x01A\x03\0\x02\0\0", &[], &mut lists), Ok(1));
/// ```
pub const MOST_NODES: usize = 3069;

/// What stands in a node where there is no number.
///
/// ```
/// let leaf = kressedach::build(b"\x01\0\x02\0\x01\x02\0\x01A\x03\0\x02\0\0")?.nodes[0];
/// assert_eq!(leaf.second, kressedach::NONE);
/// # Ok::<(), kressedach::Refusal>(())
/// ```
pub const NONE: u16 = 65535;

/// How large a dwarf tree is.
///
/// ```
/// let sheet = b"\x01\0\x02\0\x01\x02\0\x01A\x03\0\x06\0\0\0\0\xFF\xF0"; // A union A
/// assert_eq!(kressedach::build(sheet)?.size, kressedach::Size { leaves: 2, nodes: 3, rounds: 1, height: 1 });
/// # Ok::<(), kressedach::Refusal>(())
/// ```
#[derive(Debug, Clone, Copy, PartialEq, Eq, Hash)]
pub struct Size {
    /// The formula's leaves, which are the first dwarf nodes.
    pub leaves: usize,
    /// All dwarf nodes.
    pub nodes: usize,
    /// The rounds of contraction.
    pub rounds: usize,
    /// The longest path in steps.
    pub height: usize,
}

/// A dwarf node. What has no number is [`NONE`].
///
/// | kind | first | second |
/// |---|---|---|
/// | [`Leaf`](Kind::Leaf) | shape | |
/// | [`E`](Kind::E) | left | right |
/// | [`R`](Kind::R) | raked | |
/// | [`S`](Kind::S) | pair node | value node |
/// | [`C`](Kind::C) | upper | lower |
///
/// ```
/// use kressedach::{build, Kind, Node, NONE};
/// let sheet = b"\x01\0\x02\0\x01\x02\0\x01A\x03\0\x02\0\0";
/// assert_eq!(build(sheet)?.nodes, [Node { kind: Kind::Leaf, first: 0, second: NONE }]);
/// # Ok::<(), kressedach::Refusal>(())
/// ```
#[derive(Debug, Clone, Copy, PartialEq, Eq, Hash)]
pub struct Node {
    /// What kind of node it is.
    pub kind: Kind,
    /// Its first number.
    pub first: u16,
    /// Its second number.
    pub second: u16,
}

/// A dwarf tree.
///
/// ```
/// let sheet = b"\x01\0\x02\0\x01\x02\0\x01A\x03\0\x06\0\0\0\0\xFF\xF0"; // A union A
/// let dwarf = kressedach::build(sheet)?;
/// assert_eq!((dwarf.size.nodes, dwarf.nodes.len()), (3, 3));
/// # Ok::<(), kressedach::Refusal>(())
/// ```
#[cfg(feature = "alloc")]
#[derive(Debug, Clone, PartialEq, Eq, Hash)]
pub struct Dwarf {
    /// How large it is.
    pub size: Size,
    /// Its nodes; each stands after those it refers to, and the root is last.
    pub nodes: Vec<Node>,
}

/// Builds the dwarf tree of a sheet.
///
/// ```
/// use kressedach::{Kind, Node, Operation, Side, NONE};
/// let sheet = b"\x01\0\x02\0\x01\x02\0\x01A\x02\0\x01B\x02\0\x01C\x03\0\x0A\0\0\0\x01\0\x02\xFF\xF0\xFF\xF2";
/// let dwarf = kressedach::build(sheet)?;
/// assert_eq!((dwarf.size.leaves, dwarf.size.nodes, dwarf.size.rounds, dwarf.size.height), (3, 6, 2, 2));
/// assert_eq!(dwarf.nodes[3], Node { kind: Kind::E(Operation::Union), first: 1, second: 2 });
/// assert_eq!(dwarf.nodes[4], Node { kind: Kind::R(Operation::Difference, Side::Left), first: 0, second: NONE });
/// assert_eq!(dwarf.nodes[5], Node { kind: Kind::S, first: 4, second: 3 });
/// # Ok::<(), kressedach::Refusal>(())
/// ```
///
/// # Errors
///
/// 1 to 7 and 17 as [`read`](crate::read()), then 8.
#[cfg(feature = "alloc")]
pub fn build<'a>(sheets: impl Into<Sheets<'a>>) -> Result<Dwarf, Refusal> {
    let [mut kinds, mut firsts, mut seconds] = [[0; MOST_NODES]; 3];
    let size = build_into(sheets, &mut NodeLists { kinds: &mut kinds, firsts: &mut firsts, seconds: &mut seconds })?;
    let records = kinds.into_iter().zip(firsts).zip(seconds);
    let nodes = records.map(|((kind, first), second)| Node { kind: Kind::given(kind), first, second });
    Ok(Dwarf { size, nodes: nodes.take(size.nodes).collect() })
}

/// Three lists that a dwarf tree is written to, an entry a node in each.
///
/// ```
/// use kressedach::{build_into, Kind, NodeLists};
/// let (mut kinds, mut firsts, mut seconds) = ([9; 1], [9; 1], [9; 1]);
/// let mut lists = NodeLists { kinds: &mut kinds, firsts: &mut firsts, seconds: &mut seconds };
/// build_into(b"\x01\0\x02\0\x01\x02\0\x01A\x03\0\x02\0\0", &mut lists)?;
/// assert_eq!(Kind::of_number(kinds[0]), Some(Kind::Leaf));
/// # Ok::<(), kressedach::Refusal>(())
/// ```
#[derive(Debug)]
pub struct NodeLists<'a> {
    /// The number of its kind: [`Kind::of_number`] has the kind.
    pub kinds: &'a mut [u16],
    /// Its first number; or [`NONE`].
    pub firsts: &'a mut [u16],
    /// Its second number; or [`NONE`].
    pub seconds: &'a mut [u16],
}

/// Builds the dwarf tree of a sheet into three lists, with an entry a node.
///
/// [`MOST_NODES`] entries are enough for any sheet.
///
/// ```
/// use kressedach::{build_into, NodeLists};
/// let sheet = b"\x01\0\x02\0\x01\x02\0\x01A\x03\0\x06\0\0\0\0\xFF\xF3"; // A exclusive A
/// let [mut kinds, mut firsts, mut seconds] = [[9; 4]; 3];
/// let size = build_into(sheet, &mut NodeLists { kinds: &mut kinds, firsts: &mut firsts, seconds: &mut seconds })?;
/// assert_eq!(size.nodes, 3);
/// assert_eq!((kinds, firsts, seconds), ([0, 0, 4, 9], [0, 0, 0, 9], [65535, 65535, 1, 9]));
///
/// let mut short = NodeLists { kinds: &mut kinds, firsts: &mut firsts[..2], seconds: &mut seconds };
/// let refusal = build_into(sheet, &mut short).unwrap_err();
/// assert_eq!(refusal.to_string(), "refused 9 for want of 3 entries: an answer list is too short");
/// # Ok::<(), kressedach::Refusal>(())
/// ```
///
/// # Errors
///
/// 1 to 7 and 17 as [`read`](crate::read()), 8, then 9 for the lists in their order.
#[inline]
pub fn build_into<'a>(sheets: impl Into<Sheets<'a>>, lists: &mut NodeLists) -> Result<Size, Refusal> {
    let r = call!(kressedach_build: sheets sheets.into(), writes lists.kinds, writes lists.firsts, writes lists.seconds);
    refusal::unless(r.number, r.sheet, r.place, Size { leaves: r.leaves, nodes: r.nodes, rounds: r.rounds, height: r.height })
}
