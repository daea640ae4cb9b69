//! The memory that a store lives in, owned or borrowed.

use crate::{Refused, PLACES, PLACE_BYTES};
use zilgwern_sys::{Head, Table, ROW_WORDS};

pub use zilgwern_sys::Row;

pub(crate) const LEVELS: usize = 4;
pub(crate) const TABLE_BYTES: usize = size_of::<Table>();
const _: () = assert!(TABLE_BYTES == PLACE_BYTES);
pub(crate) const HEAD_BYTES: usize = size_of::<Head>();

/// The five pieces of a store's memory, borrowed. Sizes and contents may be any: what is wrong is refused.
pub struct Pieces<'a> {
    /// P places of 1,024 bytes.
    pub area: &'a mut [u8],
    /// P rows.
    pub cards: &'a mut [Row],
    /// Four lists of P items.
    pub lists: &'a mut [u16],
    /// Threshold, cursor, two marks, four lengths.
    pub head: &'a mut Head,
    /// The memory table.
    pub memory: &'a mut Table,
}

/// The five pieces, owned.
///
/// ```
/// use zilgwern::{Memory, Store};
///
/// let mut memory = Memory::zeroed(16);
/// let mut store = Store::make(memory.lend(), 1)?;
/// store.put(7, b"kept")?;
/// drop(store);
/// // The store is the memory, so it can be opened again.
/// let mut store = Store::open(memory.lend())?;
/// assert!(store.look_up(7)?.is_some());
/// # Ok::<(), zilgwern::Error>(())
/// ```
#[derive(Clone, PartialEq, Eq, Debug)]
pub struct Memory {
    /// P places of 1,024 bytes.
    pub area: Vec<u8>,
    /// P rows.
    pub cards: Vec<Row>,
    /// Four lists of P items.
    pub lists: Vec<u16>,
    /// Threshold, cursor, two marks, four lengths.
    pub head: Head,
    /// The memory table.
    pub memory: Table,
}

impl Memory {
    /// Memory for so many places, all zero. This is not a store yet.
    ///
    /// # Panics
    ///
    /// Where the machine has no such memory; a store has at most 4,096 places.
    pub fn zeroed(places: usize) -> Memory {
        let each = |size: usize| places.checked_mul(size).expect("no machine has so much memory");
        Memory {
            area: vec![0; each(TABLE_BYTES)],
            cards: vec![[0; ROW_WORDS]; places],
            lists: vec![0; each(LEVELS)],
            head: [0; 10],
            memory: [0; 1024],
        }
    }

    /// As `zeroed`, but refused by 1 where no store has so many places.
    pub(crate) fn for_store(places: usize) -> Result<Memory, Refused> {
        PLACES.contains(&places).then(|| Memory::zeroed(places)).ok_or(Refused::Sizes)
    }

    /// The pieces for a store to borrow.
    pub fn lend(&mut self) -> Pieces<'_> {
        Pieces {
            area: &mut self.area,
            cards: &mut self.cards,
            lists: &mut self.lists,
            head: &mut self.head,
            memory: &mut self.memory,
        }
    }
}

impl Pieces<'_> {
    fn raw(&mut self) -> zilgwern_sys::Pieces {
        zilgwern_sys::Pieces {
            area: self.area,
            cards: self.cards,
            lists: self.lists,
            head: self.head,
            memory: self.memory,
        }
    }
}

/// Either of the two, for a store.
pub(crate) enum Held<'a> {
    Owned(Box<Memory>),
    Borrowed(Pieces<'a>),
}

impl Held<'_> {
    pub(crate) fn area(&self) -> &[u8] {
        match self {
            Held::Owned(memory) => &memory.area,
            Held::Borrowed(pieces) => pieces.area,
        }
    }

    pub(crate) fn copy(&self) -> Memory {
        match self {
            Held::Owned(memory) => Memory::clone(memory),
            Held::Borrowed(pieces) => Memory {
                area: pieces.area.to_vec(),
                cards: pieces.cards.to_vec(),
                lists: pieces.lists.to_vec(),
                head: *pieces.head,
                memory: *pieces.memory,
            },
        }
    }

    /// Pointers to distinct pieces, good while this is borrowed.
    pub(crate) fn raw(&mut self) -> zilgwern_sys::Pieces {
        match self {
            Held::Owned(memory) => memory.lend().raw(),
            Held::Borrowed(pieces) => pieces.raw(),
        }
    }
}
