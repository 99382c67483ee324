//! Queues as rings of slots in a unit's part of the lent cell store.

use crate::codec::BusCell;

/// Bytes of a slot: a bus frame before its parity.
const SLOT_BYTES: usize = 56;

/// Place of the oldest cell and number of cells; anybody may have spoiled both.
#[derive(Clone, Copy, Debug, PartialEq, Eq)]
pub struct Ring {
    pub head: u8,
    pub count: u8,
}

/// The slots that a queue has.
#[derive(Clone, Copy, Debug, PartialEq, Eq)]
pub struct Slots {
    pub first: u8,
    pub capacity: u8,
}

/// The cell in a slot of a unit's part of the store.
pub fn read_slot(part: &[u8], slot: u8) -> BusCell {
    let start = SLOT_BYTES * usize::from(slot);
    let mut cell = [0; SLOT_BYTES];
    cell.copy_from_slice(&part[start..start + SLOT_BYTES]);
    cell
}

pub fn write_slot(part: &mut [u8], slot: u8, cell: &BusCell) {
    let start = SLOT_BYTES * usize::from(slot);
    part[start..start + SLOT_BYTES].copy_from_slice(cell);
}

impl Ring {
    /// Whether neither position nor count is past the capacity; without slots both are 0.
    pub fn fits(self, capacity: u8) -> bool {
        (self.head < capacity.max(1)) & (self.count <= capacity)
    }

    /// Puts a cell behind the youngest.
    pub fn push(&mut self, slots: Slots, part: &mut [u8], cell: &BusCell) {
        write_slot(part, slots.slot(self.head + self.count), cell);
        self.count += 1;
    }

    /// The oldest cell leaves; its slot keeps the bytes.
    pub fn pop(&mut self, slots: Slots, part: &[u8]) -> BusCell {
        let cell = read_slot(part, slots.slot(self.head));
        self.head = slots.wrapped(self.head + 1);
        self.count -= 1;
        cell
    }
}

impl Slots {
    /// The slot of a place of the ring.
    fn slot(self, place: u8) -> u8 {
        self.first + self.wrapped(place)
    }

    fn wrapped(self, place: u8) -> u8 {
        match place < self.capacity {
            true => place,
            false => place - self.capacity,
        }
    }
}
