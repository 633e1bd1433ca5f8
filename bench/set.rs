//! A set of names, as one would write it who had times in mind.

const SLOTS: usize = 32_768;

/// A set of parts of one byte string: open addressing over a fixed array, at least twice as many slots as names can be, the FNV-1a hash.
pub struct Set<'a> {
    bytes: &'a [u8],
    slots: &'static mut [(u32, u32)],
}

/// Where the names stand (offset and length); a set of the standard library would have this from the heap.
static mut ROOM: [(u32, u32); SLOTS] = [(0, 0); SLOTS];

impl<'a> Set<'a> {
    #[allow(unused_unsafe)] // an older compiler asks for it where the place of ROOM is taken
    pub fn new(bytes: &'a [u8], count: usize) -> Self {
        // a name takes four bytes at least with its secret, so there are fewer than 16,384
        let slots = (2 * count).next_power_of_two().clamp(2, SLOTS);
        let room = unsafe { core::ptr::addr_of_mut!(ROOM) } as *mut (u32, u32);
        let slots = unsafe { core::slice::from_raw_parts_mut(room, slots) };
        slots.fill((0, 0));
        Set { bytes, slots }
    }

    /// Whether the name is new.
    pub fn insert(&mut self, name: &[u8]) -> bool {
        let mut hash: u64 = 0xcbf2_9ce4_8422_2325;
        for byte in name {
            hash = (hash ^ u64::from(*byte)).wrapping_mul(0x100_0000_01b3);
        }
        let mask = self.slots.len() - 1;
        let mut slot = (hash ^ hash >> 32) as usize & mask;
        let at = name.as_ptr() as usize - self.bytes.as_ptr() as usize;
        loop {
            let (start, length) = self.slots[slot];
            if length == 0 {
                self.slots[slot] = (at as u32, name.len() as u32);
                return true;
            }
            if &self.bytes[start as usize..start as usize + length as usize] == name {
                return false;
            }
            slot = (slot + 1) & mask;
        }
    }
}
