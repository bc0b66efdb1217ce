use crate::runs;

pub const WAVES: u32 = 48;
const PLACES: usize = 64;
const PENDING: usize = 32;

#[derive(Clone, Copy, PartialEq, Eq, Debug)]
struct Copied {
    address: u32,
    value: u32,
    stamp: u32,
}

/// What a core notes of a request until its answer is delivered.
#[derive(Clone, Copy, PartialEq, Eq, Debug, Default)]
pub struct Pending {
    pub address: u32,
    pub wave: u8,
    /// A store or an atomic.
    pub writes: bool,
}

#[derive(Clone, PartialEq, Eq, Debug)]
pub struct Core {
    copies: [Option<Copied>; PLACES],
    pending: [Pending; PENDING],
    head: usize,
    count: usize,
    visible_by: [u32; WAVES as usize],
    /// One bit for each wave.
    fences: u64,
}

#[inline]
fn place(address: u32) -> usize {
    address as usize % PLACES
}

impl Core {
    pub fn new() -> Self {
        Core {
            copies: [None; PLACES],
            pending: [Pending::default(); PENDING],
            head: 0,
            count: 0,
            visible_by: [0; WAVES as usize],
            fences: 0,
        }
    }

    /// Oldest first.
    #[inline]
    fn pending(&self) -> impl Iterator<Item = &Pending> {
        (0..self.count).map(|i| &self.pending[(self.head + i) % PENDING])
    }

    #[inline]
    pub fn pending_full(&self) -> bool {
        self.count == PENDING
    }

    #[inline]
    pub fn has_pending(&self) -> bool {
        self.count > 0
    }

    /// There must be room.
    #[inline]
    pub fn note(&mut self, p: Pending) {
        debug_assert!(!self.pending_full());
        self.pending[(self.head + self.count) % PENDING] = p;
        self.count += 1;
    }

    #[inline]
    pub fn take_pending(&mut self) -> Option<Pending> {
        if self.count == 0 {
            return None;
        }
        let p = self.pending[self.head];
        self.head = (self.head + 1) % PENDING;
        self.count -= 1;
        Some(p)
    }

    /// The value of a running copy, if no request on the address is pending.
    #[inline]
    pub fn hit(&self, address: u32, clock: u32) -> Option<u32> {
        let copy = self.copies[place(address)]?;
        if copy.address != address || !runs(copy.stamp, clock) {
            return None;
        }
        if self.pending().any(|p| p.address == address) {
            return None;
        }
        Some(copy.value)
    }

    /// Drops the copy of an address and says whether there was one.
    #[inline]
    pub fn drop_copy(&mut self, address: u32) -> bool {
        let slot = &mut self.copies[place(address)];
        let there = slot.is_some_and(|c| c.address == address);
        if there {
            *slot = None;
        }
        there
    }

    /// A delivered load leaves a copy if its stamp runs and no write is pending.
    #[inline]
    pub fn fill(&mut self, address: u32, value: u32, stamp: u32, clock: u32) {
        if runs(stamp, clock) && !self.pending().any(|p| p.writes && p.address == address) {
            self.copies[place(address)] = Some(Copied { address, value, stamp });
        }
    }

    #[inline]
    pub fn raise_visible_by(&mut self, wave: u8, stamp: u32) {
        let v = &mut self.visible_by[wave as usize];
        *v = (*v).max(stamp);
    }

    #[inline]
    pub fn fence_open(&self, wave: u32) -> bool {
        self.fences >> wave & 1 != 0
    }

    pub fn set_fence(&mut self, wave: u32) {
        self.fences |= 1 << wave;
    }

    pub fn clear_fence(&mut self, wave: u32) {
        self.fences &= !(1 << wave);
    }

    /// No pending store or atomic of the wave, and its visible-by stamp is over.
    pub fn fence_over(&self, wave: u32, clock: u32) -> bool {
        !runs(self.visible_by[wave as usize], clock)
            && !self.pending().any(|p| p.writes && p.wave as u32 == wave)
    }
}
