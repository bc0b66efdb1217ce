use crate::Refusal;

/// Lanes of a net, one for each core.
pub const LANES: usize = 16;

/// A lane net: 16 rings of one depth in one row.
#[derive(Clone, PartialEq, Eq, Debug)]
pub struct Net<T> {
    row: Box<[T]>,
    depth: u32,
    head: [u32; LANES],
    count: [u32; LANES],
}

impl<T: Copy + Default> Net<T> {
    /// An empty net. The depth is at most 64.
    pub fn new(depth: usize) -> Self {
        assert!(depth <= 64, "a net is at most 64 deep");
        Net {
            row: vec![T::default(); depth * LANES].into_boxed_slice(),
            depth: depth as u32,
            head: [0; LANES],
            count: [0; LANES],
        }
    }

    pub fn depth(&self) -> usize {
        self.depth as usize
    }

    #[inline]
    pub fn count(&self, lane: usize) -> usize {
        self.count.get(lane).map_or(0, |&n| n as usize)
    }

    #[inline]
    pub fn is_full(&self, lane: usize) -> bool {
        self.count[lane] >= self.depth
    }

    /// No lane holds a message.
    pub fn is_empty(&self) -> bool {
        self.count.iter().all(|&n| n == 0)
    }

    #[inline]
    fn slot(&self, lane: usize, index: u32) -> usize {
        let mut i = self.head[lane] + index;
        if i >= self.depth {
            i -= self.depth;
        }
        lane * self.depth as usize + i as usize
    }

    #[inline]
    pub fn put(&mut self, lane: usize, message: T) -> Result<(), Refusal> {
        if lane >= LANES {
            return Err(Refusal::UnknownCore);
        }
        if self.is_full(lane) {
            return Err(Refusal::LaneFull);
        }
        let slot = self.slot(lane, self.count[lane]);
        self.row[slot] = message;
        self.count[lane] += 1;
        Ok(())
    }

    #[inline]
    pub fn oldest(&self, lane: usize) -> Option<&T> {
        if self.count(lane) == 0 { None } else { Some(&self.row[self.slot(lane, 0)]) }
    }

    #[inline]
    pub fn take(&mut self, lane: usize) -> Option<T> {
        let message = *self.oldest(lane)?;
        self.head[lane] += 1;
        if self.head[lane] == self.depth {
            self.head[lane] = 0;
        }
        self.count[lane] -= 1;
        Some(message)
    }
}
