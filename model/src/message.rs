/// What a request asks for. Add and exchange are the atomics.
#[derive(Clone, Copy, PartialEq, Eq, Debug, Default)]
pub enum Op {
    #[default]
    Load,
    Store(u32),
    Add(u32),
    Exchange(u32),
}

impl Op {
    /// A store or an atomic.
    #[inline]
    pub fn writes(self) -> bool {
        !matches!(self, Op::Load)
    }
}

/// From a core to the bank.
#[derive(Clone, Copy, PartialEq, Eq, Debug, Default)]
pub struct Request {
    pub op: Op,
    pub wave: u8,
    pub address: u32,
}

/// What an answer carries.
#[derive(Clone, Copy, PartialEq, Eq, Debug)]
pub enum Reply {
    Load { value: u32, stamp: u32 },
    Store { stamp: u32 },
    Atomic { value: u32, stamp: u32 },
    Fault { block: u32 },
}

/// From the bank to a core.
#[derive(Clone, Copy, PartialEq, Eq, Debug)]
pub struct Answer {
    pub reply: Reply,
    pub wave: u8,
    pub address: u32,
}

impl Default for Answer {
    fn default() -> Self {
        Answer { reply: Reply::Store { stamp: 0 }, wave: 0, address: 0 }
    }
}

impl Request {
    /// The form of five words.
    pub fn words(&self) -> [u32; 5] {
        let (kind, operand) = match self.op {
            Op::Load => (1, 0),
            Op::Store(v) => (2, v),
            Op::Add(v) => (3, v),
            Op::Exchange(v) => (4, v),
        };
        [kind, self.wave as u32, self.address, operand, 0]
    }
}

impl Answer {
    /// The form of five words.
    pub fn words(&self) -> [u32; 5] {
        let (kind, value, stamp) = match self.reply {
            Reply::Load { value, stamp } => (1, value, stamp),
            Reply::Store { stamp } => (2, 0, stamp),
            Reply::Atomic { value, stamp } => (3, value, stamp),
            Reply::Fault { block } => (4, block, 0),
        };
        [kind, self.wave as u32, self.address, value, stamp]
    }
}
