/// The largest lifetime.
pub const LIFETIME_MAX: u32 = 4096;

/// What a policy is told.
#[derive(Clone, Copy, PartialEq, Eq, Debug)]
pub enum Event {
    /// A line left with a running stamp.
    LeftRunning,
    /// A load met an existing line whose stamp is over.
    LoadMetOver,
    /// A store or atomic met a running stamp.
    WriteMetRunning,
}

/// Decides how many ticks a lease is given for.
pub trait Policy {
    fn lifetime(&self) -> u32;
    fn longest(&self) -> u32;
    fn tell(&mut self, event: Event);
}

/// One lifetime for ever.
#[derive(Clone, PartialEq, Eq, Debug)]
pub struct Fixed(u32);

impl Fixed {
    pub fn new(lifetime: u32) -> Self {
        Fixed(lifetime.min(LIFETIME_MAX))
    }
}

impl Policy for Fixed {
    #[inline]
    fn lifetime(&self) -> u32 {
        self.0
    }

    fn longest(&self) -> u32 {
        self.0
    }

    #[inline]
    fn tell(&mut self, _: Event) {}
}

/// Moves by -8, +4 and -8, between 0 and its longest.
#[derive(Clone, PartialEq, Eq, Debug)]
pub struct Learner {
    present: u32,
    longest: u32,
}

impl Learner {
    pub fn new(start: u32, longest: u32) -> Self {
        let longest = longest.min(LIFETIME_MAX);
        Learner { present: start.min(longest), longest }
    }
}

impl Policy for Learner {
    #[inline]
    fn lifetime(&self) -> u32 {
        self.present
    }

    fn longest(&self) -> u32 {
        self.longest
    }

    #[inline]
    fn tell(&mut self, event: Event) {
        self.present = match event {
            Event::LeftRunning | Event::WriteMetRunning => self.present.saturating_sub(8),
            Event::LoadMetOver => (self.present + 4).min(self.longest),
        };
    }
}
