/// Why a call was refused.
#[derive(Clone, Copy, PartialEq, Eq, Debug)]
pub enum Refusal {
    UnknownCore,
    UnknownAddress,
    FenceOpen,
    PendingFull,
    LaneFull,
    NothingWaits,
    LeaseRuns,
    BankFull,
    NoLine,
    KeptFull,
    Unreadable { block: u32, address: u32 },
    ClockAtEnd,
    NoFence,
    FenceNotOver,
    CannotStart,
    NotACall,
}

impl Refusal {
    pub fn number(self) -> u32 {
        match self {
            Refusal::UnknownCore => 1,
            Refusal::UnknownAddress => 2,
            Refusal::FenceOpen => 3,
            Refusal::PendingFull => 4,
            Refusal::LaneFull => 5,
            Refusal::NothingWaits => 6,
            Refusal::LeaseRuns => 7,
            Refusal::BankFull => 8,
            Refusal::NoLine => 9,
            Refusal::KeptFull => 10,
            Refusal::Unreadable { .. } => 11,
            Refusal::ClockAtEnd => 12,
            Refusal::NoFence => 13,
            Refusal::FenceNotOver => 14,
            Refusal::CannotStart => 15,
            Refusal::NotACall => 16,
        }
    }

    pub fn text(self) -> &'static str {
        match self {
            Refusal::UnknownCore => "unknown core or wave",
            Refusal::UnknownAddress => "unknown address",
            Refusal::FenceOpen => "fence open",
            Refusal::PendingFull => "pending full",
            Refusal::LaneFull => "lane full",
            Refusal::NothingWaits => "nothing waits",
            Refusal::LeaseRuns => "lease still runs",
            Refusal::BankFull => "bank full",
            Refusal::NoLine => "no line there",
            Refusal::KeptFull => "kept stamps full",
            Refusal::Unreadable { .. } => "word unreadable",
            Refusal::ClockAtEnd => "clock at its end",
            Refusal::NoFence => "no fence open",
            Refusal::FenceNotOver => "fence not over",
            Refusal::CannotStart => "cannot start",
            Refusal::NotACall => "not a call",
        }
    }
}
