//! The calls of the stations, with their arguments as raw numbers.

#[derive(Clone, Copy, PartialEq, Eq, Debug)]
pub enum Call {
    Open { last: u32 },
    Take { due: u32, weight: u32 },
    TakeClass { due: u32, weight: u32, class: u32 },
    Send,
    Seal,
    Mark { slot: u32 },
    Total,
    Substitute { ticket: u32 },
}

/// A call without its arguments: the stations' calls, then those for callers
/// in Rattle, then the program's replies.
#[derive(Clone, Copy, PartialEq, Eq, PartialOrd, Ord, Debug)]
pub enum CallName {
    Open,
    Take,
    TakeClass,
    Send,
    Seal,
    Mark,
    Total,
    Substitute,
    List,
    Read,
    Payload,
    Write,
    Reply,
}

impl Call {
    pub fn name(self) -> CallName {
        match self {
            Call::Open { .. } => CallName::Open,
            Call::Take { .. } => CallName::Take,
            Call::TakeClass { .. } => CallName::TakeClass,
            Call::Send => CallName::Send,
            Call::Seal => CallName::Seal,
            Call::Mark { .. } => CallName::Mark,
            Call::Total => CallName::Total,
            Call::Substitute { .. } => CallName::Substitute,
        }
    }
}

impl CallName {
    /// The stations' calls.
    pub const ALL: &'static [CallName] = &[
        CallName::Open,
        CallName::Take,
        CallName::TakeClass,
        CallName::Send,
        CallName::Seal,
        CallName::Mark,
        CallName::Total,
        CallName::Substitute,
    ];

    /// Whether the call needs the plan.
    pub fn plans(self) -> bool {
        use CallName::{Open, Seal, Take, TakeClass};
        !matches!(self, Open | Take | TakeClass | Seal)
    }
}
