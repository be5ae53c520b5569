//! Calls, routines, and what a routine holds.

pub const MAX_PROCESSES: usize = 8;
pub const MAX_BASES: usize = 16;
pub const MAX_CALLS: usize = 32;

#[derive(Clone, Copy, PartialEq, Eq, Debug)]
pub enum Kind {
    Modlock,
    Readlock,
    Unlock,
    Decrease,
}

impl Kind {
    pub const ALL: [Kind; 4] = [Kind::Modlock, Kind::Readlock, Kind::Unlock, Kind::Decrease];

    pub fn from_byte(byte: u8) -> Option<Kind> {
        match byte {
            1 => Some(Kind::Modlock),
            2 => Some(Kind::Readlock),
            3 => Some(Kind::Unlock),
            4 => Some(Kind::Decrease),
            _ => None,
        }
    }

    pub fn byte(self) -> u8 {
        match self {
            Kind::Modlock => 1,
            Kind::Readlock => 2,
            Kind::Unlock => 3,
            Kind::Decrease => 4,
        }
    }

    pub fn is_take(self) -> bool {
        matches!(self, Kind::Modlock | Kind::Readlock)
    }

    pub fn name(self) -> &'static str {
        match self {
            Kind::Modlock => "modlock",
            Kind::Readlock => "readlock",
            Kind::Unlock => "unlock",
            Kind::Decrease => "decrease",
        }
    }
}

/// What one routine does with one base.
#[derive(Clone, Copy, PartialEq, Eq, Debug)]
pub enum Hold {
    Free,
    Modifies,
    Reads,
}

/// The holds of one routine; base b stands at index b - 1.
pub type Holds = [Hold; MAX_BASES];

pub const NOTHING: Holds = [Hold::Free; MAX_BASES];

#[derive(Clone, Copy, PartialEq, Eq, Debug)]
pub struct Call {
    pub kind: Kind,
    pub base: usize,
}

impl Call {
    pub fn new(kind: Kind, base: usize) -> Call {
        Call { kind, base }
    }

    pub fn is_logic_error(self, holds: &Holds) -> bool {
        let hold = holds[self.base - 1];
        match self.kind {
            Kind::Modlock | Kind::Readlock => hold != Hold::Free,
            Kind::Unlock => hold != Hold::Modifies,
            Kind::Decrease => hold != Hold::Reads,
        }
    }

    pub fn apply(self, holds: &mut Holds) {
        holds[self.base - 1] = match self.kind {
            Kind::Modlock => Hold::Modifies,
            Kind::Readlock => Hold::Reads,
            Kind::Unlock | Kind::Decrease => Hold::Free,
        };
    }
}

pub fn modlock(base: usize) -> Call {
    Call::new(Kind::Modlock, base)
}

pub fn readlock(base: usize) -> Call {
    Call::new(Kind::Readlock, base)
}

pub fn unlock(base: usize) -> Call {
    Call::new(Kind::Unlock, base)
}

pub fn decrease(base: usize) -> Call {
    Call::new(Kind::Decrease, base)
}

/// What is held when all of `calls` are complete.
pub fn holds_after(calls: &[Call]) -> Holds {
    let mut holds = NOTHING;
    for call in calls {
        call.apply(&mut holds);
    }
    holds
}

fn first_logic_error(calls: &[Call]) -> Option<usize> {
    let mut holds = NOTHING;
    calls.iter().position(|call| {
        let error = call.is_logic_error(&holds);
        call.apply(&mut holds);
        error
    })
}

#[derive(Clone, PartialEq, Eq, Debug)]
pub struct Routine {
    calls: Vec<Call>,
    /// Calls completed when the first logic error is current. No process gets past it, so it is
    /// the only logic error that can be current in a consistent table.
    stops_at: Option<usize>,
}

impl Routine {
    pub fn new(calls: Vec<Call>) -> Routine {
        let stops_at = first_logic_error(&calls);
        Routine { calls, stops_at }
    }

    pub fn calls(&self) -> &[Call] {
        &self.calls
    }

    pub fn stops_at(&self) -> Option<usize> {
        self.stops_at
    }

    /// The current call when `completed` calls are done; none when the routine is finished.
    pub fn current(&self, completed: u16) -> Option<Call> {
        self.calls.get(usize::from(completed)).copied()
    }

    pub fn is_logic_error_at(&self, completed: u16) -> bool {
        self.stops_at == Some(usize::from(completed))
    }
}

/// A well-formed routine file. Routine p stands at index p - 1.
#[derive(Clone, PartialEq, Eq, Debug)]
pub struct Set {
    pub bases: usize,
    pub routines: Vec<Routine>,
}

impl Set {
    pub fn new(bases: usize, lists: Vec<Vec<Call>>) -> Set {
        let routines = lists.into_iter().map(Routine::new).collect();
        Set { bases, routines }
    }

    pub fn processes(&self) -> usize {
        self.routines.len()
    }
}
