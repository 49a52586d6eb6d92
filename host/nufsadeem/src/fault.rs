use std::fmt;

/// The four classes of faults, with their codes.
#[derive(Clone, Copy, PartialEq, Eq, Hash, Debug)]
pub enum Class {
    StuckAt = 1,
    MissingGate = 2,
    MissingControl = 3,
    ExtraControl = 4,
}

impl Class {
    pub const ALL: [Class; 4] = [
        Class::StuckAt,
        Class::MissingGate,
        Class::MissingControl,
        Class::ExtraControl,
    ];

    pub fn of_code(code: u32) -> Option<Class> {
        Class::ALL.into_iter().find(|class| *class as u32 == code)
    }
}

impl From<Class> for u32 {
    fn from(class: Class) -> u32 {
        class as u32
    }
}

/// A fault record. Fields that a class has no use for are 0. Any four numbers can be put in; those
/// that name no fault of a circuit are refused by the call that takes them.
#[repr(C)]
#[derive(Clone, Copy, PartialEq, Eq, Hash, Debug, Default)]
pub struct Fault {
    pub class: u32,
    /// A level for a stuck-at fault, else a gate number from 1.
    pub place: u32,
    pub line: u32,
    pub value: u32,
}

impl Fault {
    /// What dropping leaves behind the faults that stay.
    pub const BLANK: Fault = Fault {
        class: 0,
        place: 0,
        line: 0,
        value: 0,
    };

    /// Level 0 has every line, and level i the lines of gate i, its controls and its target.
    pub fn stuck_at(level: u32, line: u32, value: bool) -> Fault {
        let value = value.into();
        Fault::of(Class::StuckAt, level, line, value)
    }

    pub fn missing_gate(gate: u32) -> Fault {
        Fault::of(Class::MissingGate, gate, 0, 0)
    }

    pub fn missing_control(gate: u32, line: u32) -> Fault {
        Fault::of(Class::MissingControl, gate, line, 0)
    }

    pub fn extra_control(gate: u32, line: u32) -> Fault {
        Fault::of(Class::ExtraControl, gate, line, 0)
    }

    pub fn class(&self) -> Option<Class> {
        Class::of_code(self.class)
    }

    fn of(class: Class, place: u32, line: u32, value: u32) -> Fault {
        Fault {
            class: class.into(),
            place,
            line,
            value,
        }
    }
}

impl From<[u32; 4]> for Fault {
    fn from([class, place, line, value]: [u32; 4]) -> Fault {
        Fault {
            class,
            place,
            line,
            value,
        }
    }
}

impl From<Fault> for [u32; 4] {
    fn from(fault: Fault) -> [u32; 4] {
        [fault.class, fault.place, fault.line, fault.value]
    }
}

impl fmt::Display for Fault {
    fn fmt(&self, f: &mut fmt::Formatter<'_>) -> fmt::Result {
        let Fault { place, line, .. } = self;
        match self.class() {
            Some(Class::StuckAt) => {
                write!(
                    f,
                    "line {} stuck at {} at level {}",
                    line, self.value, place
                )
            }
            Some(Class::MissingGate) => write!(f, "gate {} missing", place),
            Some(Class::MissingControl) => write!(f, "gate {} without control {}", place, line),
            Some(Class::ExtraControl) => write!(f, "gate {} with extra control {}", place, line),
            None => write!(f, "no fault"),
        }
    }
}
