//! Gates: a NOT on one line, or a powered gate with a control, a target and a
//! power (v is 1, cn is 2, vp is 3).

/// The fields stand in the order in which gates compare: target, then control
/// (slot 0 is a NOT, slot c + 1 is control c), then power. A NOT has power 2,
/// so that two NOTs sum to 0 modulo 4 as two cn do.
#[derive(Clone, Copy, Debug, PartialEq, Eq, PartialOrd, Ord)]
pub struct Gate {
    target: u8,
    slot: u8,
    power: u8,
}

impl Gate {
    pub const fn not(target: u8) -> Gate {
        Gate {
            target,
            slot: 0,
            power: 2,
        }
    }

    pub const fn powered(power: u8, control: u8, target: u8) -> Gate {
        Gate {
            target,
            slot: control + 1,
            power,
        }
    }

    pub fn target(self) -> u8 {
        self.target
    }

    pub fn control(self) -> Option<u8> {
        self.slot.checked_sub(1)
    }

    pub fn power(self) -> u8 {
        self.power
    }

    /// The gate as a record of a lent gate list.
    pub fn number(self) -> u16 {
        (u16::from(self.target) * 33 + u16::from(self.slot)) * 4 + u16::from(self.power)
    }

    /// The gate on 32 lines that has this number, if there is one: a NOT has
    /// power 2, any other gate a power of 1 to 3 and a control that is not its
    /// target.
    pub fn of_number(number: u16) -> Option<Gate> {
        let target = number / 132;
        let slot = number / 4 % 33;
        let power = number % 4;
        let one = match slot {
            0 => power == 2,
            _ => power != 0 && slot - 1 != target,
        };
        (one && target < 32).then_some(Gate {
            target: target as u8,
            slot: slot as u8,
            power: power as u8,
        })
    }

    /// The gate that undoes this one: v and vp exchanged.
    pub fn undone(self) -> Gate {
        Gate {
            power: (4 - self.power) % 4,
            ..self
        }
    }

    /// Whether two neighbours may change places: neither's target is the
    /// other's control.
    pub fn passes(self, other: Gate) -> bool {
        self.slot != other.target + 1 && other.slot != self.target + 1
    }

    /// Whether two neighbours merge: both a NOT on one line, or both with the
    /// same control and target.
    pub fn merges(self, other: Gate) -> bool {
        self.target == other.target && self.slot == other.slot
    }

    /// The gate that two merging neighbours become, or none.
    pub fn merged(self, other: Gate) -> Option<Gate> {
        match (self.power + other.power) % 4 {
            0 => None,
            power => Some(Gate { power, ..self }),
        }
    }
}
