//! Circuits for the generators and the link classes, with passes and merges as
//! the scope document words them; nothing here is shared with the peer.

use crate::random::Random;
use std::fmt::Write;

#[derive(Clone, Copy, Debug, PartialEq, Eq, Hash)]
pub enum Gate {
    Not { target: u8 },
    Powered { power: u8, control: u8, target: u8 },
}

use Gate::{Not, Powered};

impl Gate {
    /// Gates compare by target, then control (a NOT before control 0), then
    /// power. The number of a record in a gate list is in this order too.
    pub fn record(self) -> u16 {
        match self {
            Not { target } => u16::from(target) * 132 + 2,
            Powered {
                power,
                control,
                target,
            } => u16::from(target) * 132 + (u16::from(control) + 1) * 4 + u16::from(power),
        }
    }

    pub fn random(random: &mut Random, lines: u8) -> Gate {
        let target = random.below(usize::from(lines)) as u8;
        let control = random.below(usize::from(lines)) as u8;
        if control == target {
            Not { target }
        } else {
            Powered {
                power: random.between(1, 3) as u8,
                control,
                target,
            }
        }
    }

    pub fn undone(self) -> Gate {
        match self {
            Not { .. } => self,
            Powered {
                power,
                control,
                target,
            } => Powered {
                power: 4 - power,
                control,
                target,
            },
        }
    }

    /// A gate with the same control and target, of any power.
    pub fn of_any_power(self, random: &mut Random) -> Gate {
        match self {
            Not { .. } => self,
            Powered {
                control, target, ..
            } => Powered {
                power: random.between(1, 3) as u8,
                control,
                target,
            },
        }
    }

    /// The gate on other lines: those at the places that its own lines name.
    pub fn moved(self, lines: &[u8]) -> Gate {
        match self {
            Not { target } => Not {
                target: lines[usize::from(target)],
            },
            Powered {
                power,
                control,
                target,
            } => Powered {
                power,
                control: lines[usize::from(control)],
                target: lines[usize::from(target)],
            },
        }
    }

    /// Whether a line is its control or its target.
    pub fn touches(self, line: u8) -> bool {
        self.target() == line || self.has_control(line)
    }

    fn target(self) -> u8 {
        match self {
            Not { target } | Powered { target, .. } => target,
        }
    }

    fn has_control(self, line: u8) -> bool {
        matches!(self, Powered { control, .. } if control == line)
    }
}

/// Every gate on so many lines, in order.
pub fn every_gate(lines: u8) -> Vec<Gate> {
    let mut gates = Vec::new();
    for target in 0..lines {
        gates.push(Not { target });
        for control in (0..lines).filter(|&control| control != target) {
            for power in 1..=3 {
                gates.push(Powered {
                    power,
                    control,
                    target,
                });
            }
        }
    }
    gates
}

/// Pass: neither's target is the other's control.
pub fn pass(a: Gate, b: Gate) -> bool {
    !a.has_control(b.target()) && !b.has_control(a.target())
}

/// Merge: what two neighbours become, if they merge.
pub fn merge(a: Gate, b: Gate) -> Option<Vec<Gate>> {
    match (a, b) {
        (Not { target: t }, Not { target: u }) if t == u => Some(vec![]),
        (
            Powered {
                power: p,
                control,
                target,
            },
            Powered {
                power: q,
                control: d,
                target: u,
            },
        ) if control == d && target == u => Some(match (p + q) % 4 {
            0 => vec![],
            power => vec![Powered {
                power,
                control,
                target,
            }],
        }),
        _ => None,
    }
}

/// The reduced list, by plain loops: two gates merge while every gate between them
/// passes the first, until none do; then, again and again, the least of the gates
/// that pass all those left before them is taken.
pub fn reduced(gates: &[Gate]) -> Vec<Gate> {
    let mut left = gates.to_vec();
    while let Some((first, second, merged)) = (0..left.len()).find_map(|at| partner(&left, at)) {
        left.remove(second);
        left.splice(first..=first, merged);
    }
    let mut list = Vec::new();
    while !left.is_empty() {
        let free = |&at: &usize| left[..at].iter().all(|&other| pass(other, left[at]));
        let least = (0..left.len())
            .filter(free)
            .min_by_key(|&at| left[at].record());
        list.push(left.remove(least.unwrap_or_default()));
    }
    list
}

/// The place of a gate, that of the first later one that it merges with after
/// passing all between, and what they become.
pub fn partner(gates: &[Gate], at: usize) -> Option<(usize, usize, Vec<Gate>)> {
    for (second, &other) in gates.iter().enumerate().skip(at + 1) {
        if let Some(merged) = merge(gates[at], other) {
            return Some((at, second, merged));
        }
        if !pass(gates[at], other) {
            return None;
        }
    }
    None
}

/// A circuit linked to the given one, after some random steps: passes, merges
/// and, more often, merges backwards.
pub fn linked(
    random: &mut Random,
    lines: u8,
    start: &[Gate],
    steps: usize,
    most: usize,
) -> Vec<Gate> {
    let mut gates = start.to_vec();
    for _ in 0..steps {
        match random.below(8) {
            0 | 1 if gates.len() + 2 <= most => {
                let gate = Gate::random(random, lines);
                let place = random.below(gates.len() + 1);
                gates.splice(place..place, [gate, gate.undone()]);
            }
            2 if !gates.is_empty() && gates.len() < most => {
                let place = random.below(gates.len());
                if let Powered {
                    power,
                    control,
                    target,
                } = gates[place]
                {
                    let first = random.between(1, 3) as u8;
                    let second = (power + 4 - first) % 4;
                    if second != 0 {
                        gates.splice(
                            place..=place,
                            [
                                Powered {
                                    power: first,
                                    control,
                                    target,
                                },
                                Powered {
                                    power: second,
                                    control,
                                    target,
                                },
                            ],
                        );
                    }
                }
            }
            3 if gates.len() >= 2 && random.one_in(4) => {
                let place = random.below(gates.len() - 1);
                if let Some(merged) = merge(gates[place], gates[place + 1]) {
                    gates.splice(place..place + 2, merged);
                }
            }
            _ if gates.len() >= 2 => {
                // Carry one gate some places along while it passes.
                let mut place = random.below(gates.len() - 1);
                for _ in 0..random.between(1, 6) {
                    if place + 1 < gates.len() && pass(gates[place], gates[place + 1]) {
                        gates.swap(place, place + 1);
                        place += 1;
                    }
                }
            }
            _ => {}
        }
    }
    gates
}

/// The same gates redrawn by passes alone: so often one is carried some places
/// along, either way, while it passes.
pub fn carried(random: &mut Random, gates: &[Gate], times: usize) -> Vec<Gate> {
    let mut gates = gates.to_vec();
    if gates.is_empty() {
        return gates;
    }
    for _ in 0..times {
        let mut place = random.below(gates.len());
        let step = random.pick(&[1, usize::MAX]);
        for _ in 0..random.between(1, 200) {
            let next = place.wrapping_add(step);
            if next >= gates.len() || !pass(gates[place], gates[next]) {
                break;
            }
            gates.swap(place, next);
            place = next;
        }
    }
    gates
}

/// The inverse: the gates reversed, with v and vp exchanged.
pub fn undone(gates: &[Gate]) -> Vec<Gate> {
    gates.iter().rev().map(|gate| gate.undone()).collect()
}

pub fn records(gates: &[Gate]) -> Vec<u16> {
    gates.iter().map(|gate| gate.record()).collect()
}

pub fn text(lines: u8, gates: &[Gate]) -> Vec<u8> {
    let mut text = format!("(lines {lines})\n");
    for gate in gates {
        match gate {
            Not { target } => writeln!(text, "(not {target})"),
            Powered {
                power,
                control,
                target,
            } => {
                let word = ["", "v", "cn", "vp"][usize::from(*power)];
                writeln!(text, "({word} {control} {target})")
            }
        }
        .unwrap();
    }
    text.into_bytes()
}

/// The number of lines and the gates of an answer text, if it is one.
pub fn read(text: &[u8]) -> Option<(u8, Vec<Gate>)> {
    let text = std::str::from_utf8(text).ok()?.strip_suffix(")\n")?;
    let mut forms = text.split(")\n");
    let lines = forms.next()?.strip_prefix("(lines ")?.parse().ok()?;
    let gates = forms.map(|form| {
        let words: Vec<&str> = form.strip_prefix('(')?.split(' ').collect();
        let number = |word: &str| word.parse::<u8>().ok().filter(|&line| line < lines);
        match words[..] {
            ["not", target] => Some(Not {
                target: number(target)?,
            }),
            [word, control, target] => Some(Powered {
                power: match word {
                    "v" => 1,
                    "cn" => 2,
                    "vp" => 3,
                    _ => return None,
                },
                control: number(control)?,
                target: number(target)?,
            }),
            _ => None,
        }
    });
    Some((lines, gates.collect::<Option<_>>()?))
}
