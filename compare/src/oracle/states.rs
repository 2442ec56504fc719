//! How state bytes are read: by the original, or by a rule from the byte as it was sent.

use ld2410::{Report, Target, TargetState};

use crate::model::state::State;

#[derive(Clone, Copy)]
pub enum States {
    Original,
    By(fn(u8) -> State),
}

/// A report's state and what follows from it.
pub struct Targets {
    pub state: u8,
    pub moving: Option<Target>,
    pub stationary: Option<Target>,
    pub present: bool,
}

impl States {
    /// What a state byte says.
    pub fn state(self, byte: u8) -> State {
        match self {
            Self::Original => {
                let state = TargetState::from_byte(byte);
                let (moving, stationary, present) = (state.moving(), state.stationary(), state.present());
                State { number: state.to_byte(), moving, stationary, present }
            }
            Self::By(rule) => rule(byte),
        }
    }

    /// What a report with this state byte says of its targets.
    pub fn targets(self, byte: u8, report: &Report) -> Targets {
        match self {
            Self::Original => Targets::of(report),
            Self::By(rule) => {
                let State { number, moving, stationary, present } = rule(byte);
                let target = |distance_cm, energy| Target { distance_cm, energy };
                Targets {
                    state: number,
                    moving: moving.then_some(target(report.moving_distance_cm, report.moving_energy)),
                    stationary: stationary.then_some(target(report.stationary_distance_cm, report.stationary_energy)),
                    present,
                }
            }
        }
    }
}

impl Targets {
    /// What the original says.
    pub fn of(report: &Report) -> Self {
        Self {
            state: report.state.to_byte(),
            moving: report.moving(),
            stationary: report.stationary(),
            present: report.present(),
        }
    }
}
