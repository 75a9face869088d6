//! States, and the profile's table of transitions.

use std::collections::HashMap;
use std::fmt::Write;
use State::*;

#[derive(Clone, Copy, PartialEq, Eq)]
pub enum State {
    Removed,
    Available,
    NonOperational,
    Reserved,
    OnTrip,
    Elsewhere,
    NonContactable,
    Missing,
    InDepot,
}

const STATES: [State; 9] =
    [Removed, Available, NonOperational, Reserved, OnTrip, Elsewhere, NonContactable, Missing, InDepot];

/// A set of states, of which each has a bit.
type States = u16;

impl State {
    pub fn name(self) -> &'static str {
        match self {
            Removed => "removed",
            Available => "available",
            NonOperational => "non_operational",
            Reserved => "reserved",
            OnTrip => "on_trip",
            Elsewhere => "elsewhere",
            NonContactable => "non_contactable",
            Missing => "missing",
            InDepot => "in_depot",
        }
    }

    pub fn parse(name: &str) -> Option<State> {
        STATES.into_iter().find(|state| state.name() == name)
    }

    /// The set of this state alone.
    fn bit(self) -> States {
        1 << self as u8
    }
}

const PARKED: &[State] = &[Available, NonOperational, Elsewhere, NonContactable, Missing];
const HEARD: &[State] = &[Removed, Available, NonOperational, Reserved, OnTrip, Elsewhere];
const FOUND: &[State] = &[Available, NonOperational, Reserved, OnTrip, Elsewhere, NonContactable];
const KNOWN: &[State] = &[Removed, Available, NonOperational, Elsewhere, NonContactable, Missing];

/// A type, the states before, the states after: all pairs of them are rows. Types are in ascending order.
const PROFILE: &[(&str, &[State], &[State])] = &[
    ("agency_drop_off", &[Removed], &[Available]),
    ("agency_pick_up", PARKED, &[Removed]),
    ("battery_charged", &[NonOperational], &[Available]),
    ("battery_low", &[Available], &[NonOperational]),
    ("changed_geographies", &[Available, NonOperational], &[Elsewhere]),
    ("changed_geographies", &[Elsewhere], &[Available, NonOperational]),
    ("comms_lost", HEARD, &[NonContactable]),
    ("comms_restored", &[NonContactable], HEARD),
    ("compliance_pick_up", PARKED, &[Removed]),
    ("decommissioned", KNOWN, &[Removed]),
    ("located", &[Missing], HEARD),
    ("maintenance", &[Available], &[NonOperational]),
    ("maintenance_pick_up", PARKED, &[Removed]),
    ("not_located", FOUND, &[Missing]),
    ("off_hours", &[Available], &[NonOperational]),
    ("on_hours", &[NonOperational], &[Available]),
    ("provider_drop_off", &[Removed], &[Available]),
    ("rebalance_pick_up", PARKED, &[Removed]),
    ("reservation_cancel", &[Reserved], &[Available]),
    ("reservation_start", &[Available], &[Reserved]),
    ("system_resume", &[NonOperational], &[Available]),
    ("system_suspend", &[Available], &[NonOperational]),
    ("trip_cancel", &[Reserved, OnTrip], &[Available]),
    ("trip_end", &[OnTrip], &[Available]),
    ("trip_enter_jurisdiction", &[Elsewhere], &[OnTrip]),
    ("trip_leave_jurisdiction", &[OnTrip], &[Elsewhere]),
    ("trip_start", &[Available, Reserved], &[OnTrip]),
    ("unspecified", &[Available], &[NonOperational]),
    ("unspecified", &[NonOperational], &[Available]),
];

/// A type that the table has.
#[derive(Clone, Copy)]
pub struct Kind(u8);

pub struct Table {
    names: Vec<&'static str>,
    /// Of each type, the set of states to which it leads from each state.
    next: Vec<[States; STATES.len()]>,
    kinds: HashMap<&'static str, Kind>,
}

impl Table {
    pub fn profile() -> Table {
        let mut table = Table { names: Vec::new(), next: Vec::new(), kinds: HashMap::new() };
        for (name, before, after) in PROFILE {
            if table.names.last() != Some(name) {
                table.kinds.insert(name, Kind(table.names.len() as u8));
                table.names.push(name);
                table.next.push([0; STATES.len()]);
            }
            let to = after.iter().fold(0, |set, state| set | state.bit());
            let next = table.next.last_mut().expect("a type was added");
            before.iter().for_each(|state| next[*state as usize] |= to);
        }
        table
    }

    pub fn kind(&self, name: &str) -> Option<Kind> {
        self.kinds.get(name).copied()
    }

    pub fn name(&self, kind: Kind) -> &'static str {
        self.names[usize::from(kind.0)]
    }

    fn next(&self, kind: Kind, set: States) -> States {
        let next = &self.next[usize::from(kind.0)];
        STATES.into_iter().filter(|state| set & state.bit() != 0).fold(0, |to, state| to | next[state as usize])
    }

    /// Whether rows lead from the state held to the one reported, or else the place of the first type that can't be passed.
    pub fn admit(&self, held: State, types: &[Option<Kind>], reported: State) -> Result<(), usize> {
        let mut possible = held.bit();
        for (at, kind) in types.iter().enumerate() {
            possible = kind.map_or(0, |kind| self.next(kind, possible));
            if possible == 0 {
                return Err(at);
            }
        }
        if possible & reported.bit() == 0 {
            Err(types.len())
        } else {
            Ok(())
        }
    }

    /// All rows: the type, the state before, the state after.
    pub fn rows(&self) -> impl Iterator<Item = (&'static str, State, State)> + '_ {
        let pairs = || STATES.into_iter().flat_map(|before| STATES.into_iter().map(move |after| (before, after)));
        self.names.iter().zip(&self.next).flat_map(move |(name, next)| {
            let rows = pairs().filter(|(before, after)| next[*before as usize] & after.bit() != 0);
            rows.map(|(before, after)| (*name, before, after))
        })
    }

    /// The rows as `mds_city table` prints them.
    pub fn lines(&self) -> String {
        let mut text = String::new();
        for (name, before, after) in self.rows() {
            let _ = writeln!(text, "{name} {} {}", before.name(), after.name());
        }
        text + &format!("rows {}\n", self.rows().count())
    }
}
