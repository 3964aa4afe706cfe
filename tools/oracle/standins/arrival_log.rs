//! Stand-in for arrival_log.rs: only the names that traffic_detector.rs mentions. Nothing here runs.

use crate::entity::EntityId;

pub const DEFAULT_ARRIVAL_WINDOW_TICKS: u64 = 18_000;

pub struct ArrivalLog;

impl ArrivalLog {
    pub fn arrivals_in_window(&self, _stop: EntityId, _now: u64, _window: u64) -> u64 {
        unreachable!("no arrival log takes part in a group pass")
    }
}

pub struct DestinationLog;

impl DestinationLog {
    pub fn destinations_in_window(&self, _stop: EntityId, _now: u64, _window: u64) -> u64 {
        unreachable!("no destination log takes part in a group pass")
    }
}
