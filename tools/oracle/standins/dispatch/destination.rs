//! Stand-in for dispatch/destination.rs, which isn't published: the names that mod.rs mentions. Nothing here runs.

use super::{DispatchStrategy, RankContext};

pub struct DestinationDispatch;

impl DestinationDispatch {
    pub fn new() -> Self {
        Self
    }
}

impl DispatchStrategy for DestinationDispatch {
    fn rank(&self, _ctx: &RankContext<'_>) -> Option<f64> {
        unreachable!("DestinationDispatch is not one of the bench's strategies")
    }
}

/// Named by a re-export of mod.rs.
pub struct AssignedCar;
