//! Stand-in for dispatch/look.rs, which isn't published: the names that mod.rs mentions. Nothing here runs.

use super::{DispatchStrategy, RankContext};

pub struct LookDispatch;

impl LookDispatch {
    pub fn new() -> Self {
        Self
    }
}

impl DispatchStrategy for LookDispatch {
    fn rank(&self, _ctx: &RankContext<'_>) -> Option<f64> {
        unreachable!("LookDispatch is not one of the bench's strategies")
    }
}
