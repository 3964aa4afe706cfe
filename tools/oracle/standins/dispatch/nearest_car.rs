//! Stand-in for dispatch/nearest_car.rs, which isn't published: the names that mod.rs mentions. Nothing here runs.

use super::{DispatchStrategy, RankContext};

pub struct NearestCarDispatch;

impl NearestCarDispatch {
    pub fn new() -> Self {
        Self
    }
}

impl DispatchStrategy for NearestCarDispatch {
    fn rank(&self, _ctx: &RankContext<'_>) -> Option<f64> {
        unreachable!("NearestCarDispatch is not one of the bench's strategies")
    }
}
