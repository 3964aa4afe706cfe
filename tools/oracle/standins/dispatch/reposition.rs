//! Stand-in for dispatch/reposition.rs, which isn't published: the names that mod.rs mentions. Nothing
//! here runs.

use super::{ElevatorGroup, RepositionStrategy};
use crate::entity::EntityId;
use crate::world::World;

macro_rules! unpublished {
    ($($name:ident)*) => {$(
        #[derive(Default)]
        pub struct $name;

        impl $name {
            pub fn new() -> Self {
                Self
            }
        }

        impl RepositionStrategy for $name {
            fn reposition(
                &mut self,
                _idle: &[(EntityId, f64)],
                _stops: &[(EntityId, f64)],
                _group: &ElevatorGroup,
                _world: &World,
                _out: &mut Vec<(EntityId, EntityId)>,
            ) {
                unreachable!("repositioning is no part of a group pass")
            }
        }
    )*};
}

unpublished!(SpreadEvenly ReturnToLobby DemandWeighted NearestIdle PredictiveParking AdaptiveParking);
