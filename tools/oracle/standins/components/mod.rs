//! Stand-in for components/mod.rs: the published components under the names that the published files
//! use, and empty types for the components that aren't published.

pub mod car_call;
pub mod elevator;
pub mod hall_call;
pub mod line;
pub mod position;
pub mod rider;
pub mod route;
pub mod stop;
pub mod units;

pub use car_call::CarCall;
pub use elevator::{Elevator, ElevatorPhase};
pub use hall_call::{CallDirection, HallCall};
pub use line::Line;
pub use position::{Position, Velocity};
pub use rider::{Rider, RiderPhase};
pub use route::{Route, RouteLeg, TransportMode};
pub use stop::Stop;
pub use units::{Speed, Weight};

/// Components that world.rs stores and no part of a group pass reads.
pub struct AccessControl;
pub struct DestinationQueue;
pub struct Patience;
pub struct Preferences;
pub struct ServiceMode;

pub mod cyclic {
    //! Only loop lines use it, and the feature `loop_lines` is off.
    pub fn forward_distance(_from: f64, _to: f64, _circumference: f64) -> f64 {
        unreachable!("no loop line takes part in a group pass")
    }
}
