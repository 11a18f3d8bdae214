//! The crate's own code, asked for its answers, and a plain model of what it does not have. `main.rs` says what can be done with it.
pub mod answer;
pub mod begins;
pub mod compare;
pub mod crate_side;
pub mod drawn;
pub mod form;
pub mod forms;
pub mod generator;
pub mod jobs;
pub mod labels;
pub mod least;
pub mod model;
pub mod named;
mod numbers;
pub mod sets;
mod starts;
pub mod stream;
pub mod values;

/// The crate's own types, by the names that `numbers.rs` calls them.
mod types {
    pub use origin::descriptors::extension::s2xv2_satellite_delivery_system::{
        S2Xv2Mode, S2Xv2SatelliteDeliverySystem as Record, S2Xv2Superframe as Superframe,
    };
    pub use origin::descriptors::satellite_delivery_system::{Polarization, RollOff};
}
