//! The proved runner behind its C interface, and inputs to hold it against
//! the second one.

mod bits;
pub mod claims;
pub mod inputs;
pub mod proved;
pub mod random;
pub mod schedules;
