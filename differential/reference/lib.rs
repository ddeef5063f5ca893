//! The reference's modules, copied unchanged beside this file when the program is built,
//! and stand-ins for those that the compared functions never reach.
pub mod coerce;
pub mod hash;
pub mod math;
pub mod meta_schema;
pub mod meta_write;
pub mod pso;
pub mod pso_write;
pub mod resource;
pub mod schema;
pub mod value;
