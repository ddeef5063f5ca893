//! Document 01 with requests 2.1, 2.6 and 2.10 written a second time, and scenes to try it on. The comparison (main.rs) and the command line share it.
pub mod branch;
pub mod bytes;
pub mod gen;
pub mod model;
pub mod rng;
