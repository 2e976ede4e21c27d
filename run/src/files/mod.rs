//! The server: a folder of this machine, whose epochs are done whole or not at all.
pub mod disk;
pub mod fetch;
pub mod journal;
pub mod known;
pub mod options;
pub mod pace;
pub mod plan;
pub mod session;
pub mod shared;
pub mod tree;
pub mod uploads;
