//! Random runs of the kernel of scripts, random worlds and desks whose server lies, each held after each call against the table of
//! docs/FORMATS.md done step after step.
#![allow(clippy::pedantic)] // of tests the usual lints are asked for
mod desk;
#[path = "../dice/mod.rs"]
mod dice;
mod directed;
mod lies;
mod record;
mod runs;
mod scenarios;
mod state;
mod step;
mod worlds;
