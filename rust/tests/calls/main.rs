//! Lists of calls, each with what it has to be told: of a store and its channels, of a log that is read again, of its limits and
//! refusals, what each command replies, what the answers of a consensus engine mean, and of the notes of a kernel of scripts.
#![allow(clippy::pedantic)] // of tests the usual lints are asked for
mod batches;
mod bench;
mod bytes;
mod channels;
mod clients;
mod commands;
mod engine;
mod frames;
mod limits;
mod notes;
mod openings;
mod payloads;
mod private;
mod replies;
mod segments;
mod texts;
