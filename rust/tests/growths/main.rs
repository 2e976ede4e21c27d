//! Grows whatever can grow past 70,000, with ample memory: kernels of scripts, desks, kernels over byte strings, and requests.
//!
//! The contracts allow want of memory wherever something grows; that none comes where no memory was refused can only be tried. What
//! takes the square of its number is grown to 9,001. `checks/growths.table` tells which test grows which call.
#![allow(clippy::pedantic)] // of tests the usual lints are asked for
mod desks;
mod epochs;
mod kernels;
mod requests;
mod strings;

/// How often what grows is grown: past each number at which a body could give up.
const MANY: u32 = 70_001;

/// How often 64 of a thing are had at once, so that they are more than `MANY` together.
const OFTEN: u32 = 1_100;

/// How often what takes the square of its number is grown.
const FEWER: u32 = 9_001;

/// Fetches a file for ever, of which there is a copy.
const FETCHES: &str = "copy /x 3 \"old\"\nlimit 4000000\nscript a\na:\nfetch /x\njump a\nend\nprocess 1 a 1\n";
