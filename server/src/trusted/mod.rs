//! What the sentences at the head of `main.rs` are about, but for a log in an engine, and but for what has the folder, which stands in
//! `rust/src/store/`: read by eye, and nothing else of the program gets hold of a store, of
//! its log, or of a socket. What stands beside has the functions of `Channels` and `Client` that are public, and those of `Folder`.
#[allow(unsafe_code)]
pub mod bound;
pub mod channels;
pub mod frames;
mod replies;
#[allow(unsafe_code)]
pub mod system;
