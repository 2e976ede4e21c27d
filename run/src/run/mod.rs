//! The supervisor: runs a command over a remote folder, and lets it go on from what is likely.

mod acts;
mod calls;
mod checkpoint;
mod decides;
mod descriptors;
mod drafts;
mod epochs;
mod events;
mod fetching;
mod filter;
mod folders;
mod ground;
mod inject;
mod inside;
mod learned;
mod names;
mod opened;
pub mod options;
mod output;
mod paths;
mod proved;
mod replies;
mod restore;
mod resume;
mod start;
mod stats;
mod stored;
mod supervisor;
mod sys;
mod tree;
mod undo;
mod waiting;
mod wrong;

pub use start::run;
