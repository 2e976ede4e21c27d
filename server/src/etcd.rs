//! The log in an engine of others, etcd, that keeps it on a majority of machines: no line of consensus is here.
mod engine;
mod follower;
mod http2;
pub mod leader;
mod proto;
mod requests;
mod trailers;
