//! The crate's calls through liburgyelpat.a.

mod batches;
mod benches;
mod cholesky;
mod floored;
mod handheld;
mod lblt;
mod lists;
mod numbers;
mod packed;
mod packed_batches;
mod packed_cholesky;
mod packed_lblt;
mod refusals;
mod runs;
mod substitutes;
mod teaching;
mod tray;
mod twins;
mod udu;
