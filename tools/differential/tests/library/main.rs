//! The static library against the reference.

#![forbid(unsafe_code)]

mod complaints;
mod dispatchers;
mod edges;
mod executions;
mod limits;
mod lists;
mod record;
mod rounds;
mod rows;
mod sames;
