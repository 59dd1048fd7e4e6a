//! Every refusal number with each of its conditions and the near misses on
//! both sides, and what stands in the ledger afterwards.

mod carry;
mod fixture;
mod listing;
mod network;
mod past;
mod plan;
mod sheet;
mod split;
mod state;
mod trams;
