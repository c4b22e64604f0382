//! The model's tests, all through `Chip::step`, `poll`, `run`, `dump`, `frame` and `capture`: the eleven cases, the traps,
//! the open points of document 01 as docs/DECISIONS.md decides them, and the orders of document 02.

mod board;
mod breaks;
mod capture_lines;
mod capture_refusals;
mod capture_waves;
mod captures;
mod capturing;
mod cases;
mod clocks;
mod counting;
mod dump_refusals;
mod dumping;
mod echoing;
mod freshness;
mod hunting;
mod looping;
mod mode_changes;
mod mode_keeps;
mod polling;
mod queueing;
mod registers;
mod remote;
mod running;
mod sending;
