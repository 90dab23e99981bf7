//! Holds the archive to the rules: to the papers' figures and the examples, and to a second division and check that
//! were written from the rules alone.

mod amounts;
mod brute_force;
mod check;
mod divide;
mod empty;
mod figures;
mod inputs;
mod lent;
mod numbers;
mod plain;
mod programs;
mod refusals;
mod stack;
mod statement;
