//! The example `socket`, run as a program of its own.

mod host;
mod killed;
mod lines;
