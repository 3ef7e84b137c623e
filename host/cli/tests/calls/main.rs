//! What holds between any two system calls of a program that writes an output: it may be ended there, others
//! may write there, and nobody sees what is not for them.

mod case;
#[path = "../common/mod.rs"]
mod common;
mod ends;
mod meanwhile;
mod trace;
