//! The tool as its users meet it: each command on good and on bad input, with exit status, message and files.

mod bench;
mod maps;
mod plans;
mod readme;
mod runs;
mod usage;
mod week;
