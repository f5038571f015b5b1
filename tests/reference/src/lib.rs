//! A plain reading of the bench rules, kept apart from the product so that a
//! comparison of the two finds misreadings. It is written to be checked against
//! the rules line by line; where speed or elegance cost that, they lost.

pub mod bench;
pub mod card;
pub mod codes;
pub mod command;
pub mod comparison;
pub mod frame;
pub mod housekeeping;
pub mod index;
pub mod list;
pub mod lists_replay;
pub mod macros;
pub mod numbers;
pub mod outline;
pub mod pictures;
pub mod programs;
pub mod replay;
pub mod rescue;
pub mod run;
pub mod seats;
pub mod seats_replay;
pub mod soundness;
pub mod text;
pub mod typed;
pub mod valve;
pub mod valve_replay;
pub mod wire;
