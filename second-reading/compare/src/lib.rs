//! The comparison of the second reading with the program `probe`, of `probe` with a C program over
//! the archive, and of that program with the second reading where a buffer of another length is
//! lent: seeded cases, the running of the programs, differences in words, and what the cases
//! reached.

mod accesses;
mod aim;
mod campaign;
mod case;
mod controls;
mod coverage;
mod dice;
mod difference;
mod expected;
mod gates;
mod harness;
mod loan;
mod loans;
mod numbers;
mod program;
mod seed;
mod states;
mod words;
mod workers;

pub use campaign::{Campaign, Captured};
pub use case::{Case, Kind, KINDS};
pub use coverage::coverage_table;
pub use difference::Output;
pub use expected::{expected, Expected};
pub use harness::{catch_each, ended, Least};
pub use loan::Lent;
pub use loans::{Loans, Met};
pub use program::{Program, Ran};
pub use seed::{fresh_seed, parse_seed};
