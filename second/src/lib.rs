//! A second settlement of a month, to hold beside the proved one.
//!
//! It was written from the paper and how its open points are read, without a look at the proved
//! code, so that the two can only agree where both say what the paper says. It takes the plainest
//! road: 128-bit numbers, vectors, and a list of its own for each zone's owners and accounts.
//!
//! The modules follow the paper's sections: [`tables`], [`settle`] (charges and credits),
//! [`divide`], [`refusal`], [`month_file`] and [`statement`]. [`make`] makes up months and damaged
//! files to compare on.
//!
//! ```
//! let text = b"month=4\ndays=30\nnonzone=0\ndaily=0\nweekly=0\nmonthly=0\nweekday=1\nend=0\n";
//! assert_eq!(second::statement::statement(text), b"total=0,0\n");
//! ```

#[cfg(feature = "archive")]
pub mod archive;
pub mod divide;
pub mod host;
pub mod make;
pub mod month_file;
pub mod refusal;
pub mod settle;
pub mod statement;
pub mod tables;

pub use month_file::{read, write};
pub use settle::settle;
pub use statement::statement;
