//! A second, independent implementation of the RAPID lesson bench.
//!
//! It goes its own straightforward route: `scan` cuts the text into words,
//! `form` builds trees, `names` collects every violation of rules 10 to 17 and
//! `run` steps through the trees. `lines` reads case lines and writes answers;
//! `generate` makes case lines.

pub mod bench;
pub mod class;
pub mod class_counts;
pub mod counts;
pub mod form;
pub mod generate;
pub mod hand;
pub mod lines;
pub mod mark;
pub mod names;
pub mod run;
pub mod scan;
pub mod tally;
pub mod tree;
pub mod value;
