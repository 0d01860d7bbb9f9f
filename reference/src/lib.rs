//! A second walker and a second processor for S/SL, written from the papers, with what is needed to compare them with the library
//! and to time both.
#![deny(unsafe_code)]

pub mod ffi;
pub mod filter;
pub mod harness;
pub mod random;
pub mod side;
pub mod tables;
pub mod walker;

pub mod before;
pub mod chains;
pub mod choosers;
pub mod processor;
pub mod quiet;
pub mod rules;
pub mod verdict;

pub mod agreement;
pub mod carry;
pub mod crowded;
pub mod delays;
pub mod faults;
pub mod figures;
pub mod files;
pub mod limits;
pub mod pairs;
pub mod parts;
pub mod precedence;
pub mod programs;
pub mod rights;
pub mod screen;
pub mod slow;
pub mod stack;
pub mod sums;
pub mod texts;
pub mod timing;
pub mod works;
