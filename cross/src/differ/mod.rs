//! Compares the library, the fast solver and the program with the solver that follows the paper, case by case, and finds the
//! smallest case that shows a difference.

pub mod books;
mod buffer;
mod by_trying;
pub mod case;
mod claims;
mod damage;
pub mod families;
mod following;
mod forms;
pub mod guarded;
mod indexed;
pub mod lending;
pub mod lengths;
pub mod outcome;
pub mod pages;
mod readings;
pub mod refusals;
mod samples;
pub mod session;
mod settings;
mod shrink;
pub mod side;
pub mod textsamples;
mod written_back;

#[cfg(test)]
mod tests;
