//! The proved calls beside another implementation of the same rules, and from a C program.

mod charges;
mod from_c;
mod limits;
mod numbers;
mod rules;
