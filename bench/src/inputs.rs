//! Texts to check, made from a seed.

mod damage;
mod faults;
mod form;
mod holes;
pub mod kinds;
pub mod rng;
pub mod sheets;
