//! Makes sheets to compare and to measure with. The native turn is used to know
//! which calls would be accepted, never to know what the answer should be.

pub mod damage;
pub mod driver;
pub mod maker;
pub mod mix;
pub mod rng;
