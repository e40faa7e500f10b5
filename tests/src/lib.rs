// What the test programs share. The second solver is written from the requirements alone.

pub mod cases;
pub mod counted;
pub mod faults;
pub mod harness;
pub mod jobs;
#[cfg(feature = "library")]
pub mod library;
pub mod marked;
pub mod numbers;
pub mod random;
pub mod refused;
pub mod solver;
pub mod vocabulary;
pub mod words;
