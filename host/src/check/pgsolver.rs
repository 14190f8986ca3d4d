//! PGSolver text: both calls with guarded slices, the inputs on which they are compared, stored and measured.
pub mod call;
pub mod cases;
pub mod damage;
pub mod generate;
pub mod large;
pub mod stored;
