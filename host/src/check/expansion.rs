//! Expansions of regular formulas: calls with guarded slices, the inputs on which they are compared, stored and
//! measured, and what formulas over regular formulas mean on a model.
pub mod call;
pub mod cases;
pub mod damage;
pub mod generate;
pub mod kinds;
pub mod large;
pub mod original;
pub mod paths;
pub mod stored;
