//! What the comparisons, the stored inputs and the benchmark share: inputs, calls with guarded slices, answers from
//! outside, and verdicts of games against what their formulas mean.
pub mod call;
pub mod cases;
pub mod columns;
pub mod damage;
pub mod expansion;
pub mod finished;
pub mod generate;
pub mod item_numbers;
pub mod kinds;
pub mod lent;
pub mod meaning;
pub mod options;
pub mod oracle;
pub mod pgsolver;
pub mod places;
pub mod record;
pub mod shapes;
pub mod solver;
pub mod spread;
pub mod textbook;
pub mod texts;
pub mod verdicts;
