//! An independent model of the interlock, written from document 01 alone.
//!
//! `routine`, `file` and `judge` know routine files; `table`, `consistent`, `turn` and `standing`
//! know the state table; `calls` puts the refusals in their order; `trials`, `play`, `generate`,
//! `fixed` and `tally` compare the model with the code under test.

pub mod calls;
pub mod consistent;
pub mod file;
pub mod fixed;
pub mod generate;
pub mod judge;
pub mod play;
pub mod random;
pub mod refusal;
pub mod routine;
pub mod standing;
pub mod table;
pub mod tally;
pub mod trials;
pub mod turn;
