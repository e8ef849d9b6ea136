//! How a question reaches an archive, and how its answer is compared.
#[cfg(feature = "fidshore")]
pub mod calls;
pub mod check;
pub mod form;
pub mod lent;
#[cfg(feature = "testcalls")]
pub mod testcalls;

use crate::reader::{Answer, Question};

/// An archive that answers questions.
pub trait Asks {
    /// Does it take several files and give complete answers? Else it takes
    /// one file of base 0 and answers a code number alone.
    const COMPLETE: bool;

    /// Asks behind fences.
    fn ask(&mut self, question: &Question) -> Answer;

    /// Asks with plain memory, for what is larger than the fences.
    fn ask_bare(&mut self, question: &Question) -> Answer;
}
