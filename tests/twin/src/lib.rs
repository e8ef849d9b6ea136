//! Outside tests of the archives: an independent twin of document 01, the
//! archives under test behind fenced pages, and what the programs in `bin`
//! share.

// The twin: the matcher, and the two questions in `reader`.
pub mod answer;
pub mod class;
pub mod items;
pub mod reader;
pub mod twin;

// What is asked.
pub mod cases;
pub mod families;
pub mod grammar;
pub mod members;
pub mod question_families;
pub mod tables;
pub mod usual;
pub mod words;

// How it is asked.
pub mod asking;
pub mod crash;
pub mod fence;
pub mod hex;
pub mod matcher;
pub mod painted;
pub mod program;
pub mod random;
pub mod timing;

// The matcher's own tests, by the C call or by `testcalls`.
pub mod boundary;
pub mod broken;
pub mod check;
pub mod exhaustive;
pub mod hostile;
pub mod long_runs;
pub mod rows;
pub mod sets;

#[cfg(feature = "fidshore")]
pub mod archive;
#[cfg(feature = "testcalls")]
pub mod names;
#[cfg(feature = "testcalls")]
pub mod probed;

// What asks the C calls: how a pattern's reading and the questions grow.
#[cfg(feature = "fidshore")]
pub mod growth;
#[cfg(feature = "fidshore")]
pub mod reading;
