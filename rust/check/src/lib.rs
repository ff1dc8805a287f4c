//! Holds the proved library against document 01 as it is said twice more, in plain Rust.
//!
//! `reference` is the whole of the document, without heap and without floats; `naive` says the same again, slowly and
//! sentence by sentence, so that the two can be held against each other, and the library against both. `generate` makes
//! the tables, budgets, texts and buffers on which that is done, each from a seed and an index; `change` changes a table
//! so that its plan and its rooms must stay; `compare` holds the library against either of them, and the reference against
//! the naive one. `library` is the library's calls as data, and `Library` answers them: linked, through the wrapper, where
//! something can be linked; elsewhere by a server process.

#![forbid(unsafe_code)]

pub mod change;
pub mod compare;
pub mod generate;
pub mod library;
pub mod naive;
pub mod reference;

#[cfg(any(target_arch = "x86_64", feature = "native"))]
pub mod linked;
#[cfg(any(target_arch = "x86_64", feature = "native"))]
pub use linked::Library;

#[cfg(not(any(target_arch = "x86_64", feature = "native")))]
mod served;
#[cfg(not(any(target_arch = "x86_64", feature = "native")))]
pub use served::Library;
