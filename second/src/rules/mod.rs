//! The participant as docs/SCOPE.md says it, and the call scripts of docs/SCRIPTS.md.
//!
//! A fact is one of SCOPE, Numbers of refusal; a refusal is an `Err` with its number. The build makes a copy of these
//! files with the wrong variants of `mutants/` in it; nothing here knows of them.

pub mod frame;
pub mod image;
pub mod keys;
pub mod port;
pub mod script;
pub mod send;
pub mod sets;
pub mod show;
pub mod table;
