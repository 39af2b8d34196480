//! States, calls and answers of the coroutine switch as plain values, with a
//! soundness test, generators, a second engine written from 01 (the build
//! description with the exact rules, docs/rules/RULES.md), and recorded answers.
//! Nothing here needs the original. `library` is the static library, where it
//! is linked.

pub mod aimed;
#[cfg(library)]
pub mod bad;
#[cfg(library)]
pub mod beside;
pub mod broken;
pub mod call;
pub mod codec;
pub mod compare;
pub mod coverage;
pub mod due;
pub mod engine;
pub mod examples;
pub mod generate;
pub mod layout;
pub mod lent;
#[cfg(library)]
pub mod library;
pub mod plain;
pub mod recorded;
pub mod sample;
pub mod situations;
pub mod sound;
pub mod switch;
pub mod word;
pub mod world;
