//! A proved coroutine switch, for Rust programs.
//!
//! A [`Machine`] owns the words of one machine; each of the 28 calls of "01",
//! the build description with the exact rules (`docs/rules/RULES.md`), is a method
//! with typed operands. The functions behind it are compiled from proved code
//! (`crates/linked_calls`, `crates/linked_switch` for Resume and Yield,
//! `crates/linked_batch` for many calls): answers and words are those of the
//! definitions, for every call.
//!
//! What is accepted is an `Ok`, and any other answer an `Err` with its number
//! and words of 01's fault sheet ([`Fault`], [`StepError`] of an instruction).
//! No answer can be dropped unseen: [`Step`], [`Finished`], [`Unwound`] and
//! [`Answer`] are `#[must_use]`.
//!
//! The words are private. A machine is well-formed (01 says "sound") if it keeps
//! 01's rules. A set-up leaves a well-formed machine, and every call keeps it so
//! (`crates/claims_invariant/specs/Kept.antt`; for the code
//! `crates/machine_step/specs/Kept.antt`). So the methods do not test the words
//! again at each call. [`Machine::check`] runs the test, and
//! [`Machine::from_words`] runs it once on words that come from elsewhere.
//!
//! The [`Fuel`] record is the host's: it is lent to each call.
//!
//! # A script put to sleep and woken
//!
//! ```
//! use humdelzi::{Function, FunctionId, Pc, Reg, Setup, Step, Word};
//!
//! // function 0 calls, function 1 is the body of a coroutine; three registers each
//! let setup = Setup::new().function(Function::new(3)).function(Function::new(3));
//! let (mut m, mut fuel) = setup.machine()?;
//! m.grant(&mut fuel, 100)?;
//! m.host_call(&mut fuel, FunctionId(0))?;
//! assert_eq!(m.coro_new(&mut fuel, Pc(0), Reg(0), FunctionId(1), 0)?, Step::Next);
//! assert_eq!(m.resume(&mut fuel, Pc(1), Reg(1), Reg(0), Reg(2))?, Step::Frame); // the body runs
//! let held = Word::int(820).unwrap();
//! m.put_word(&mut fuel, Reg(2), held)?;
//! assert_eq!(m.yield_(&mut fuel, Pc(0), Reg(0), Reg(2))?, Step::Frame); // it sleeps
//! assert_eq!(m.register(Reg(1)), Some(held)); // its caller got the word
//! assert_eq!(m.resume(&mut fuel, Pc(2), Reg(1), Reg(0), Reg(1))?, Step::Frame);
//! assert_eq!(m.look()[2], held); // what it held came back
//! # Ok::<(), Box<dyn std::error::Error>>(())
//! ```
//!
//! `examples/interpreter.rs` is a small interpreter over these calls, and
//! `examples/furnace.rs` the furnace line of `./run`.

#![no_std]
#![deny(unsafe_code)]

extern crate alloc;

mod added;
mod answer;
mod batch;
mod call;
mod fault;
mod ffi;
mod fuel;
mod instructions;
mod machine;
mod object;
mod rule;
mod setup;
mod view;
mod word;
mod words;

pub use answer::{Answer, Finished, Outcome, Step, StepError, Unwound};
pub use batch::{Answers, Batch};
pub use call::{Call, Cont, FunctionId, Pc, Reg, Value};
pub use fault::Fault;
pub use fuel::Fuel;
pub use machine::Machine;
pub use object::{Coroutine, Object, State};
pub use rule::SetupError;
pub use setup::{Costs, Function, Handler, Setup};
pub use view::{Driver, Frame, Running};
pub use word::Word;
pub use words::{Unsound, Words};
