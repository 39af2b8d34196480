//! The original's coroutine code: its files as build.rs prepares them, at the
//! root of the crate as they want it, stand-ins for what they import and we
//! lack, and the driver, which puts them behind 01's calls and the benchmark.
//!
//! Nothing else is here, so that how the compiler cuts and inlines the original
//! does not hang on other text of ours. Without the original's sources the
//! crate is empty.

#[cfg(original)]
extern crate alloc;

#[cfg(original)]
include!(concat!(env!("OUT_DIR"), "/original.rs"));

#[cfg(original)]
#[allow(dead_code)]
#[path = "standin/bind.rs"]
mod bind;
#[cfg(original)]
#[allow(dead_code)]
#[path = "standin/coll.rs"]
mod coll;
#[cfg(original)]
#[allow(dead_code)]
#[path = "standin/conv.rs"]
mod conv;
#[cfg(original)]
#[allow(dead_code)]
#[path = "standin/dynv.rs"]
mod dynv;
#[cfg(original)]
#[allow(dead_code)]
#[path = "standin/error.rs"]
mod error;
#[cfg(original)]
#[allow(dead_code)]
#[path = "standin/host.rs"]
mod host;
#[cfg(original)]
#[allow(dead_code)]
#[path = "standin/map.rs"]
mod map;

#[cfg(original)]
mod driver;

#[cfg(original)]
pub use driver::{
    bench::{switch, Bench},
    bridge::costs,
    Original,
};
