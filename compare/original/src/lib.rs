//! The original crate seuif97 2.3.8: its modules as they stand in ../shared/docs/src, under a root of our own, since its lib.rs names files that are not at hand.
#![allow(warnings)]

#[path = "../../../../shared/docs/src/src/algo/mod.rs"]
pub mod algo;
#[path = "../../../../shared/docs/src/src/common/mod.rs"]
pub mod common;
#[path = "../../../../shared/docs/src/src/r1/mod.rs"]
pub mod r1;
#[path = "../../../../shared/docs/src/src/r2/mod.rs"]
pub mod r2;
#[path = "../../../../shared/docs/src/src/r3/mod.rs"]
pub mod r3;
#[path = "../../../../shared/docs/src/src/r4/mod.rs"]
pub mod r4;
#[path = "../../../../shared/docs/src/src/r5/mod.rs"]
pub mod r5;
