//! The test copy: the Rust of ../shared/docs/src with the edits of `compare/copy/edits`, made by build.rs. Its searches take document 01's inputs once they have passed the checks 11, 1, 2, 3 and 4.

mod helpers;
pub mod run;

include!(concat!(env!("OUT_DIR"), "/root.rs"));
