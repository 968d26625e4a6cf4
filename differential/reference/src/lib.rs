//! The Rust that the stand is held against, laid out by build.rs; none of its source is kept here.

include!(concat!(env!("OUT_DIR"), "/reference.rs"));
