//! The original `types.rs`, compiled unchanged from where the build found it.

include!(concat!(env!("OUT_DIR"), "/original_types.rs"));
