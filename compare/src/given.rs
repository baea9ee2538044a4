// The original's weights as they stand: what gauge.rs measures by, and original.rs takes but for three.
#![allow(dead_code)]
include!(concat!(env!("OUT_DIR"), "/given.rs"));
pub use weights::*;
