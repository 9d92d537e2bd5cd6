//! The provisioner's end of PB-ADV after document 01, in plain safe Rust: what the proved programs are measured against.
#![forbid(unsafe_code)]

pub mod fcs;
pub mod frame;
pub mod hex;
pub mod link;
pub mod segments;
pub mod station;
pub mod writing;
