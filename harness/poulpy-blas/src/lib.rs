//! The reference: documents 002 and 004, assembled by the build script.
#![allow(dead_code, unused_imports, rustdoc::all)]

include!(concat!(env!("OUT_DIR"), "/reference.rs"));
