//! The reference: documents 000 and 001, assembled by the build script.
#![allow(dead_code, unused_imports, rustdoc::all)]

include!(concat!(env!("OUT_DIR"), "/reference.rs"));
