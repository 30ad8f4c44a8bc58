//! camlib's turning stock, as build.rs finds or changes it.
#![allow(dead_code)]
include!(concat!(env!("OUT_DIR"), "/camlib.rs"));
