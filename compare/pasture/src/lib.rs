//! pasture's six files, unmodified, from the folder that PASTURE_SRC names: build.rs writes the module glue.
#![allow(dead_code, unknown_lints)]
#![allow(mismatched_lifetime_syntaxes)]
include!(concat!(env!("OUT_DIR"), "/glue.rs"));
