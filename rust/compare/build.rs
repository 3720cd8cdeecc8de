//! Passes on whether the oracle found the published sources: the tests that
//! need them are then run, and else shown as ignored.

use std::env;

fn main() {
    println!("cargo::rustc-check-cfg=cfg(oracle_sources)");
    if env::var_os("DEP_LAZORKIT_PROGRAM_SOURCES").is_some() {
        println!("cargo::rustc-cfg=oracle_sources");
    }
}
