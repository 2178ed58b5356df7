//! Links the proved archives: `libplanner_c.a`, and `libline_trial.a` of the trial of what line hands back. Their directory is
//! `RIGBASEN_STATICLIB`, or else the place where `make proved` puts them.

use std::env;
use std::path::PathBuf;

const PLACE: &str = "RIGBASEN_STATICLIB";

fn main() {
    let here = PathBuf::from(env::var_os("CARGO_MANIFEST_DIR").expect("set by cargo"));
    let directory = match env::var_os(PLACE) {
        Some(place) => PathBuf::from(place),
        None => here.join("../target/staticlib"),
    };
    println!("cargo:rerun-if-env-changed={PLACE}");
    println!("cargo:rustc-link-search=native={}", directory.display());
    for name in ["planner_c", "line_trial"] {
        let archive = directory.join(format!("lib{name}.a"));
        if !archive.is_file() {
            panic!("{} is missing: run 'make proved', or set {PLACE} to its directory", archive.display());
        }
        println!("cargo:rerun-if-changed={}", archive.display());
        println!("cargo:rustc-link-lib=static={name}");
    }
}
