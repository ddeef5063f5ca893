//! Links the proved library. SANDVUREK_LIBRARY names the directory that has libsandvurek.a; cli/build sets it.
use std::env;

fn main() {
    println!("cargo:rerun-if-env-changed=SANDVUREK_LIBRARY");
    if let Ok(directory) = env::var("SANDVUREK_LIBRARY") {
        println!("cargo:rustc-link-search=native={directory}");
        println!("cargo:rustc-link-lib=static=sandvurek");
        println!("cargo:rerun-if-changed={directory}/libsandvurek.a");
    }
}
