//! Links the proved marker, where the feature `proved` asks for it.

use std::env;
use std::path::Path;

/// The repository's static libraries, and the C part of their standard library.
const LIBRARIES: [(&str, &str); 3] =
    [("VUHLATEN_LIB", "vuhlaten"), ("VUHLATEN_REPEATS", "repeats"), ("VUHLATEN_LIBC", "libc_c")];

fn main() {
    for (variable, name) in LIBRARIES {
        println!("cargo:rerun-if-env-changed={variable}");
        if env::var_os("CARGO_FEATURE_PROVED").is_none() {
            continue;
        }
        let folder = env::var(variable).unwrap_or_else(|_| panic!("{variable} names the folder of lib{name}.a"));
        println!("cargo:rerun-if-changed={}", Path::new(&folder).join(format!("lib{name}.a")).display());
        println!("cargo:rustc-link-search=native={folder}");
        println!("cargo:rustc-link-lib=static={name}");
    }
}
