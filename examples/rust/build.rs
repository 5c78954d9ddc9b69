//! Links the library. VUHLATEN_LIB names the folder of libvuhlaten.a.

use std::env;
use std::path::Path;

fn main() {
    println!("cargo:rerun-if-env-changed=VUHLATEN_LIB");
    let folder = env::var("VUHLATEN_LIB").expect("VUHLATEN_LIB names the folder of libvuhlaten.a");
    println!("cargo:rerun-if-changed={}", Path::new(&folder).join("libvuhlaten.a").display());
    println!("cargo:rustc-link-search=native={folder}");
    println!("cargo:rustc-link-lib=static=vuhlaten");
}
