//! Tells where libskewguard is: in the folder SKEWGUARD_LIB_DIR, or where the system keeps its libraries.
//!
//! Of a folder the static library is taken, if it is there: a program that stands on this crate then needs no other
//! file, and nothing has to be said where it runs. Of the system's the shared one is, which is found at run time as any
//! shared library is. SKEWGUARD_STATIC=1 and SKEWGUARD_STATIC=0 choose otherwise. Where the shared library lies in a
//! folder of its own, the programs of this crate know that; those of other crates find the folder in DEP_SKEWGUARD_DIR
//! when their build scripts run, or need LD_LIBRARY_PATH.

use std::env;
use std::path::Path;

/// Where Debian's package libskewguard-dev puts it.
const SYSTEM: &str = "/usr/lib/x86_64-linux-gnu";

fn main() {
    println!("cargo:rerun-if-env-changed=SKEWGUARD_LIB_DIR");
    println!("cargo:rerun-if-env-changed=SKEWGUARD_STATIC");
    let own = env::var("SKEWGUARD_LIB_DIR").ok();
    let folder = own.as_deref().unwrap_or(SYSTEM);
    println!("cargo:rustc-link-search=native={folder}");
    println!("cargo:dir={folder}");
    let archive = Path::new(folder).join("libskewguard.a");
    let is_static = match env::var("SKEWGUARD_STATIC").as_deref() {
        Ok("1") => true,
        Ok("0") => false,
        _ => own.is_some() && archive.exists(),
    };
    if is_static {
        println!("cargo:rerun-if-changed={}", archive.display());
        println!("cargo:rustc-link-lib=static=skewguard");
    } else {
        println!("cargo:rustc-link-lib=dylib=skewguard");
        if own.is_some() {
            println!("cargo:rustc-link-arg=-Wl,-rpath,{folder}");
        }
    }
}
