//! Links libwarn_codes.a, from the folder that WARN_CODES_LIB names, or else from where
//! `bindings/build` or `install.sh` leaves it.
use std::env;
use std::path::{Path, PathBuf};

fn main() {
    let folder = env::var_os("WARN_CODES_LIB").map_or_else(beside, PathBuf::from);
    let library = folder.join("libwarn_codes.a");
    assert!(
        library.is_file(),
        "{} is not there: WARN_CODES_LIB names the folder of libwarn_codes.a",
        library.display()
    );
    println!("cargo:rerun-if-env-changed=WARN_CODES_LIB");
    println!("cargo:rerun-if-changed={}", library.display());
    println!("cargo:rustc-link-search=native={}", folder.display());
    println!("cargo:rustc-link-lib=static=warn_codes");
}

fn beside() -> PathBuf {
    let here = env::var_os("CARGO_MANIFEST_DIR").expect("cargo names the folder");
    let installed = Path::new(&here).join("../../../lib");
    if installed.join("libwarn_codes.a").is_file() {
        installed
    } else {
        Path::new(&here).join("../out")
    }
}
