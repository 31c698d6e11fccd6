//! Says where the static library is: `SORTLIB_DIR`, or the repository's own target/staticlib. Where it is missing, the
//! build ends with what to do about it.
use std::env;
use std::path::{Path, PathBuf};
use std::process::exit;

const LIBRARY: &str = "libsortlib.a";

fn main() {
    println!("cargo:rerun-if-env-changed=SORTLIB_DIR");
    println!("cargo:rerun-if-env-changed=SORTLIB_CHECK_ONLY");
    let folder = folder();
    let library = folder.join(LIBRARY);
    println!("cargo:rerun-if-changed={}", library.display());
    if !library.is_file() && env::var_os("SORTLIB_CHECK_ONLY").is_none() {
        eprintln!("{}", what_to_do(&folder));
        exit(1);
    }
    println!("cargo:rustc-link-search=native={}", folder.display());
}

/// A folder that is not absolute counts from this package's own.
fn folder() -> PathBuf {
    let here = PathBuf::from(env::var_os("CARGO_MANIFEST_DIR").expect("cargo sets it"));
    match env::var_os("SORTLIB_DIR") {
        Some(folder) => here.join(folder),
        None => here.join("../../target/staticlib"),
    }
}

fn what_to_do(folder: &Path) -> String {
    format!(
        "The proved static library is missing: there is no {LIBRARY} in {}.\n\
         Write it with `make -C bindings/c` in the repository, which puts it into target/staticlib there,\n\
         or set SORTLIB_DIR to the folder that has it.\n\
         `cargo check`, `cargo clippy` and `cargo doc` link nothing, and do without it where\n\
         SORTLIB_CHECK_ONLY is set.",
        folder.display()
    )
}
