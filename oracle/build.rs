//! Finds the crate's source, checks that it is the one that was read, and writes the `mod` lines that compile it where
//! it lies: no copy is made and no line is changed.
use std::path::{Path, PathBuf};
use std::process::Command;
use std::{env, fs};

const DEFAULT_SOURCE: &str = "../../shared/docs/src";

/// Each file compiled and the sha256 of its text.
const CONSTRAINT: (&str, &str) = (
    "src/constraint.rs",
    "697114c982a2443ea830c44e015dd02cce7935d82bf65c5135e37b33d9c4162a",
);
const CORE: (&str, &str) = (
    "src/core.rs",
    "498db3ddc26aa5c9c90a1fb7a507c8e144dee8526d2cf8cbf8943d5f7fa1a26b",
);
const UTIL: (&str, &str) = (
    "src/util.rs",
    "fecf134c48b1c325eab789db5a0e68de0921eb3a98497fad5f7ab0b5ac52ab06",
);
const EXPR: (&str, &str) = (
    "src/ast/expr.rs",
    "101ea85e4cf36829d268581df2e68d87e0bf83dbc7016d3ecab3ce97d90db1da",
);

fn main() {
    println!("cargo::rerun-if-changed=build.rs");
    println!("cargo::rerun-if-env-changed=EGGLOG_SRC");
    let source = source_folder();
    let root = [
        module(&source, "pub mod constraint;", CONSTRAINT),
        module(&source, "mod core;", CORE),
        module(&source, "pub mod util;", UTIL),
    ];
    write_modules("root_modules.rs", &root);
    write_modules("ast_modules.rs", &[module(&source, "mod expr;", EXPR)]);
}

fn source_folder() -> PathBuf {
    let given = env::var("EGGLOG_SRC").unwrap_or_else(|_| DEFAULT_SOURCE.to_owned());
    fs::canonicalize(&given).unwrap_or_else(|e| panic!("no source folder at {given}: {e}"))
}

/// One `mod` item whose text is the crate's own file.
fn module(source: &Path, item: &str, (file, sha256): (&str, &str)) -> String {
    let path = source.join(file);
    println!("cargo::rerun-if-changed={}", path.display());
    assert_eq!(sha256_of(&path), sha256, "{file} isn't egglog 3.0.0's");
    let path = path.to_str().expect("a path in UTF-8");
    format!("#[rustfmt::skip]\n#[allow(dead_code, unused_imports)]\n#[path = {path:?}]\n{item}\n")
}

fn sha256_of(path: &Path) -> String {
    let run = Command::new("sha256sum").arg(path).output();
    let run = run.expect("sha256sum runs");
    assert!(run.status.success(), "no sha256 of {}", path.display());
    let line = String::from_utf8(run.stdout).expect("sha256sum prints text");
    line.split(' ').next().unwrap_or_default().to_owned()
}

fn write_modules(name: &str, modules: &[String]) {
    let folder = PathBuf::from(env::var("OUT_DIR").expect("cargo gives OUT_DIR"));
    fs::write(folder.join(name), modules.concat()).expect("OUT_DIR can be written");
}
