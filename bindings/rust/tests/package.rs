//! The package as others meet it: its page names its version, a build without the library says what to do, and a copy
//! can be a member of a workspace.
use sortlib::{Actions, Body, Problem, Query, Solved, Tables};
use std::fs;
use std::path::{Path, PathBuf};
use std::process::{Command, Output};

/// A folder of this test's own.
fn folder(name: &str) -> PathBuf {
    let folder = Path::new(env!("CARGO_TARGET_TMPDIR")).join(name);
    fs::create_dir_all(&folder).expect("a folder can be made");
    folder
}

/// Runs cargo on a package, with the library looked for in an empty folder.
fn cargo(word: &str, package: &Path) -> Command {
    let mut cargo = Command::new(env!("CARGO"));
    cargo
        .args([word, "--offline", "--manifest-path"])
        .arg(package.join("Cargo.toml"))
        .arg("--target-dir")
        .arg(folder("target"))
        .env("SORTLIB_DIR", folder("empty"))
        .env_remove("SORTLIB_CHECK_ONLY");
    cargo
}

fn succeeds(cargo: &mut Command) {
    let run = cargo.output().expect("cargo runs");
    assert!(run.status.success(), "{}", said(&run));
}

/// This package's own folder.
fn here() -> &'static Path {
    Path::new(env!("CARGO_MANIFEST_DIR"))
}

/// Copies a folder, and what links lead to; not what cargo put there.
fn copy(from: &Path, to: &Path) {
    fs::create_dir_all(to).expect("a folder can be made");
    for entry in fs::read_dir(from).expect("a folder can be read") {
        let entry = entry.expect("a folder can be read");
        let (path, to) = (entry.path(), to.join(entry.file_name()));
        if entry.file_name() == "target" {
            continue;
        }
        if path.is_dir() {
            copy(&path, &to);
        } else {
            fs::copy(&path, &to).expect("a file can be copied");
        }
    }
}

/// A workspace that has a copy of this package as its member.
fn workspace() -> PathBuf {
    let workspace = folder("workspace");
    let manifest = "[workspace]\nmembers = [\"sortlib\"]\nresolver = \"2\"\n";
    fs::write(workspace.join("Cargo.toml"), manifest).expect("a file can be written");
    copy(here(), &workspace.join("sortlib"));
    workspace
}

fn said(run: &Output) -> String {
    String::from_utf8_lossy(&run.stderr).into_owned()
}

fn may_change_threads<Any: Send + Sync>() {}

#[test]
fn values_may_be_handed_from_thread_to_thread() {
    may_change_threads::<Problem>();
    may_change_threads::<Tables>();
    may_change_threads::<Query>();
    may_change_threads::<Actions>();
    may_change_threads::<Body>();
    may_change_threads::<Solved>();
}

#[test]
fn the_page_names_the_version() {
    let version = concat!("version ", env!("CARGO_PKG_VERSION"), ".");
    assert!(include_str!("../README.md").contains(version));
}

#[test]
fn a_build_without_the_library_says_what_to_do() {
    // A relative folder counts from the package.
    let looked = [
        (folder("empty"), folder("empty")),
        ("nowhere".into(), here().join("nowhere")),
    ];
    for (library, folder) in looked {
        let run = cargo("build", here()).env("SORTLIB_DIR", library).output();
        let run = run.expect("cargo runs");
        let said = said(&run);
        assert!(!run.status.success(), "{said}");
        let sentence = format!(
            "The proved static library is missing: there is no libsortlib.a in {}.",
            folder.display()
        );
        for part in [&sentence, "`make -C bindings/c`", "SORTLIB_DIR"] {
            assert!(said.contains(part), "{part} is not in: {said}");
        }
    }
    succeeds(cargo("check", here()).env("SORTLIB_CHECK_ONLY", "1"));
}

#[test]
fn a_copy_is_built_and_packed_in_a_workspace() {
    let workspace = workspace();
    let check = ["--workspace", "--all-targets"];
    succeeds(
        cargo("check", &workspace)
            .args(check)
            .env("SORTLIB_CHECK_ONLY", "1"),
    );
    let packed = ["--package", "sortlib", "--allow-dirty", "--no-verify"];
    succeeds(cargo("package", &workspace).args(packed));
}
