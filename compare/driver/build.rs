//! Where LUMEVIQO_BEFORE names a folder with an earlier liblumeviqo.a, links that library and this one to the bench once more, as copies that
//! have `before_` and `now_` in front of their names.
use std::path::{Path, PathBuf, absolute};
use std::process::Command;
use std::{env, fs};

fn main() {
    println!("cargo::rustc-check-cfg=cfg(before)");
    println!("cargo::rerun-if-env-changed=LUMEVIQO_BEFORE");
    println!("cargo::rerun-if-env-changed=LUMEVIQO_LIB");
    let Some(before) = env::var_os("LUMEVIQO_BEFORE").filter(|folder| !folder.is_empty()) else { return };
    let now = env::var_os("LUMEVIQO_LIB").unwrap_or("../../target/staticlib".into());
    link("before", before.as_ref());
    link("now", now.as_ref());
    println!("cargo::rustc-cfg=before");
}

fn link(prefix: &str, folder: &Path) {
    let library = absolute(folder).expect("a folder has a path").join("liblumeviqo.a");
    println!("cargo::rerun-if-changed={}", library.display());
    if library.is_file() {
        println!("cargo::rustc-link-arg-bin=bench={}", copy(prefix, &library).display());
    } else {
        println!("cargo::error=there is no {}: LUMEVIQO_BEFORE and LUMEVIQO_LIB name folders that have it", library.display());
    }
}

/// A function begins at a multiple of 64 in each copy: where the linker happens to put it moves the time of the same code by some hundredths.
fn copy(prefix: &str, library: &Path) -> PathBuf {
    let out = PathBuf::from(env::var("OUT_DIR").unwrap());
    let (names, copy) = (out.join(format!("{prefix}.names")), out.join(format!("lib{prefix}.a")));
    fs::write(&names, defined(library).iter().map(|name| format!("{name} {prefix}_{name}\n")).collect::<String>()).unwrap();
    run(Command::new("objcopy").args(["--set-section-alignment", ".text.*=64", "--redefine-syms"]).args([&names, library, &copy]));
    copy
}

/// The global names that an archive defines. Those that it only uses, as memcpy, are the same for both.
fn defined(library: &Path) -> Vec<String> {
    let listed = run(Command::new("nm").args(["--defined-only", "--extern-only", "--format=posix"]).arg(library));
    // A line that names a member of the archive has one word.
    let name = |line: &str| line.split_once(' ').map(|(name, _)| name.to_string());
    listed.lines().filter_map(name).collect()
}

/// What a program writes.
fn run(command: &mut Command) -> String {
    let output = command.output().unwrap_or_else(|e| panic!("{command:?}: {e}; binutils has it"));
    assert!(output.status.success(), "{command:?}: {}", String::from_utf8_lossy(&output.stderr));
    String::from_utf8(output.stdout).expect("names are text")
}
