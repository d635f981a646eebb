//! Takes the original's nine files from the folder that it is told, twice, and lists them as modules in the place of the lib.rs that is not at
//! hand. The first copy is unchanged but for a tail behind ap.rs that reaches its private functions. In the second, besides, the one constant
//! of the search limit is a number that can be set, and its modules lie in `limited`.
use std::path::{Path, PathBuf};
use std::{env, fs};

const FILES: [&str; 9] = ["ap", "error", "options", "page", "slotted", "store", "superblock", "verify", "warning"];

/// The constant, its line and its file; what the second copy has where it is used.
const LIMIT: &str = "SEARCH_LIMIT";
const LIMIT_LINE: &str = "const SEARCH_LIMIT: usize = 0x300;";
const LIMIT_FILE: &str = "slotted";
const SET_LIMIT: &str = "crate::limit::of_this_thread()";

fn main() {
    println!("cargo:rerun-if-env-changed=LUMEVIQO_ORIGINAL");
    println!("cargo:rerun-if-changed=src/ap_tail.rs");
    let here = PathBuf::from(env::var("CARGO_MANIFEST_DIR").unwrap());
    let told = env::var("LUMEVIQO_ORIGINAL").map(PathBuf::from);
    let folder = told.unwrap_or_else(|_| here.join("../../../shared/docs/src")).join("crates/opensqlany/src");
    let out = PathBuf::from(env::var("OUT_DIR").unwrap());
    let tail = fs::read_to_string(here.join("src/ap_tail.rs")).unwrap();

    let [mut as_it_is, mut limited] = [String::new(), String::new()];
    for name in FILES {
        let from = folder.join(format!("{name}.rs"));
        println!("cargo:rerun-if-changed={}", from.display());
        let mut text = read(&from);
        let mut with_limit = with_limit_set(name, &text, &from);
        if name == "ap" {
            text.push_str(&tail);
            with_limit.push_str(&tail);
        }
        as_it_is += &module(name, &out.join("as_it_is"), &text);
        limited += &module(name, &out.join("limited"), &with_limit);
    }
    limited += &listed("answers", &here.join("src/answers.rs"));
    fs::write(out.join("as_it_is.rs"), as_it_is).unwrap();
    fs::write(out.join("limited.rs"), limited).unwrap();
}

fn read(from: &Path) -> String {
    fs::read_to_string(from).unwrap_or_else(|e| panic!("{}: {e}; set LUMEVIQO_ORIGINAL to the folder that has crates/", from.display()))
}

/// The second copy of a file. It fails where the constant is not where it was: its answers would then be those of another limit.
fn with_limit_set(name: &str, text: &str, from: &Path) -> String {
    let lines = text.lines().filter(|&line| line == LIMIT_LINE).count();
    let uses = text.matches(LIMIT).count() - lines;
    let as_it_was = if name == LIMIT_FILE { lines == 1 && uses > 0 } else { lines + uses == 0 };
    assert!(
        as_it_was,
        "{}: the line `{LIMIT_LINE}` stands there {lines} times, and {LIMIT} elsewhere {uses} times. The line must stand once in \
         {LIMIT_FILE}.rs, which alone uses it: see how the original has its limit now, and change compare/oracle/build.rs",
        from.display()
    );
    let others: Vec<&str> = text.lines().filter(|&line| line != LIMIT_LINE).collect();
    others.join("\n").replace("crate::", "crate::limited::").replace(LIMIT, SET_LIMIT) + "\n"
}

/// Writes a module's text to a folder, and gives the lines that list it.
fn module(name: &str, folder: &Path, text: &str) -> String {
    fs::create_dir_all(folder).unwrap();
    let file = folder.join(format!("{name}.rs"));
    fs::write(&file, text).unwrap();
    listed(name, &file)
}

fn listed(name: &str, file: &Path) -> String {
    format!("#[allow(dead_code)]\n#[path = {:?}]\npub mod {name};\n", file.display().to_string())
}
