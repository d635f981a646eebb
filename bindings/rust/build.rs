//! Links liblumeviqo.a from LUMEVIQO_LIB, or from where `tools/build library` writes it, and takes over the numbers of the header.
use std::path::{Path, PathBuf, absolute};
use std::{env, fs};

fn main() {
    let here = PathBuf::from(env::var("CARGO_MANIFEST_DIR").unwrap());
    let root = here.ancestors().nth(2).unwrap_or(&here);
    link(root);
    let header = root.join("include/lumeviqo.h");
    println!("cargo::rerun-if-changed={}", header.display());
    match fs::read_to_string(&header) {
        Ok(text) => fs::write(PathBuf::from(env::var("OUT_DIR").unwrap()).join("header.rs"), constants(&text)).unwrap(),
        Err(e) => println!("cargo::error={}: {e}: this crate is built inside the repository, which has it", header.display()),
    }
}

fn link(root: &Path) {
    println!("cargo::rerun-if-env-changed=LUMEVIQO_LIB");
    let folder = env::var("LUMEVIQO_LIB").map_or_else(|_| root.join("target/staticlib"), PathBuf::from);
    let folder = absolute(&folder).unwrap_or(folder);
    let library = folder.join("liblumeviqo.a");
    println!("cargo::rerun-if-changed={}", library.display());
    if !library.is_file() {
        println!(
            "cargo::error=there is no {}: run `tools/build library` in the repository's root, which makes it, or let LUMEVIQO_LIB name \
             the folder that has it",
            library.display()
        );
    }
    println!("cargo::rustc-link-search=native={}", folder.display());
    println!("cargo::rustc-link-lib=static=lumeviqo");
}

/// A constant for each macro with a value, which is made of numbers and other macros: `#define LUMEVIQO_NAME VALUE /* remark */`.
fn constants(header: &str) -> String {
    let constant = |line: &str| {
        let (name, rest) = line.strip_prefix("#define LUMEVIQO_")?.split_once(' ')?;
        let (value, remark) = rest.split_once("/*").unwrap_or((rest, ""));
        let value = value.trim().replace("LUMEVIQO_", "");
        let remark: Vec<&str> = remark.trim_end().trim_end_matches("*/").split_whitespace().collect();
        let remark = if remark.is_empty() { String::new() } else { format!(": {}", remark.join(" ")) };
        Some(format!("/// `LUMEVIQO_{name}`{remark}.\npub const {name}: usize = {value};\n"))
    };
    header.lines().filter_map(constant).collect()
}
