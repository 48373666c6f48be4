//! Links the proved archives, and finds the original Rust that they are held against.

use std::path::{Path, PathBuf};
use std::{env, fs};

/// The archives, by the crates that they are made of: the library, and the doors for tests.
const ARCHIVES: [&str; 3] = ["doors", "test_doors", "store_doors"];

/// The files that are taken from the original, by their paths below its `src/`. They are compiled
/// unchanged and where they stand; `src/schema.rs` includes each at the original's module path.
const TAKEN: [&str; 3] = [
    "schema/validator/streaming/identity.rs",
    "schema/xsd/constraints.rs",
    "schema/xsd/identity_xpath.rs",
];

fn main() {
    let host = PathBuf::from(env::var("CARGO_MANIFEST_DIR").unwrap());
    link_archives(&host.join("../crates"));
    take_original(&original_folder(&host));
}

/// Each archive stands in the folder of its crate, where rt writes it.
fn link_archives(crates: &Path) {
    for name in ARCHIVES {
        let folder = crates.join(name).join("out");
        let archive = folder.join(format!("lib{name}.a"));
        println!("cargo::rustc-link-search=native={}", folder.display());
        println!("cargo::rerun-if-changed={}", archive.display());
        assert!(
            archive.is_file(),
            "crates/{name}/out/lib{name}.a is not there: `rt lib` in crates/{name} writes it"
        );
        println!("cargo::rustc-link-lib=static={name}");
    }
}

/// The folder that FASTXML_SRC names (a relative name is meant from `host/`), else the one that
/// stands beside the repository.
fn original_folder(host: &Path) -> PathBuf {
    println!("cargo::rerun-if-env-changed=FASTXML_SRC");
    match env::var("FASTXML_SRC") {
        Ok(folder) if !folder.is_empty() => host.join(folder),
        _ => host.join("../../shared/docs/src"),
    }
}

/// Sets the cfg `oracle` and declares each taken file. Without the folder the package is built
/// without an oracle.
fn take_original(folder: &Path) {
    println!("cargo::rustc-check-cfg=cfg(oracle)");
    if folder.is_dir() {
        println!("cargo::rustc-cfg=oracle");
    }
    for file in TAKEN {
        let original = folder.join("src").join(file);
        println!("cargo::rerun-if-changed={}", original.display());
        if folder.is_dir() {
            declare(file, &original);
        }
    }
}

/// Writes the module declaration to include. A folder that lacks the file is a wrong folder, and
/// that is an error. The original may hold functions that no test calls.
fn declare(file: &str, original: &Path) {
    let missing = format!("{} is not there, though its folder is", original.display());
    let original = fs::canonicalize(original).expect(&missing);
    let place = PathBuf::from(env::var("OUT_DIR").unwrap()).join(file);
    let name = place.file_stem().unwrap().to_str().unwrap();
    let declaration = format!("#[allow(dead_code)]\n#[path = {original:?}]\npub mod {name};\n");
    fs::create_dir_all(place.parent().unwrap()).unwrap();
    fs::write(&place, declaration).unwrap();
}
