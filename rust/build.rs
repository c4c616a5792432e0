//! Links libdesklink.a, and finds the original Rust sources for the comparison and the benchmark.
use std::path::{Path, PathBuf};
use std::{env, fs};

/// The names that each original file may have, below its folder.
const SOURCES: [(&str, [&str; 3]); 3] = [
    ("crc", ["crc.rs", "src/codec/crc.rs", "src--src--codec--crc.rs.txt"]),
    ("ldpc", ["ldpc.rs", "src/codec/ldpc.rs", "src--src--codec--ldpc.rs.txt"]),
    ("ldpc_codes", ["ldpc_codes.rs", "src/fec/ldpc_codes.rs", "src--src--fec--ldpc_codes.rs.txt"]),
];

fn link(root: &Path) {
    println!("cargo::rerun-if-env-changed=DESKLINK_LIB");
    let folder = env::var_os("DESKLINK_LIB").map_or(root.join("target/staticlib"), PathBuf::from);
    let archive = folder.join("libdesklink.a");
    println!("cargo::rerun-if-changed={}", archive.display());
    if !archive.is_file() {
        println!(
            "cargo::error=libdesklink.a is not in {}: run `tools/build desklink` in the repository's root, or set DESKLINK_LIB to its folder",
            folder.display()
        );
    }
    println!("cargo::rustc-link-search=native={}", folder.display());
    println!("cargo::rustc-link-lib=static=desklink");
}

/// The path of each original file, where the folder has all three; or else the name of one that it lacks.
fn originals(folder: &Path) -> Result<Vec<(&'static str, PathBuf)>, &'static str> {
    SOURCES
        .iter()
        .map(|(module, names)| {
            let found = names.iter().map(|name| folder.join(name)).find(|path| path.is_file()).ok_or(names[0])?;
            Ok((*module, found.canonicalize().map_err(|_| names[0])?))
        })
        .collect()
}

/// A module of the original file, and of what the tests read of its private parts.
fn module(here: &Path, name: &str, original: &Path) -> String {
    let more = here.join(format!("tests/original/{name}.rs"));
    println!("cargo::rerun-if-changed={}", more.display());
    let more = if more.is_file() { format!("include!({more:?});") } else { String::new() };
    format!("#[allow(dead_code)]\npub mod {name} {{\n    include!({original:?});\n    {more}\n}}\n")
}

fn reference(here: &Path, root: &Path) {
    println!("cargo::rerun-if-env-changed=ORION_SRC");
    println!("cargo::rustc-check-cfg=cfg(orion)");
    let named = env::var_os("ORION_SRC").map(PathBuf::from);
    let folder = named.clone().unwrap_or(root.join("../shared/docs"));
    let mut text = String::new();
    match originals(&folder) {
        Ok(files) => {
            println!("cargo::rustc-cfg=orion");
            for (name, path) in files {
                println!("cargo::rerun-if-changed={}", path.display());
                text += &module(here, name, &path);
            }
        }
        // A folder that was named has to have them; without one the comparison itself says what is missing.
        Err(lacking) if named.is_some() => println!("cargo::error=ORION_SRC is {}, which has no {lacking}", folder.display()),
        Err(_) => {}
    }
    let out = PathBuf::from(env::var_os("OUT_DIR").expect("cargo sets OUT_DIR")).join("orion.rs");
    fs::write(out, text).expect("OUT_DIR can be written");
}

fn main() {
    let here = PathBuf::from(env::var_os("CARGO_MANIFEST_DIR").expect("cargo sets CARGO_MANIFEST_DIR"));
    let root = here.parent().expect("the package lies in the repository");
    println!("cargo::rerun-if-changed=build.rs");
    link(root);
    reference(&here, root);
}
