//! Links the engine's archive, and takes the number of a state's numbers from
//! the C header, where alone it stands. The archive is the file that the
//! environment variable CHANTGARDEN_ARCHIVE names by a whole path, or else
//! target/staticlib/libchantgarden.a of the folder above: scripts/archive
//! makes it.

use std::path::{Path, PathBuf};
use std::process::exit;
use std::{env, fs};

const VARIABLE: &str = "CHANTGARDEN_ARCHIVE";
const DEFINED: &str = "#define CHANT_STATE_NUMBERS ";

fn main() {
    let package = PathBuf::from(env::var_os("CARGO_MANIFEST_DIR").expect("cargo sets it"));
    let above = package.parent().expect("it stands in the repository");
    println!("cargo:rerun-if-changed=build.rs");
    link(above);
    take_number(above);
}

fn link(above: &Path) {
    println!("cargo:rerun-if-env-changed={VARIABLE}");
    let made = above.join("target/staticlib/libchantgarden.a");
    let archive = env::var_os(VARIABLE).map_or(made, PathBuf::from);
    let there = archive.display();
    println!("cargo:rerun-if-changed={there}");
    let (Some(folder), Some(name), true) =
        (archive.parent(), archive.file_name(), archive.is_file())
    else {
        eprintln!("no archive {there}: scripts/archive makes it, or {VARIABLE} names another");
        exit(1);
    };
    let (folder, name) = (folder.display(), name.to_string_lossy());
    println!("cargo:rustc-link-search=native={folder}");
    println!("cargo:rustc-link-lib=static:+verbatim={name}");
}

fn take_number(above: &Path) {
    let header = above.join("include/chantgarden.h");
    println!("cargo:rerun-if-changed={}", header.display());
    let text = fs::read_to_string(&header).expect("the header can be read");
    let number = text.lines().find_map(|line| line.strip_prefix(DEFINED));
    let number: usize = number
        .and_then(|number| number.trim().parse().ok())
        .expect("the header defines the number");
    let folder = PathBuf::from(env::var_os("OUT_DIR").expect("cargo sets it"));
    fs::write(folder.join("numbers"), format!("{number}")).expect("it can be written");
}
