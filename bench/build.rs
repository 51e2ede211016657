//! Compiles plain.c, with the C compiler that the environment variable CC
//! names, or else cc; and finds out whether the by-value step can be timed.
//! That can't be exported as it is, since an exported function may hold no
//! enum. What the benchmark calls, where it is there, is
//!
//!     uint32_t by_value_steps(const uint8_t *setup, size_t setup_length,
//!                             const uint8_t *job, size_t job_length,
//!                             uint32_t workers,
//!                             const uint8_t *order, size_t order_length);
//!
//! which sets up an engine by value, begins the job under lock 0 for each of
//! the first so many workers, makes one step for each byte of the order, of
//! the worker that it names, and tells how many steps were accepted. It is
//! looked for in the engine's archive itself, and in the one that the
//! environment variable BY_VALUE_ARCHIVE names by a whole path, or else
//! target/staticlib/libby_value.a. Where it is in neither, the table has no
//! column for it.

use std::ffi::OsString;
use std::path::{Path, PathBuf};
use std::process::Command;
use std::{env, fs};

const NAME: &[u8] = b"by_value_steps\0";
/// The level at which plain.c takes the fewest instructions.
const LEVEL: &str = "-O3";

fn main() {
    let package = PathBuf::from(env::var_os("CARGO_MANIFEST_DIR").expect("cargo sets it"));
    let made = package.join("../target/staticlib");
    let archive = named("CHANTGARDEN_ARCHIVE", made.join("libchantgarden.a"));
    let beside = named("BY_VALUE_ARCHIVE", made.join("libby_value.a"));
    println!("cargo:rerun-if-changed=build.rs");
    compile_plain(&package);
    if has_name(&archive) {
        println!("cargo:rustc-cfg=by_value");
    } else if has_name(&beside) {
        println!("cargo:rustc-cfg=by_value");
        let folder = beside.parent().unwrap_or(&made).display();
        let name = beside.file_name().unwrap_or_default().to_string_lossy();
        println!("cargo:rustc-link-search=native={folder}");
        println!("cargo:rustc-link-lib=static:+verbatim={name}");
    }
}

fn compile_plain(package: &Path) {
    let (source, include) = (package.join("plain.c"), package.join("../include"));
    let header = include.join("chantgarden.h");
    println!("cargo:rerun-if-changed={}", source.display());
    println!("cargo:rerun-if-changed={}", header.display());
    println!("cargo:rerun-if-env-changed=CC");
    let folder = PathBuf::from(env::var_os("OUT_DIR").expect("cargo sets it"));
    let (object, archive) = (folder.join("plain.o"), folder.join("libplain.a"));
    let compiler = env::var_os("CC").unwrap_or(OsString::from("cc"));
    let mut compile = Command::new(compiler);
    compile.args([LEVEL, "-std=c11", "-Wall", "-Wextra", "-c"]);
    run(compile
        .arg("-I")
        .args([include, source])
        .arg("-o")
        .arg(&object));
    run(Command::new("ar").arg("crs").args([archive, object]));
    println!("cargo:rustc-link-search=native={}", folder.display());
    println!("cargo:rustc-link-lib=static=plain");
}

fn run(command: &mut Command) {
    let done = command.status();
    assert!(done.is_ok_and(|done| done.success()), "{command:?}");
}

fn named(variable: &str, made: PathBuf) -> PathBuf {
    println!("cargo:rerun-if-env-changed={variable}");
    let archive = env::var_os(variable).map_or(made, PathBuf::from);
    println!("cargo:rerun-if-changed={}", archive.display());
    archive
}

fn has_name(archive: &Path) -> bool {
    let bytes = fs::read(archive).unwrap_or_default();
    bytes.windows(NAME.len()).any(|part| part == NAME)
}
