//! Links the static library. A crate that was packed (`make crate`) has it, with what it takes memory by, for one kind of machine.
//!
//! Else these are the static library of crates/ext_c and the kit's C library. EXT_C_LIBRARY names the one, as DIRECTORY/libext_c.a; without
//! it it is crates/ext_c/out/libext_c.a of this repository, as `rt lib` in crates/ext_c leaves it. EXT_C_ALLOCATOR names the other, as
//! DIRECTORY/liblibc_c.a; without it it is c/liblibc_c.a of the kit whose command `rt` is on the path.
use std::env;
use std::path::{Path, PathBuf};
use std::process::exit;

fn main() {
    for name in ["EXT_C_LIBRARY", "EXT_C_ALLOCATOR", "PATH"] {
        println!("cargo:rerun-if-env-changed={name}");
    }
    let here = PathBuf::from(env::var_os("CARGO_MANIFEST_DIR").expect("cargo sets it"));
    let target = env::var("TARGET").expect("cargo sets it");
    let packed = here.join("prebuilt");
    if packed.is_dir() {
        let hint = format!("the crate has no library for {target}");
        return link(&packed.join(target).join("libextension_store.a"), &hint);
    }
    // The first one calls the second, so it stands before it.
    link(
        &named("EXT_C_LIBRARY").unwrap_or_else(|| here.join("../../crates/ext_c/out/libext_c.a")),
        "run `rt lib` in crates/ext_c, or set EXT_C_LIBRARY",
    );
    link(
        &named("EXT_C_ALLOCATOR").unwrap_or_else(kit_allocator),
        "put the kit's `rt` on the path, or set EXT_C_ALLOCATOR",
    );
}

fn named(variable: &str) -> Option<PathBuf> {
    env::var_os(variable).map(PathBuf::from)
}

/// The folder of `rt` lies in the kit, beside the folder `c`.
fn kit_allocator() -> PathBuf {
    let path = env::var_os("PATH").unwrap_or_default();
    let commands = env::split_paths(&path).map(|folder| folder.join("rt"));
    let kits = commands.filter_map(|it| {
        it.canonicalize()
            .ok()?
            .parent()?
            .parent()
            .map(Path::to_path_buf)
    });
    let mut libraries = kits.map(|kit| kit.join("c/liblibc_c.a"));
    libraries
        .find(|it| it.is_file())
        .unwrap_or_else(|| PathBuf::from("liblibc_c.a"))
}

/// Links the library at this path, by the name of its file: lib, the name, and .a.
fn link(library: &Path, hint: &str) {
    let Ok(file) = library.canonicalize() else {
        eprintln!("{} is not there: {hint}", library.display());
        exit(1);
    };
    let name = file
        .file_stem()
        .and_then(|it| it.to_str())
        .and_then(|it| it.strip_prefix("lib"));
    let (Some(name), Some(folder)) = (name, file.parent()) else {
        eprintln!("{} is not named as a library, libNAME.a", file.display());
        exit(1);
    };
    println!("cargo:rerun-if-changed={}", file.display());
    println!("cargo:rustc-link-search=native={}", folder.display());
    println!("cargo:rustc-link-lib=static={name}");
}
