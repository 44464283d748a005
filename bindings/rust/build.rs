// Links libnakvisk.a from target/staticlib at the repository's root, or from the directory that NAKVISK_LIB_DIR names; where it is missing,
// says which command builds it. The documentation alone needs no archive (DOCS_RS).
use std::env;
use std::path::PathBuf;
use std::process::exit;

fn main() {
    let here = PathBuf::from(env::var_os("CARGO_MANIFEST_DIR").expect("cargo sets CARGO_MANIFEST_DIR"));
    let directory = env::var_os("NAKVISK_LIB_DIR").map(PathBuf::from).unwrap_or_else(|| here.join("../../target/staticlib"));
    let archive = directory.join("libnakvisk.a");
    println!("cargo:rerun-if-env-changed=NAKVISK_LIB_DIR");
    println!("cargo:rerun-if-changed={}", archive.display());
    if env::var_os("DOCS_RS").is_some() {
        return;
    }
    if !archive.exists() {
        eprintln!("{} is missing. Run `crates/nakvisk_c/build` at the repository's root,", archive.display());
        eprintln!("or set NAKVISK_LIB_DIR to the directory that has libnakvisk.a.");
        exit(1);
    }
    println!("cargo:rustc-link-search=native={}", directory.display());
    println!("cargo:rustc-link-lib=static=nakvisk");
}
