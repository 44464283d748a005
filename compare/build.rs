// Links libnakvisk.a from the folder that NAKVISK_LIB_DIR names.
use std::env;

fn main() {
    let folder = env::var("NAKVISK_LIB_DIR").expect("NAKVISK_LIB_DIR names the folder of libnakvisk.a");
    println!("cargo:rustc-link-search=native={}", folder);
    println!("cargo:rustc-link-lib=static=nakvisk");
    println!("cargo:rerun-if-env-changed=NAKVISK_LIB_DIR");
    println!("cargo:rerun-if-changed={}/libnakvisk.a", folder);
}
