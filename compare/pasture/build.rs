// Writes the module glue, which names the six files of pasture where they stand. PASTURE_SRC is the folder that holds pasture-core/.
use std::{env, fs, path::Path};

const FILES: [&str; 6] = [
    "pasture-core/src/math/arithmetic.rs",
    "pasture-core/src/layout/point_layout.rs",
    "pasture-core/src/layout/conversion/attribute_conversion.rs",
    "pasture-core/src/layout/conversion/buffer_conversion.rs",
    "pasture-core/src/containers/point_buffer.rs",
    "pasture-core/src/containers/raw_attribute_view.rs",
];

fn main() {
    let src = env::var("PASTURE_SRC").expect("PASTURE_SRC names the folder that holds pasture-core/");
    println!("cargo:rerun-if-env-changed=PASTURE_SRC");
    println!("cargo:rerun-if-changed=build.rs");
    println!("cargo:rerun-if-changed=src/glue.rs.in");
    for f in FILES {
        println!("cargo:rerun-if-changed={}/{}", src, f);
    }
    let glue = fs::read_to_string("src/glue.rs.in").unwrap().replace("@SRC@", &src);
    fs::write(Path::new(&env::var("OUT_DIR").unwrap()).join("glue.rs"), glue).unwrap();
}
