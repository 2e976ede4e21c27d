//! Links `libhidewillow_c.a` of the folder `build` beside this crate, where `tools/build.py` leaves it, or of the
//! folder that `HIDEWILLOW_LIB` names.
use std::env;
use std::path::{Path, PathBuf};

fn main() {
    println!("cargo::rerun-if-env-changed=HIDEWILLOW_LIB");
    let folder = env::var_os("HIDEWILLOW_LIB")
        .map_or_else(|| Path::new(env!("CARGO_MANIFEST_DIR")).join("../build"), PathBuf::from);
    let library = folder.join("libhidewillow_c.a");
    println!("cargo::rerun-if-changed={}", library.display());
    if library.is_file() {
        println!("cargo::rustc-link-search=native={}", folder.display());
        println!("cargo::rustc-link-lib=static=hidewillow_c");
    } else {
        println!(
            "cargo::error={} is not there: run `tools/build.py library` at the top of the repository, or set \
             HIDEWILLOW_LIB to the folder that has it; rust/README.md tells of both",
            library.display()
        );
    }
}
