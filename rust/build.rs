//! Links the library that tests/library.sh makes: target/staticlib/libodr.a of this repository, or libodr.a in the folder that the
//! environment variable ODR_LIB_DIR names. A path that is not a full one starts at this package.

use std::path::Path;

fn main() {
    let package = Path::new(env!("CARGO_MANIFEST_DIR"));
    let repository = package.parent().unwrap_or(package);
    let given = std::env::var_os("ODR_LIB_DIR").filter(|folder| !folder.is_empty());
    let folder = given.map_or_else(|| repository.join("target/staticlib"), |folder| package.join(folder));
    let library = folder.join("libodr.a");
    if !library.is_file() {
        println!(
            "cargo::error=there is no {}: run `tests/library.sh` in {}, or give the folder of a libodr.a in ODR_LIB_DIR",
            library.display(),
            repository.display()
        );
    }
    println!("cargo:rustc-link-search=native={}", folder.display());
    println!("cargo:rustc-link-lib=static=odr");
    println!("cargo:rerun-if-changed={}", library.display());
    println!("cargo:rerun-if-env-changed=ODR_LIB_DIR");
}
