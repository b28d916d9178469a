// Links the static library of the proved services, the repository's target/staticlib/libvelimhaw.a. Where it is not there yet, it is first
// made by `rt lib` in crates/velimhaw_c and copied to its place.
use std::path::Path;
use std::process::Command;

fn main() {
    let here = std::env::var("CARGO_MANIFEST_DIR").expect("cargo sets this");
    let repository = Path::new(&here).join("../..");
    let folder = repository.join("target/staticlib");
    let library = folder.join("libvelimhaw.a");
    if !library.exists() {
        make(&repository.join("crates/velimhaw_c"), &folder);
    }
    println!("cargo:rustc-link-search=native={}", folder.display());
    println!("cargo:rustc-link-lib=static=velimhaw");
    println!("cargo:rerun-if-changed={}", library.display());
}

fn make(exports: &Path, folder: &Path) {
    let made = Command::new("rt").arg("lib").current_dir(exports).status();
    assert!(made.is_ok_and(|status| status.success()), "`rt lib` fails in {}", exports.display());
    std::fs::create_dir_all(folder).expect("the library's folder can be made");
    std::fs::copy(exports.join("out/libvelimhaw_c.a"), folder.join("libvelimhaw.a")).expect("the library can be copied");
}
