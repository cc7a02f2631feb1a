//! Links the static library of the C interface: the file that INTERFACE_LIBRARY
//! names, else target/staticlib/libinterface.a in the repository's root.

use std::env;
use std::path::PathBuf;

fn main() {
    println!("cargo:rerun-if-env-changed=INTERFACE_LIBRARY");
    let library = match env::var_os("INTERFACE_LIBRARY") {
        Some(path) => PathBuf::from(path),
        None => {
            let crate_folder = env::var_os("CARGO_MANIFEST_DIR").expect("set by cargo");
            PathBuf::from(crate_folder).join("../../target/staticlib/libinterface.a")
        }
    };
    println!("cargo:rerun-if-changed={}", library.display());
    assert!(
        library.is_file(),
        "no library at {}; `sh host/library.sh interface` makes it",
        library.display()
    );
    let folder = library.parent().expect("the path of a file");
    let name = library.file_stem().and_then(|stem| stem.to_str());
    let name = name.and_then(|stem| stem.strip_prefix("lib"));
    println!("cargo:rustc-link-search=native={}", folder.display());
    println!(
        "cargo:rustc-link-lib=static={}",
        name.expect("a file lib*.a")
    );
}
