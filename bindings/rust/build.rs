//! Links the static library that `make lib` leaves in the repository's folder `out`. `TAMBYULO_LIB_DIR` names another folder
//! that has `libtambyulo.a`.

use std::env;
use std::path::PathBuf;

fn main() {
    println!("cargo:rerun-if-env-changed=TAMBYULO_LIB_DIR");
    let folder = match env::var_os("TAMBYULO_LIB_DIR") {
        Some(folder) => PathBuf::from(folder),
        None => PathBuf::from(env!("CARGO_MANIFEST_DIR")).join("../../out"),
    };
    let library = folder.join("libtambyulo.a");
    assert!(
        library.is_file(),
        "there is no {}: `make lib` at the top of the repository makes it",
        library.display()
    );
    println!("cargo:rerun-if-changed={}", library.display());
    println!("cargo:rustc-link-search=native={}", folder.display());
    println!("cargo:rustc-link-lib=static=tambyulo");
}
