//! Links libpanelrights.a from the folder that PANELRIGHTS_LIB_DIR names (a whole path), or else from where `make lib` puts it.

use std::env;
use std::path::PathBuf;

fn main() {
    println!("cargo:rerun-if-env-changed=PANELRIGHTS_LIB_DIR");
    let folder = match env::var_os("PANELRIGHTS_LIB_DIR") {
        Some(named) => PathBuf::from(named),
        None => PathBuf::from(env!("CARGO_MANIFEST_DIR")).join("../../target/lib"),
    };
    let library = folder.join("libpanelrights.a");
    println!("cargo:rerun-if-changed={}", library.display());
    // `cargo check` does without the library.
    if !library.is_file() {
        let advice = "run `make lib`, or name its folder in PANELRIGHTS_LIB_DIR";
        println!("cargo:warning={} is not there: {advice}", library.display());
    }
    println!("cargo:rustc-link-search=native={}", folder.display());
    println!("cargo:rustc-link-lib=static=panelrights");
}
