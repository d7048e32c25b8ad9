//! Finds the library: in the folder that `LINKCAP_LIB_DIR` names, or by pkg-config. It links the static one if there is one.
//! Without a library this script succeeds, so that documentation and checks need none; a program then fails to link.

use std::env;
use std::path::Path;
use std::process::Command;

/// Returns the folder that pkg-config names.
fn find_folder() -> Option<String> {
    let output = Command::new("pkg-config").args(["--variable=libdir", "linkcap"]).output().ok()?;
    let folder = String::from_utf8(output.stdout).ok()?.trim().to_string();
    (output.status.success() && !folder.is_empty()).then_some(folder)
}

/// Returns the kind of the library in a folder.
fn find_link_kind(folder: &str) -> &'static str {
    if Path::new(folder).join("liblinkcap.a").exists() {
        "static"
    } else {
        "dylib"
    }
}

fn main() {
    for variable in ["LINKCAP_LIB_DIR", "PKG_CONFIG_PATH"] {
        println!("cargo:rerun-if-env-changed={variable}");
    }
    if let Some(folder) = env::var("LINKCAP_LIB_DIR").ok().or_else(find_folder) {
        println!("cargo:rerun-if-changed={folder}/liblinkcap.a");
        println!("cargo:rustc-link-search=native={folder}");
        println!("cargo:rustc-link-lib={}=linkcap", find_link_kind(&folder));
    } else {
        println!("cargo:warning=no liblinkcap: name its folder in LINKCAP_LIB_DIR, or install it where pkg-config looks");
        println!("cargo:rustc-link-lib=linkcap");
    }
}
