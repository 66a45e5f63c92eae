//! Says where the archive of the library for the target is: in the folder that SERIALCHECK_LIB_DIR names, else in the clone
//! (`prebuilt/`), or in the folder that `tools/package` made (`lib/`).
use std::env;
use std::path::{Path, PathBuf};

const ARCHIVE: &str = "libserialcheck.a";

fn main() {
    let here = PathBuf::from(env::var_os("CARGO_MANIFEST_DIR").expect("cargo names the folder of the crate"));
    let top = here.parent().and_then(Path::parent).expect("the crate is two folders below the top").to_path_buf();
    let folders = match env::var_os("SERIALCHECK_LIB_DIR") {
        Some(named) => vec![PathBuf::from(named)],
        None if env::var("CARGO_CFG_TARGET_ARCH").as_deref() == Ok("aarch64") => {
            vec![top.join("prebuilt").join("aarch64"), top.join("linux-aarch64").join("lib")]
        }
        None => vec![top.join("prebuilt"), top.join("lib")],
    };
    println!("cargo:rerun-if-env-changed=SERIALCHECK_LIB_DIR");
    let folder = folders.iter().find(|it| it.join(ARCHIVE).is_file());
    let folder = folder
        .unwrap_or_else(|| panic!("there is no {ARCHIVE} in {folders:?}: depend on the crate in a clone, or name the folder that has it: SERIALCHECK_LIB_DIR"));
    println!("cargo:rerun-if-changed={}", folder.join(ARCHIVE).display());
    // The archive of a clone has the proved call of `list` alone (src/keyed.rs).
    println!("cargo:rustc-check-cfg=cfg(keyed)");
    if folder.components().any(|it| it.as_os_str() == "prebuilt") {
        println!("cargo:rustc-cfg=keyed");
    }
    println!("cargo:rustc-link-search=native={}", folder.display());
    println!("cargo:rustc-link-lib=static=serialcheck");
}
