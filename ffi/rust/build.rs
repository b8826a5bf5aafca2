//! Links the library: that in the crate's own folder `lib`, or in the folder in SAPYGUENDO_LIB, or where pkg-config says.
use std::process::Command;

fn main() {
    println!("cargo:rerun-if-env-changed=SAPYGUENDO_LIB");
    println!("cargo:rerun-if-env-changed=PKG_CONFIG_PATH");
    let folder = own().or_else(|| std::env::var("SAPYGUENDO_LIB").ok()).or_else(installed);
    match folder {
        Some(folder) => println!("cargo:rustc-link-search=native={folder}"),
        None => println!("cargo:warning=libsapyguendo.a: set SAPYGUENDO_LIB to its folder, or PKG_CONFIG_PATH to that of sapyguendo.pc (ffi/install makes both)"),
    }
    println!("cargo:rustc-link-lib=static=sapyguendo");
}

fn own() -> Option<String> {
    let folder = format!("{}/lib", std::env::var("CARGO_MANIFEST_DIR").ok()?);
    std::path::Path::new(&folder).join("libsapyguendo.a").exists().then_some(folder)
}

fn installed() -> Option<String> {
    let asked = Command::new("pkg-config").args(["--variable=libdir", "sapyguendo"]).output().ok()?;
    let folder = String::from_utf8(asked.stdout).ok()?;
    asked.status.success().then(|| folder.trim().to_string())
}
