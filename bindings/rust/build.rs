//! Finds libdm: in the folder that `DM_LIBRARY_DIR` names, or where pkg-config finds dm.pc. `DM_STATIC=1` links libdm.a.

use std::env;
use std::process::Command;

fn main() {
    println!("cargo:rerun-if-env-changed=DM_LIBRARY_DIR");
    println!("cargo:rerun-if-env-changed=DM_STATIC");
    println!("cargo:rerun-if-env-changed=PKG_CONFIG_PATH");
    let kind = match env::var("DM_STATIC") {
        Ok(word) if word == "1" => "static",
        _ => "dylib",
    };
    for folder in folders() {
        println!("cargo:rustc-link-search=native={folder}");
        // The tests of this crate run where the library isn't installed.
        println!("cargo:rustc-link-arg=-Wl,-rpath,{folder}");
    }
    println!("cargo:rustc-link-lib={kind}=dm");
}

fn folders() -> Vec<String> {
    if let Ok(folder) = env::var("DM_LIBRARY_DIR") {
        return vec![folder];
    }
    let found = Command::new("pkg-config").args(["--libs-only-L", "--keep-system-libs", "dm"]).output();
    match found {
        Ok(found) if found.status.success() => String::from_utf8_lossy(&found.stdout)
            .split_whitespace()
            .filter_map(|word| word.strip_prefix("-L").map(str::to_owned))
            .collect(),
        _ => panic!("libdm isn't found: name its folder in DM_LIBRARY_DIR, or let pkg-config find dm.pc (PKG_CONFIG_PATH)"),
    }
}
