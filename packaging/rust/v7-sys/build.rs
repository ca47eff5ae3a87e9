//! Finds libv7: in the folder that LIBV7_DIR names, or else where pkg-config says.
use std::env;
use std::process::Command;

fn main() {
    println!("cargo:rerun-if-env-changed=LIBV7_DIR");
    println!("cargo:rustc-link-lib=v7");
    if let Ok(folder) = env::var("LIBV7_DIR") {
        println!("cargo:rustc-link-search=native={folder}");
    } else if let Ok(asked) = Command::new("pkg-config").args(["--variable=libdir", "v7"]).output() {
        let folder = String::from_utf8_lossy(&asked.stdout).trim().to_string();
        if !folder.is_empty() {
            println!("cargo:rustc-link-search=native={folder}");
        }
    }
}
