//! Links the library: from the folder that VOIDOSIER_LIB names, or else from where pkg-config finds it.
use std::env;
use std::process::Command;

fn main() {
    println!("cargo:rerun-if-env-changed=VOIDOSIER_LIB");
    let folder = env::var("VOIDOSIER_LIB").unwrap_or_else(|_| {
        let found = Command::new("pkg-config")
            .args(["--variable=libdir", "voidosier"])
            .output();
        let found = found.expect("pkg-config says where the library is, or VOIDOSIER_LIB");
        assert!(
            found.status.success(),
            "pkg-config knows no voidosier: set VOIDOSIER_LIB"
        );
        String::from_utf8(found.stdout)
            .expect("a folder in UTF-8")
            .trim()
            .to_owned()
    });
    println!("cargo:rustc-link-search=native={folder}");
    println!("cargo:rustc-link-lib=static=voidosier");
}
