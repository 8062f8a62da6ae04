//! Links the library: `libjc_c.a` and the kit's `liblibc_c.a` from the folders of the variable JCACHE_FOLDERS, or, where it
//! is not set, the installed library that pkg-config finds.
use std::ffi::OsString;
use std::process::Command;

fn main() {
    println!("cargo:rerun-if-env-changed=JCACHE_FOLDERS");
    println!("cargo:rerun-if-env-changed=PKG_CONFIG_PATH");
    match std::env::var_os("JCACHE_FOLDERS") {
        Some(folders) => link_archives(&folders),
        None => link_installed(),
    }
}

fn link_archives(folders: &OsString) {
    for folder in std::env::split_paths(folders) {
        println!("cargo:rustc-link-search=native={}", folder.display());
    }
    println!("cargo:rustc-link-lib=static=jc_c");
    println!("cargo:rustc-link-lib=static=libc_c");
}

fn link_installed() {
    let found = Command::new("pkg-config").args(["--libs", "jcache"]).output().expect("pkg-config runs");
    assert!(
        found.status.success(),
        "set JCACHE_FOLDERS, or install the library: {}",
        String::from_utf8_lossy(&found.stderr)
    );
    for word in String::from_utf8_lossy(&found.stdout).split_whitespace() {
        if let Some(folder) = word.strip_prefix("-L") {
            println!("cargo:rustc-link-search=native={folder}");
        } else if let Some(library) = word.strip_prefix("-l") {
            println!("cargo:rustc-link-lib={library}");
        }
    }
}
