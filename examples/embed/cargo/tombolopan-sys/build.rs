//! Finds libtombolopan and says how to link it. Nothing is fetched.
//!
//! TOMBOLOPAN_LIB_DIR names the folder of `libtombolopan.so`, or of `libtombolopan_c.a` with
//! `liblibc_c.a` beside it; TOMBOLOPAN_STATIC=1 asks for the second where both are there. Without
//! it `pkg-config` is asked, the program that PKG_CONFIG names where that is set.

use std::env;
use std::path::Path;
use std::process::{Command, exit};

const LIBRARY: &str = "TOMBOLOPAN_LIB_DIR";
const STATIC: &str = "TOMBOLOPAN_STATIC";
const PKG_CONFIG: &str = "PKG_CONFIG";

fn main() {
    for name in [LIBRARY, STATIC, PKG_CONFIG, "PKG_CONFIG_PATH"] {
        println!("cargo:rerun-if-env-changed={name}");
    }
    println!("cargo:rerun-if-changed=build.rs");
    if let Err(why) = env::var(LIBRARY).map_or_else(|_| link_as_told(), |it| link_in(&it)) {
        eprintln!("tombolopan-sys: {why}");
        exit(1);
    }
}

/// Links what a folder has.
fn link_in(folder: &str) -> Result<(), String> {
    let has = |name: &str| Path::new(folder).join(name).exists();
    let is_static = env::var(STATIC).is_ok_and(|it| it == "1");
    println!("cargo:rustc-link-search=native={folder}");
    if has("libtombolopan.so") && !is_static {
        println!("cargo:rustc-link-lib=dylib=tombolopan");
        return Ok(());
    }
    if has("libtombolopan_c.a") && has("liblibc_c.a") {
        println!("cargo:rustc-link-lib=static=tombolopan_c");
        println!("cargo:rustc-link-lib=static=libc_c");
        return Ok(());
    }
    Err(format!("{LIBRARY} is {folder}, which has neither libtombolopan.so nor libtombolopan_c.a \
                 with liblibc_c.a"))
}

/// Links what pkg-config tells.
fn link_as_told() -> Result<(), String> {
    let program = env::var(PKG_CONFIG).unwrap_or_else(|_| "pkg-config".to_string());
    let ran = Command::new(&program).args(["--libs", "tombolopan"]).output();
    let told = ran.map_err(|why| format!("{program}: {why} ({LIBRARY} may name the folder)"))?;
    if !told.status.success() {
        let why = String::from_utf8_lossy(&told.stderr);
        return Err(format!("{program} finds no tombolopan ({LIBRARY} may name its folder): {why}"));
    }
    for word in String::from_utf8_lossy(&told.stdout).split_whitespace() {
        if let Some(folder) = word.strip_prefix("-L") {
            println!("cargo:rustc-link-search=native={folder}");
        } else if let Some(name) = word.strip_prefix("-l") {
            println!("cargo:rustc-link-lib={name}");
        }
    }
    Ok(())
}
