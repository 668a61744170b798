//! Links libnimbohaza.a from the folder that NIMBOHAZA_LIB names.

use std::{env, path::PathBuf, process};

fn main() {
    println!("cargo:rerun-if-env-changed=NIMBOHAZA_LIB");
    let folder = match env::var_os("NIMBOHAZA_LIB") {
        Some(folder) => PathBuf::from(folder),
        None => stop("NIMBOHAZA_LIB is not set: it names the folder of libnimbohaza.a"),
    };
    let archive = folder.join("libnimbohaza.a");
    if !folder.is_absolute() {
        stop("NIMBOHAZA_LIB is not an absolute path");
    }
    if !archive.is_file() {
        stop("there is no libnimbohaza.a in the folder NIMBOHAZA_LIB");
    }
    println!("cargo:rerun-if-changed={}", archive.display());
    println!("cargo:rustc-link-search=native={}", folder.display());
    println!("cargo:rustc-link-lib=static=nimbohaza");
}

fn stop(message: &str) -> ! {
    eprintln!("nimbohaza: {message}");
    process::exit(1);
}
