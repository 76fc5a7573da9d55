//! Links with libtinyjson.a: of the folder that TINYJSON_LIB_DIR names, of the crate's own folder lib/TARGET, or of
//! ../out, where `tools/bindings` builds it.
use std::env;
use std::path::PathBuf;
use std::process;

fn main() {
    println!("cargo:rerun-if-env-changed=TINYJSON_LIB_DIR");
    let here = PathBuf::from(env::var_os("CARGO_MANIFEST_DIR").unwrap());
    let target = env::var("TARGET").unwrap();
    let folders = match env::var_os("TINYJSON_LIB_DIR") {
        Some(folder) => vec![PathBuf::from(folder)],
        None => vec![here.join("lib").join(&target), here.join("../out")],
    };
    let library = |folder: &PathBuf| folder.join("libtinyjson.a");
    for folder in &folders {
        println!("cargo:rerun-if-changed={}", library(folder).display());
    }
    match folders.iter().find(|folder| library(folder).is_file()) {
        Some(folder) => {
            println!("cargo:rustc-link-search=native={}", folder.display());
            println!("cargo:rustc-link-lib=static=tinyjson");
        }
        None => {
            eprintln!("no libtinyjson.a for {target}: run tools/bindings of tinyjson's repository, and set TINYJSON_LIB_DIR to its folder bindings/out");
            process::exit(1);
        }
    }
}
