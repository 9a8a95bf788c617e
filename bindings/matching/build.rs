// Links libmatching_c.a from where `tools/build matching_c` puts it, or from the folder that MATCHING_LIB_DIR names.
use std::env;
use std::path::PathBuf;
use std::process::exit;

fn main() {
    let folder = match env::var_os("MATCHING_LIB_DIR") {
        Some(folder) => PathBuf::from(folder),
        None => {
            PathBuf::from(env::var_os("CARGO_MANIFEST_DIR").unwrap()).join("../../target/staticlib")
        }
    };
    let archive = folder.join("libmatching_c.a");
    println!("cargo:rerun-if-env-changed=MATCHING_LIB_DIR");
    println!("cargo:rerun-if-changed={}", archive.display());
    if !archive.exists() {
        eprintln!("{} is not there.", archive.display());
        eprintln!("`tools/build matching_c`, at the top of the repository, puts it into target/staticlib;");
        eprintln!("MATCHING_LIB_DIR names another folder that has it.");
        exit(1);
    }
    println!("cargo:rustc-link-search=native={}", folder.display());
    println!("cargo:rustc-link-lib=static=matching_c");
}
