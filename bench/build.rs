// Links libplanner_c.a from where `tools/build planner_c` puts it, or from the folder that PLANNER_LIB_DIR names.
// Without it only the plain Rust version is measured. Beside it, where PLANNER_BEFORE_DIR names a folder, the library of an
// earlier state: libplanner_before.a, whose names begin with `before_`, and its header planner.h; it may be of a time before
// questions had lists, before they had vans, or before few trials were asked for.
use std::env;
use std::fs::read;
use std::path::PathBuf;

fn main() {
    let folder = match env::var_os("PLANNER_LIB_DIR") {
        Some(folder) => PathBuf::from(folder),
        None => {
            PathBuf::from(env::var_os("CARGO_MANIFEST_DIR").unwrap()).join("../target/staticlib")
        }
    };
    let archive = folder.join("libplanner_c.a");
    println!("cargo:rerun-if-env-changed=PLANNER_LIB_DIR");
    println!("cargo:rerun-if-changed={}", archive.display());
    println!("cargo:rustc-check-cfg=cfg(linked)");
    if archive.exists() {
        println!("cargo:rustc-cfg=linked");
        println!("cargo:rustc-link-search=native={}", folder.display());
        println!("cargo:rustc-link-lib=static=planner_c");
    }
    println!("cargo:rerun-if-env-changed=PLANNER_BEFORE_DIR");
    println!("cargo:rustc-check-cfg=cfg(earlier)");
    println!("cargo:rustc-check-cfg=cfg(earlier_within)");
    println!("cargo:rustc-check-cfg=cfg(earlier_lists, values(\"none\", \"classes\", \"all\"))");
    if let (true, Ok(folder)) = (archive.exists(), env::var("PLANNER_BEFORE_DIR")) {
        println!("cargo:rustc-cfg=earlier");
        println!("cargo:rustc-cfg=earlier_lists=\"{}\"", lists(&folder));
        if has(&folder, "libplanner_before.a", b"before_within\0") {
            println!("cargo:rustc-cfg=earlier_within");
        }
        println!("cargo:rustc-link-search=native={folder}");
        println!("cargo:rustc-link-lib=static=planner_before");
    }
}

/// The lists that the earlier library's questions may bring: its general functions have parameters for no others.
fn lists(folder: &str) -> &'static str {
    if !has(folder, "libplanner_before.a", b"before_ask\0") {
        return "none";
    }
    match has(folder, "planner.h", b"PLANNER_VANS") {
        true => "all",
        false => "classes",
    }
}

/// Whether a name stands in a file of a folder.
fn has(folder: &str, file: &str, name: &[u8]) -> bool {
    let bytes = read(format!("{folder}/{file}")).expect(file);
    bytes.windows(name.len()).any(|bytes| bytes == name)
}
