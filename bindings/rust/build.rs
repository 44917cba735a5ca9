// Finds the library, or has tools/archive make it: the folder that MAVISDROK_LIB_DIR names, or target/native of the project.
use std::path::Path;
use std::process::{exit, Command};

const ROOT: &str = concat!(env!("CARGO_MANIFEST_DIR"), "/../..");

fn main() {
    println!("cargo:rerun-if-env-changed=MAVISDROK_LIB_DIR");
    let folder = match std::env::var("MAVISDROK_LIB_DIR") {
        Ok(folder) => folder,
        Err(_) => made(),
    };
    let archive = format!("{folder}/libmavisdrok.a");
    if !Path::new(&archive).exists() {
        fail(&format!("{archive}, the library, is not there"));
    }
    println!("cargo:rerun-if-changed={archive}");
    println!("cargo:rustc-link-search=native={folder}");
    println!("cargo:rustc-link-lib=static=mavisdrok");
}

/// The project's own folder of the library, which tools/archive brings up to date.
fn made() -> String {
    for source in ["crates.txt", "tools/archive", "tools/native.sh", "bindings/c/mavisdrok.h"] {
        println!("cargo:rerun-if-changed={ROOT}/{source}");
    }
    // Of a crate its sources alone: beside them is what the toolchain keeps, which changes with each check.
    for folder in std::fs::read_dir(format!("{ROOT}/crates")).into_iter().flatten().flatten() {
        println!("cargo:rerun-if-changed={}/src", folder.path().display());
    }
    let header = std::fs::read_to_string(format!("{ROOT}/bindings/c/mavisdrok.h")).unwrap_or_default();
    if !header.contains(concat!("#define MAVISDROK_VERSION \"", env!("CARGO_PKG_VERSION"), "\"\n")) {
        fail(concat!("Cargo.toml has version ", env!("CARGO_PKG_VERSION"), ", and bindings/c/mavisdrok.h another"));
    }
    match Command::new(format!("{ROOT}/tools/archive")).output() {
        Ok(run) if run.status.success() => format!("{ROOT}/target/native"),
        Ok(run) => fail(String::from_utf8_lossy(&run.stderr).trim()),
        Err(error) => fail(&format!("tools/archive cannot be run: {error}")),
    }
}

/// One sentence, and the end.
fn fail(why: &str) -> ! {
    eprintln!("mavisdrok: the library cannot be linked: {why}");
    exit(1)
}
