//! Finds the C library: in the folder that `MANGOHATCH_TIFF_LIB_DIR` names, else by `pkg-config`.
//! And sets a `cfg` where the compiler shows the package's own messages.

use std::env;
use std::path::{Path, PathBuf};
use std::process::Command;

const NAME: &str = "mangohatch_tiff";
const FOLDER: &str = "MANGOHATCH_TIFF_LIB_DIR";

/// The first version of the C library that has all calls which this package makes.
const VERSION: &str = "9";

fn main() {
    println!("cargo:rerun-if-changed=build.rs");
    for variable in [FOLDER, "PKG_CONFIG", "PKG_CONFIG_PATH"] {
        println!("cargo:rerun-if-env-changed={variable}");
    }
    match env::var_os(FOLDER) {
        Some(folder) => link_in(&PathBuf::from(folder)),
        None => link_by_pkg_config(),
    }
    set_has_diagnostics();
}

/// Sets `has_diagnostics` for a compiler that has the attributes `diagnostic::..`, with which a
/// package writes messages of its own: Rust 1.85 has all that this one uses.
fn set_has_diagnostics() {
    let compiler = env::var_os("RUSTC").unwrap_or_else(|| "rustc".into());
    let output = Command::new(compiler).arg("--version").output();
    let text = output.map_or_else(|_| Vec::new(), |output| output.stdout);
    let minor = String::from_utf8_lossy(&text)
        .split('.')
        .nth(1)
        .and_then(|minor| minor.parse().ok());
    if minor.unwrap_or(0) >= 85 {
        println!("cargo:rustc-check-cfg=cfg(has_diagnostics)");
        println!("cargo:rustc-cfg=has_diagnostics");
    }
}

/// Links the library in a folder: the static one, if it is there.
fn link_in(folder: &Path) {
    println!("cargo:rustc-link-search=native={}", folder.display());
    let archive = folder.join(format!("lib{NAME}.a"));
    println!("cargo:rerun-if-changed={}", archive.display());
    if archive.is_file() {
        println!("cargo:rustc-link-lib=static={NAME}");
    } else {
        println!("cargo:rustc-link-lib={NAME}");
        // The tests of this package find the shared library there as they run.
        println!("cargo:rustc-link-arg=-Wl,-rpath,{}", folder.display());
    }
}

/// Links what `pkg-config` prints. Where it finds nothing the package can still be checked: then
/// only a program that is linked needs the library.
fn link_by_pkg_config() {
    let program = env::var_os("PKG_CONFIG").unwrap_or_else(|| "pkg-config".into());
    let wanted = format!("{NAME} >= {VERSION}");
    let output = Command::new(program).args(["--libs", &wanted]).output();
    match output {
        Ok(output) if output.status.success() => {
            link_by_flags(&String::from_utf8_lossy(&output.stdout));
        }
        _ => {
            println!("cargo:rustc-link-lib={NAME}");
            println!(
                "cargo:warning=pkg-config finds no {wanted}: install the C library, or name its \
                 folder in the environment variable {FOLDER}"
            );
        }
    }
}

/// Links by the flags of a C compiler: `-Lfolder`, `-lname`, and others for the linker.
fn link_by_flags(flags: &str) {
    for flag in flags.split_whitespace() {
        if let Some(folder) = flag.strip_prefix("-L") {
            println!("cargo:rustc-link-search=native={folder}");
        } else if let Some(name) = flag.strip_prefix("-l") {
            println!("cargo:rustc-link-lib={name}");
        } else {
            println!("cargo:rustc-link-arg={flag}");
        }
    }
}
