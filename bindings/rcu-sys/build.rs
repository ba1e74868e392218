//! Links the archive that the crate carries, as in a release; else that of the installed library,
//! which the command pkg-config finds.

use std::path::Path;
use std::process::{exit, Command};

const WANTED: &str = concat!("rcu >= ", env!("CARGO_PKG_VERSION"));

fn main() {
    let carried = concat!(env!("CARGO_MANIFEST_DIR"), "/lib");
    println!("cargo:rerun-if-env-changed=PKG_CONFIG_PATH");
    println!("cargo:rerun-if-changed={carried}");
    let folder = if Path::new(carried).exists() {
        String::from(carried)
    } else {
        installed()
    };
    println!("cargo:rerun-if-changed={folder}/librcu.a");
    println!("cargo:rustc-link-search=native={folder}");
    println!("cargo:rustc-link-lib=static=rcu");
}

/// The folder of the installed library.
fn installed() -> String {
    let asked = Command::new("pkg-config")
        .args(["--print-errors", "--variable=libdir", WANTED])
        .output();
    match asked {
        Ok(asked) if asked.status.success() => {
            String::from(String::from_utf8_lossy(&asked.stdout).trim())
        }
        Ok(asked) => stop(&format!(
            "pkg-config does not know '{WANTED}': install the library (packaging/install PREFIX), \
             and name PREFIX/lib/pkgconfig in PKG_CONFIG_PATH\n{}",
            String::from_utf8_lossy(&asked.stderr)
        )),
        Err(error) => stop(&format!("the command pkg-config was not run: {error}")),
    }
}

fn stop(why: &str) -> ! {
    eprintln!("{why}");
    exit(1);
}
