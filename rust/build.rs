//! Tells where the library is: in the assembly of `native`, which `src/ffi/native.rs` includes, or in a built
//! `libpolyover.a`, whose folder `POLYOVER_LIBRARY_DIR` names.

use std::env;
use std::path::{Path, PathBuf};
use std::process::exit;

fn main() {
    println!("cargo::rustc-check-cfg=cfg(polyover_native)");
    for name in ["POLYOVER_LIBRARY_DIR", "DOCS_RS"] {
        println!("cargo::rerun-if-env-changed={name}");
    }
    println!("cargo::rerun-if-changed=native");
    if env::var_os("DOCS_RS").is_some() {
        // (pages are made without the library)
        return;
    }
    if let Some(folder) = env::var_os("POLYOVER_LIBRARY_DIR") {
        link(Path::new(&folder));
    } else if let Err(told) = include() {
        println!("cargo::error=polyover: {told}");
        exit(1);
    }
}

/// Links a built library.
fn link(folder: &Path) {
    println!("cargo::rerun-if-changed={}", folder.join("libpolyover.a").display());
    println!("cargo::rustc-link-search=native={}", folder.display());
    println!("cargo::rustc-link-lib=static=polyover");
}

/// Has the assembly for the target included.
fn include() -> Result<(), String> {
    let [arch, os, folder] = ["CARGO_CFG_TARGET_ARCH", "CARGO_CFG_TARGET_OS", "CARGO_MANIFEST_DIR"].map(env::var);
    let told = |_| "cargo does not say for which target".to_string();
    let (arch, os, folder) = (arch.map_err(told)?, os.map_err(told)?, folder.map_err(told)?);
    let assembly = PathBuf::from(folder).join("native").join(&arch).join("polyover.s");
    if os != "linux" {
        return Err(format!(
            "there is assembly for Linux on x86_64 and aarch64, and not for {os} on {arch}"
        ));
    }
    if !assembly.is_file() {
        let place = assembly.display();
        return Err(format!(
            "no {place}: releases have it for x86_64 and aarch64; in a clone set POLYOVER_LIBRARY_DIR (docs/RUST.md)"
        ));
    }
    println!("cargo::rustc-cfg=polyover_native");
    Ok(())
}
