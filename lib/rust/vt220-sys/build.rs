//! Finds libvt220: in VT220_LIB_DIR, or by pkg-config, or in out/ of the repository. With DOCS_RS it looks for none.
use std::env;
use std::path::{Path, PathBuf};
use std::process::Command;

/// Links the library of a directory, the static one if it is there.
fn link_in(dir: &Path) {
    println!("cargo:rerun-if-changed={}", dir.display());
    println!("cargo:rustc-link-search=native={}", dir.display());
    let kind = if dir.join("libvt220.a").exists() { "static" } else { "dylib" };
    println!("cargo:rustc-link-lib={kind}=vt220");
}

/// Returns the program that knows the target's libraries: PKG_CONFIG, or the host's pkg-config if the target is the host.
fn pkg_config() -> Option<String> {
    let is_cross = env::var("HOST") != env::var("TARGET") && env::var_os("PKG_CONFIG_ALLOW_CROSS").is_none();
    env::var("PKG_CONFIG").ok().or_else(|| (!is_cross).then(|| "pkg-config".to_string()))
}

/// Links what pkg-config names. Returns false if it knows no such library.
fn link_by_pkg_config() -> bool {
    let arguments = ["--libs", "vt220 >= 0.4"];
    let words = match pkg_config().map(|program| Command::new(program).args(arguments).output()) {
        Some(Ok(done)) if done.status.success() => String::from_utf8_lossy(&done.stdout).into_owned(),
        _ => return false,
    };
    for word in words.split_whitespace() {
        if let Some(dir) = word.strip_prefix("-L") {
            println!("cargo:rustc-link-search=native={dir}");
        } else if let Some(name) = word.strip_prefix("-l") {
            println!("cargo:rustc-link-lib=dylib={name}");
        } else {
            println!("cargo:warning=pkg-config's {word} isn't passed to the linker");
        }
    }
    true
}

fn main() {
    for name in ["VT220_LIB_DIR", "PKG_CONFIG", "PKG_CONFIG_PATH", "PKG_CONFIG_ALLOW_CROSS", "DOCS_RS"] {
        println!("cargo:rerun-if-env-changed={name}");
    }
    // docs.rs makes the documentation alone, without the library.
    if env::var_os("DOCS_RS").is_some() {
        return;
    }
    let repository = PathBuf::from(env::var("CARGO_MANIFEST_DIR").unwrap()).join("../../../out");
    match env::var("VT220_LIB_DIR") {
        Ok(dir) => link_in(Path::new(&dir)),
        Err(_) if link_by_pkg_config() => {}
        Err(_) if repository.join("libvt220.a").exists() => link_in(&repository),
        Err(_) => panic!("libvt220 isn't found: name its directory in VT220_LIB_DIR, or install it with vt220.pc (for another target, name its pkg-config in PKG_CONFIG)"),
    }
}
