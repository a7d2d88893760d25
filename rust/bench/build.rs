//! Looks for libvterm: by pkg-config, or else by the C compiler's own search
//! for the library. Where it is there, the flag `vterm` is set and it is
//! linked; where it is not, the benchmark leaves its column out.

use std::process::Command;

fn main() {
    println!("cargo:rerun-if-changed=build.rs");
    println!("cargo:rustc-check-cfg=cfg(vterm)");
    let Some((folders, version)) = by_pkg_config().or_else(by_compiler) else {
        return;
    };
    println!("cargo:rustc-cfg=vterm");
    println!("cargo:rustc-env=VTERM_VERSION={version}");
    for folder in folders.split_whitespace() {
        println!("cargo:rustc-link-search=native={}", folder.trim_start_matches("-L"));
    }
    println!("cargo:rustc-link-lib=dylib=vterm");
}

/// The folders to link from, as -L options, and the version.
fn by_pkg_config() -> Option<(String, String)> {
    let version = output("pkg-config", &["--modversion", "vterm"])?;
    Some((output("pkg-config", &["--libs-only-L", "vterm"])?, version))
}

/// The compiler prints a name with a folder for what it finds, else the bare
/// name. It finds the library there again when it links.
fn by_compiler() -> Option<(String, String)> {
    let found = output("cc", &["-print-file-name=libvterm.so"])?;
    found.contains('/').then(|| (String::new(), String::from("of unknown version")))
}

/// What a program prints, if it is there and succeeds.
fn output(program: &str, arguments: &[&str]) -> Option<String> {
    let run = Command::new(program).args(arguments).output().ok()?;
    let text = String::from_utf8(run.stdout).ok()?;
    run.status.success().then(|| text.trim().to_string())
}
