//! Tells the linker where the proved library stands: HINGREZH_LIB names the archive (a relative path begins in this
//! folder), otherwise it is crates/hingrezh/out/libhingrezh.a at the repository's root.
use std::path::PathBuf;

const BESIDE: &str = concat!(env!("CARGO_MANIFEST_DIR"), "/../crates/hingrezh/out/libhingrezh.a");

fn main() {
    println!("cargo::rerun-if-env-changed=HINGREZH_LIB");
    let named = std::env::var_os("HINGREZH_LIB").filter(|name| !name.is_empty());
    let remedy = match named {
        Some(_) => "HINGREZH_LIB names it",
        None => "run `make host`, or name an archive in HINGREZH_LIB",
    };
    let archive = named.map_or_else(|| PathBuf::from(BESIDE), PathBuf::from);
    println!("cargo::rerun-if-changed={}", archive.display());
    let Some(archive) = archive.canonicalize().ok().filter(|path| path.is_file()) else {
        println!("cargo::error=there is no archive {}: {remedy}", archive.display());
        return;
    };
    let (Some(folder), Some(name)) = (archive.parent(), archive.file_name()) else {
        println!("cargo::error={} is no file", archive.display());
        return;
    };
    println!("cargo::rustc-link-search=native={}", folder.display());
    println!("cargo::rustc-link-lib=static:+verbatim={}", name.to_string_lossy());
}
