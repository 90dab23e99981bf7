//! Links the proved core's archive, and says how to build it where it is missing.

use std::env;
use std::path::{Path, PathBuf};
use std::process;

fn main() {
    println!("cargo:rerun-if-env-changed=NOKETUALO_ARCHIVE");
    let place = archive_place();
    println!("cargo:rerun-if-changed={}", place.display());
    let archive = place
        .canonicalize()
        .unwrap_or_else(|error| stop(&place, &error.to_string()));
    let (Some(folder), Some(name)) = (archive.parent(), archive.file_name()) else {
        stop(&place, "no file");
    };
    println!("cargo:rustc-link-search=native={}", folder.display());
    println!(
        "cargo:rustc-link-lib=static:+verbatim={}",
        name.to_string_lossy()
    );
    // The tests link the C example with the very archive that this crate links.
    println!(
        "cargo:rustc-env=NOKETUALO_LINKED_ARCHIVE={}",
        archive.display()
    );
}

fn archive_place() -> PathBuf {
    match env::var_os("NOKETUALO_ARCHIVE") {
        Some(path) if !path.is_empty() => PathBuf::from(path),
        _ => Path::new(env!("CARGO_MANIFEST_DIR")).with_file_name("crates/host/out/libhost.a"),
    }
}

fn stop(place: &Path, why: &str) -> ! {
    eprintln!("The archive {} can't be linked: {why}.", place.display());
    eprintln!("Run `rt lib` in the folder crates/host to build it.");
    eprintln!("To link another archive, name its absolute path in NOKETUALO_ARCHIVE.");
    process::exit(1);
}
