// Links the proved library from its archive. `reference/archive/build.rs` is this file too.

use std::path::{Path, PathBuf};
use std::{env, process};

const ARCHIVE: &str = "libcolor_clusters.a";

fn main() {
    println!("cargo:rerun-if-env-changed=COLOR_CLUSTERS_LIB");
    let given = env::var_os("COLOR_CLUSTERS_LIB").filter(|folder| !folder.is_empty());
    let folder = given.map_or_else(usual_folder, PathBuf::from);
    let archive = folder.join(ARCHIVE);
    println!("cargo:rerun-if-changed={}", archive.display());
    match folder.canonicalize() {
        Ok(folder) if archive.is_file() => link(&folder),
        _ => stop(&archive),
    }
}

/// Where `./sheet` and `reference/archive.sh` put the archive, below the repository's root: the folder with the list of
/// crates.
fn usual_folder() -> PathBuf {
    let here = Path::new(env!("CARGO_MANIFEST_DIR"));
    let root = here
        .ancestors()
        .find(|folder| folder.join("crates.txt").is_file());
    root.unwrap_or(here).join("target/staticlib")
}

fn link(folder: &Path) {
    println!("cargo:rustc-link-search=native={}", folder.display());
    println!("cargo:rustc-link-lib=static=color_clusters");
}

fn stop(absent: &Path) -> ! {
    eprintln!(
        "The proved library is not at {}.\n\
         Run `./sheet` or `reference/archive.sh` at the repository's root first, or set\n\
         COLOR_CLUSTERS_LIB to the folder that has {ARCHIVE}, as an absolute path.",
        absent.display()
    );
    process::exit(1);
}
