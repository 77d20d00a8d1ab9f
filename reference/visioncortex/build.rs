//! Finds the original's files and writes the root module that compiles them where they lie.

use std::path::{Path, PathBuf};
use std::{env, fs, process};

const REPOSITORY: &str = "https://github.com/visioncortex/visioncortex";
const COMMIT: &str = "0062088c89";

/// Where the checkout is looked for, from this crate's folder, if VISIONCORTEX_SRC is not set.
const DEFAULT_CHECKOUT: &str = "../../../shared/docs/src";

/// The files of the original, by the module that each one becomes.
const ROOT_MODULES: [(&str, &str); 3] = [
    ("color", "src/color.rs"),
    ("bound", "src/bound.rs"),
    ("point", "src/point.rs"),
];
const IMAGE_MODULES: [(&str, &str); 1] = [("format", "src/image/format.rs")];
const SHAPE_MODULES: [(&str, &str); 1] = [("geometry", "src/shape/geometry.rs")];
const COLOR_CLUSTERS_MODULES: [(&str, &str); 4] = [
    ("builder", "src/color_clusters/builder.rs"),
    ("cluster", "src/color_clusters/cluster.rs"),
    ("container", "src/color_clusters/container.rs"),
    ("runner", "src/color_clusters/runner.rs"),
];

fn main() {
    println!("cargo:rerun-if-env-changed=VISIONCORTEX_SRC");
    let checkout =
        PathBuf::from(env::var_os("VISIONCORTEX_SRC").unwrap_or_else(|| DEFAULT_CHECKOUT.into()));
    let root = [
        modules(&checkout, &ROOT_MODULES),
        nested(&checkout, "image", "", &IMAGE_MODULES),
        nested(
            &checkout,
            "shape",
            "use crate::stand_ins::{morphology, rasterizer};",
            &SHAPE_MODULES,
        ),
        nested(&checkout, "color_clusters", "", &COLOR_CLUSTERS_MODULES),
        "pub use {bound::*, color::*, image::*, point::*, shape::*};\n".to_string(),
    ]
    .concat();
    let out = PathBuf::from(env::var_os("OUT_DIR").expect("cargo sets OUT_DIR"));
    fs::write(out.join("root.rs"), root).expect("OUT_DIR can be written");
}

/// One folder of the original: its files as modules, whose names it hands on.
fn nested(checkout: &Path, name: &str, glue: &str, files: &[(&str, &str)]) -> String {
    let names: Vec<String> = files.iter().map(|(file, _)| format!("{file}::*")).collect();
    format!(
        "pub mod {name} {{\n{glue}\n{}pub use {{{}}};\n}}\n",
        modules(checkout, files),
        names.join(", ")
    )
}

/// A `mod` line for each file, which stops the build where a file is absent.
fn modules(checkout: &Path, files: &[(&str, &str)]) -> String {
    files
        .iter()
        .map(|(name, file)| {
            let path = checkout.join(file);
            println!("cargo:rerun-if-changed={}", path.display());
            let Ok(path) = path.canonicalize() else {
                stop(&path);
            };
            format!("#[allow(warnings, clippy::all)]\n#[path = {path:?}]\npub mod {name};\n")
        })
        .collect()
}

fn stop(absent: &Path) -> ! {
    eprintln!(
        "The original is not at {}.\n\
         It is the repository visioncortex ({REPOSITORY}), commit {COMMIT}.\n\
         Check it out and set VISIONCORTEX_SRC to the checkout's folder.",
        absent.display()
    );
    process::exit(1);
}
