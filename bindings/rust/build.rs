//! Links an archive of the library, if the variable TEXTWRAP_LIBRARY names the folder of one: that of
//! `rt lib`, or that of the C binding as it is installed. Else the library is the assembly, and it is said
//! where that is.
//!
//! Where the variable DOCS_RS is set, there is no library: the documentation is built without it.
use std::env;
use std::path::{Path, PathBuf};

/// An archive without a heap, and one that has it over malloc.
const ARCHIVES: [(&str, bool); 2] = [("textwrap_c", false), ("textwrap_proved", true)];

fn main() {
    for variable in ["DOCS_RS", "TEXTWRAP_LIBRARY"] {
        println!("cargo::rerun-if-env-changed={variable}");
    }
    println!("cargo::rustc-check-cfg=cfg(library_is_linked)");
    println!("cargo::rustc-check-cfg=cfg(library_has_heap)");
    let folder = env::var_os("TEXTWRAP_LIBRARY").filter(|folder| !folder.is_empty());
    if env::var_os("DOCS_RS").is_some() {
        println!("cargo::rustc-cfg=library_is_linked");
    } else if let Some(folder) = folder {
        link(Path::new(&folder));
    } else {
        println!("cargo::rustc-env=TEXTWRAP_DIST={}", assembly().display());
    }
}

/// The folder `dist` of this crate, as it is packed. In the repository it is the one beside `bindings`.
fn assembly() -> PathBuf {
    let crate_folder = PathBuf::from(env::var_os("CARGO_MANIFEST_DIR").unwrap_or_default());
    let within = crate_folder.join("dist");
    if within.is_dir() {
        return within;
    }
    crate_folder.join("../../dist")
}

/// Links the archive that the folder has.
fn link(folder: &Path) {
    let file_of = |name: &str| folder.join(format!("lib{name}.a"));
    let Some((name, has_heap)) = ARCHIVES.into_iter().find(|(name, _)| file_of(name).is_file())
    else {
        println!("cargo::error=TEXTWRAP_LIBRARY: no libtextwrap_c.a is in {}", folder.display());
        return;
    };
    println!("cargo::rustc-cfg=library_is_linked");
    if has_heap {
        println!("cargo::rustc-cfg=library_has_heap");
    }
    println!("cargo::rerun-if-changed={}", file_of(name).display());
    println!("cargo::rustc-link-search=native={}", folder.display());
    println!("cargo::rustc-link-lib=static={name}");
}
