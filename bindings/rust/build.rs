//! Finds the library: in the folder that `ATOMFS_LIB_DIR` names, or in `dist/lib` of the checkout, or in the `lib`
//! beside which the crate is installed. Where `DOCS_RS` is set, as in `DOCS_RS=1 cargo doc`, there is nothing to link,
//! and no library is looked for. The page that plays a run comes from the package for Python, or, if the crate is
//! installed, from its own sources.

use std::env;
use std::fs;
use std::path::{Path, PathBuf};

const BESIDE: [&str; 2] = ["../../dist/lib", "../../../lib"];
const PAGES: [&str; 2] = ["src/run.html", "../python/src/atomfs/run.html"];

fn main() {
    println!("cargo:rerun-if-env-changed=ATOMFS_LIB_DIR");
    println!("cargo:rerun-if-env-changed=DOCS_RS");
    let here = PathBuf::from(env::var_os("CARGO_MANIFEST_DIR").expect("cargo sets CARGO_MANIFEST_DIR"));
    take_page(&here);
    if env::var_os("DOCS_RS").is_some() {
        return;
    }
    let folders: Vec<PathBuf> = match env::var_os("ATOMFS_LIB_DIR") {
        Some(folder) => vec![folder.into()],
        None => BESIDE.iter().map(|beside| here.join(beside)).collect(),
    };
    let found = folders.iter().find(|folder| folder.join("libatomfs.a").is_file());
    match found {
        Some(folder) => link(folder),
        None => {
            eprintln!("atomfs: there is no libatomfs.a in {:?}: embed/build makes it,", folders);
            eprintln!("atomfs: and ATOMFS_LIB_DIR names its folder where it is elsewhere");
            std::process::exit(1);
        }
    }
}

/// Puts the page that plays a run where `page.rs` includes it.
fn take_page(here: &Path) {
    let page = PAGES.iter().map(|page| here.join(page)).find(|page| page.is_file()).expect("run.html of the packages");
    let goal = PathBuf::from(env::var_os("OUT_DIR").expect("cargo sets OUT_DIR")).join("run.html");
    println!("cargo:rerun-if-changed={}", page.display());
    fs::copy(&page, &goal).expect("run.html is copied");
}

fn link(folder: &Path) {
    println!("cargo:rerun-if-changed={}", folder.join("libatomfs.a").display());
    println!("cargo:rustc-link-search=native={}", folder.display());
    println!("cargo:rustc-link-lib=static=atomfs");
}
