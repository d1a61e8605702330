//! Links libwargnifla.a, the verified library: from the folder that `WARGNIFLA_ARCHIVE` names, or from where tools/library leaves it. A
//! package that depends on this one finds the folders of the archive and the header in `DEP_WARGNIFLA_ARCHIVE` and `DEP_WARGNIFLA_INCLUDE`.

use std::env;
use std::path::{Path, PathBuf};

fn main() {
    println!("cargo::rerun-if-env-changed=WARGNIFLA_ARCHIVE");
    let host = Path::new(env!("CARGO_MANIFEST_DIR"));
    let root = host.parent().expect("the host stands in the repository");
    let folder = env::var_os("WARGNIFLA_ARCHIVE")
        .map_or_else(|| root.join("target/staticlib"), PathBuf::from);
    let archive = folder.join("libwargnifla.a");
    println!("cargo::rerun-if-changed={}", archive.display());
    if !archive.is_file() {
        say_what_to_run(&archive, root);
        return;
    }
    println!("cargo::rustc-link-search=native={}", folder.display());
    println!("cargo::rustc-link-lib=static=wargnifla");
    println!("cargo::metadata=archive={}", folder.display());
    println!("cargo::metadata=include={}", root.join("include").display());
}

fn say_what_to_run(archive: &Path, root: &Path) {
    println!(
        "cargo::error=the verified library is missing: there is no {}. Run tools/library in {}, or set WARGNIFLA_ARCHIVE to a folder that holds \
         libwargnifla.a",
        archive.display(),
        root.display()
    );
}
