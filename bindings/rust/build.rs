//! Links Climboat's archive, libclimboat.a, which `tools/staticlib climboat` makes at the root of the repository.
use std::env;
use std::path::PathBuf;
use std::process::exit;

const ARCHIVE: &str = "libclimboat.a";
const FOLDER: &str = "CLIMBOAT_ARCHIVE_DIR";

fn main() {
    println!("cargo:rerun-if-env-changed={FOLDER}");
    let folders = folders();
    let Some(folder) = folders.iter().find(|folder| folder.join(ARCHIVE).is_file()) else {
        let tried: Vec<String> = folders
            .iter()
            .map(|folder| folder.display().to_string())
            .collect();
        eprintln!("climboat: no {ARCHIVE} in {}", tried.join(" or "));
        eprintln!("climboat: make it with `tools/staticlib climboat` at the root of the repository, or name its folder in {FOLDER}");
        exit(1);
    };
    println!("cargo:rerun-if-changed={}", folder.join(ARCHIVE).display());
    println!("cargo:rustc-link-search=native={}", folder.display());
    println!("cargo:rustc-link-lib=static=climboat");
}

/// Where the archive may be. A folder that is named stands alone, so that no other archive is linked by mistake.
fn folders() -> Vec<PathBuf> {
    if let Some(named) = env::var_os(FOLDER) {
        return vec![PathBuf::from(named)];
    }
    let root = PathBuf::from(env::var_os("CARGO_MANIFEST_DIR").unwrap_or_default()).join("../..");
    vec![root.join("target/native")]
}
