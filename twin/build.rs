//! Links the proved library where it is built: the archive libwazrelin.a in the folder that
//! WAZRELIN_LIB names, and the C support archive that WAZRELIN_C names.

use std::env;
use std::path::{Path, PathBuf};

fn main() {
    println!("cargo::rustc-check-cfg=cfg(proved)");
    println!("cargo::rerun-if-env-changed=WAZRELIN_LIB");
    println!("cargo::rerun-if-env-changed=WAZRELIN_C");
    match archives() {
        Ok(archives) => {
            println!("cargo::rustc-cfg=proved");
            archives.iter().for_each(|archive| link(archive));
        }
        Err(missing) => println!(
            "cargo::warning={missing}, so the proved library is left out; scripts/twin builds \
             it and sets WAZRELIN_LIB and WAZRELIN_C"
        ),
    }
}

/// The archives to link, in the order in which they need one another.
fn archives() -> Result<[PathBuf; 2], String> {
    let folder = match env::var_os("WAZRELIN_LIB") {
        Some(folder) => PathBuf::from(folder),
        None => Path::new(env!("CARGO_MANIFEST_DIR")).join("../crates/wazrelin/out"),
    };
    let library = present(folder.join("libwazrelin.a"))?;
    let support = env::var_os("WAZRELIN_C").ok_or("WAZRELIN_C is not set")?;
    Ok([library, present(PathBuf::from(support))?])
}

fn present(archive: PathBuf) -> Result<PathBuf, String> {
    println!("cargo::rerun-if-changed={}", archive.display());
    if archive.is_file() { Ok(archive) } else { Err(format!("{} is missing", archive.display())) }
}

fn link(archive: &Path) {
    let folder = archive.parent().expect("a file is in a folder");
    let file = archive.file_name().expect("a file has a name").to_string_lossy();
    println!("cargo::rustc-link-search=native={}", folder.display());
    println!("cargo::rustc-link-lib=static:+verbatim={file}");
}
