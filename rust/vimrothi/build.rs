//! Links the static library that `.ci/library` writes from the proved crates.

use std::path::Path;

fn main() {
    let folder = Path::new(env!("CARGO_MANIFEST_DIR")).join("../../target/staticlib");
    let library = folder.join("libexport.a");
    let Ok(archive) = std::fs::read(&library) else {
        refuse(&format!(
            "{} is not there: run `.ci/library` first",
            library.display()
        ));
    };
    let target = std::env::var("CARGO_CFG_TARGET_ARCH").unwrap_or_default();
    if processor_of(&archive) != Some(target.as_str()) {
        refuse(&format!(
            "{} is not compiled for {target}: `.ci/library` compiles for x86-64 Linux",
            library.display()
        ));
    }
    println!("cargo:rustc-link-search=native={}", folder.display());
    println!("cargo:rustc-link-lib=static=export");
    println!("cargo:rerun-if-changed={}", library.display());
}

/// The processor that the first object file of an archive is compiled for, by its number in an ELF header.
fn processor_of(archive: &[u8]) -> Option<&'static str> {
    let start = archive.windows(4).position(|bytes| bytes == b"\x7fELF")?;
    match archive.get(start + 18..start + 20)? {
        [62, 0] => Some("x86_64"),
        [183, 0] => Some("aarch64"),
        _ => None,
    }
}

fn refuse(why: &str) -> ! {
    eprintln!("{why}");
    std::process::exit(1);
}
