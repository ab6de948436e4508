//! Hands the proved library to the linker: an archive as it is, an object as the one member of an archive.

use std::path::{Path, PathBuf};
use std::{env, fs};

const MAGIC: &[u8] = b"!<arch>\n";

// The one header that an archive has for a member: name, date, owner, group, mode, length and two closing bytes.
fn archive_of(object: &[u8]) -> Vec<u8> {
    let header = format!("{:<16}{:<12}{:<6}{:<6}{:<8}{:<10}`\n", "proved.o/", 0, 0, 0, 644, object.len());
    let mut archive = [MAGIC, header.as_bytes(), object].concat();
    if object.len() % 2 == 1 {
        archive.push(b'\n');
    }
    archive
}

fn main() {
    println!("cargo:rerun-if-env-changed=MUTHAVERI_LIBRARY");
    let path = env::var("MUTHAVERI_LIBRARY").expect("MUTHAVERI_LIBRARY names the archive or object of the proved library");
    println!("cargo:rerun-if-changed={path}");
    let bytes = fs::read(Path::new(&path)).unwrap_or_else(|e| panic!("MUTHAVERI_LIBRARY: {path}: {e}"));
    let out = PathBuf::from(env::var("OUT_DIR").unwrap());
    let archive = if bytes.starts_with(MAGIC) { bytes } else { archive_of(&bytes) };
    fs::write(out.join("libmuthaveri_proved.a"), archive).unwrap();
    println!("cargo:rustc-link-search=native={}", out.display());
    println!("cargo:rustc-link-lib=static=muthaveri_proved");
}
