//! Finds the archive of the proved library for the target that cargo compiles for, and says in one line what is wrong where there
//! is none: a linker would say it in many, and not what to do.

use std::io::ErrorKind;
use std::path::{Path, PathBuf};
use std::process::exit;
use std::{env, fs};

/// The symbol that an archive of this package's layout has: src/declared.rs names it too.
const LAYOUT: &str = "degvuurel_layout_2";

/// The folder of an archive that stands elsewhere.
const FOLDER: &str = "DEGVUUREL_LIB_DIR";

/// A processor that the archive can be made for: the folder it is made in, the archive that is made of the same module before it, how
/// it is made, and its number in an ELF file.
struct Processor {
    folder: &'static str,
    beside: Option<&'static str>,
    made: &'static str,
    number: u16,
}

fn wrong(words: &str) -> ! {
    eprintln!("degvuurel: {words}");
    exit(1)
}

/// What cargo says of the target.
fn target(what: &str) -> String {
    env::var(format!("CARGO_CFG_TARGET_{what}")).unwrap_or_default()
}

fn processor() -> Processor {
    match (target("OS").as_str(), target("POINTER_WIDTH").as_str(), target("ENDIAN").as_str(), target("ARCH").as_str()) {
        ("linux", "64", "little", "x86_64") => {
            Processor { folder: "../crates/export/out", beside: None, made: "'rt lib' in crates/export", number: 62 }
        }
        ("linux", "64", "little", "aarch64") => {
            let beside = Some("../libexport.a");
            Processor { folder: "../crates/export/out/aarch64", beside, made: "'tools/archive-for-arm' on x86-64", number: 183 }
        }
        _ => wrong(&format!(
            "the proved library is for Linux on x86-64 and on 64-bit Arm, and not for {}",
            env::var("TARGET").unwrap_or_default()
        )),
    }
}

/// The processor of the first object in an archive, by its number in an ELF file.
fn processor_of(archive: &[u8]) -> Option<u16> {
    let object = archive.windows(4).position(|bytes| bytes == b"\x7fELF")?;
    let number = archive.get(object + 18..object + 20)?;
    Some(u16::from_le_bytes([number[0], number[1]]))
}

/// Whether an archive was made before another, so that it may be of older sources.
fn is_older(archive: &Path, than: &Path) -> bool {
    let made = |file: &Path| fs::metadata(file).and_then(|file| file.modified()).ok();
    matches!((made(archive), made(than)), (Some(one), Some(other)) if one < other)
}

/// Whether an archive names this symbol: a whole name, and not the end or the start of a longer one.
fn names(archive: &[u8], symbol: &[u8]) -> bool {
    let part_of_a_name = |byte: &u8| byte.is_ascii_alphanumeric() || *byte == b'_';
    archive.windows(symbol.len() + 2).any(|bytes| {
        let (before, name, after) = (&bytes[0], &bytes[1..=symbol.len()], &bytes[symbol.len() + 1]);
        name == symbol && *after == 0 && !part_of_a_name(before)
    })
}

/// The folder that the environment names, or else the one in which the archive is made.
fn folder(made_in: &str) -> PathBuf {
    println!("cargo:rerun-if-env-changed={FOLDER}");
    match env::var_os(FOLDER).filter(|named| !named.is_empty()).map(PathBuf::from) {
        Some(named) if named.is_relative() => wrong(&format!("{FOLDER} is {}, and has to be a whole path", named.display())),
        Some(named) => named,
        None => Path::new(env!("CARGO_MANIFEST_DIR")).join(made_in),
    }
}

fn main() {
    let Processor { folder: made_in, beside, made, number } = processor();
    let folder = folder(made_in);
    let archive = folder.join("libexport.a");
    println!("cargo:rerun-if-changed={}", archive.display());
    let make = format!("make it by {made}, or name the folder of one in {FOLDER}");
    let bytes = match fs::read(&archive) {
        Ok(bytes) => bytes,
        Err(error) if error.kind() == ErrorKind::NotFound => wrong(&format!("there is no {}: {make}", archive.display())),
        Err(error) => wrong(&format!("{} cannot be read, {error}: {make}", archive.display())),
    };
    if processor_of(&bytes) != Some(number) {
        wrong(&format!("{} is not for {}: {make}", archive.display(), target("ARCH")));
    }
    if let Some(first) = beside.map(|first| folder.join(first)).filter(|first| first.exists()) {
        println!("cargo:rerun-if-changed={}", first.display());
        if is_older(&archive, &first) {
            wrong(&format!("{} is older than {}: {make}", archive.display(), first.display()));
        }
    }
    if !names(&bytes, LAYOUT.as_bytes()) {
        wrong(&format!("{} is of another layout than this package, without {LAYOUT}: {make}", archive.display()));
    }
    println!("cargo:rustc-link-search=native={}", folder.display());
    println!("cargo:rustc-link-lib=static=export");
    // The tests link it into programs in C too.
    println!("cargo:rustc-env=DEGVUUREL_ARCHIVE={}", archive.display());
}
