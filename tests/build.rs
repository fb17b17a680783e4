//! Finds the archive and the header, and tells the program which calls are there.
//!
//! Calls come into the library one after another, so the program builds with those that the archive exports: each
//! sets `exported = "kv_.."`, and `every_call` is set once no call of `src/ffi.rs` is missing. The three lists of names
//! (archive, header, `src/ffi.rs`) go to the program, which checks that they agree.
//!
//! `KETVAULO_ARCHIVE` and `KETVAULO_HEADER` name another archive and header than those of this repository.

use std::collections::BTreeSet;
use std::path::{Path, PathBuf};
use std::process::Command;
use std::{env, fs};

type Names = BTreeSet<String>;

fn main() {
    let here = PathBuf::from(env::var("CARGO_MANIFEST_DIR").unwrap());
    let root = here.parent().unwrap();
    let archive = input("KETVAULO_ARCHIVE", &root.join("target/staticlib/libketvaulo.a"));
    let header = input("KETVAULO_HEADER", &root.join("include/ketvaulo.h"));
    let foreign = here.join("src/ffi.rs");
    println!("cargo:rerun-if-changed={}", foreign.display());
    println!("cargo:rerun-if-changed=build.rs");

    let exported = exported_by(&archive);
    let declared = declared_by(&header, &root.join("tools/header.awk"));
    let known = calls_in(&fs::read_to_string(&foreign).unwrap());

    let folder = PathBuf::from(env::var("OUT_DIR").unwrap());
    write_names(&folder.join("names.rs"), &exported, &declared, &known);
    set_conditions(&exported, &known);
    link(&archive, &folder);
}

/// The path that a variable of the environment gives, or the usual one; a change of either builds anew.
fn input(variable: &str, usual: &Path) -> PathBuf {
    let path = env::var_os(variable).map_or_else(|| usual.to_path_buf(), PathBuf::from);
    println!("cargo:rerun-if-env-changed={variable}");
    println!("cargo:rerun-if-changed={}", path.display());
    path
}

/// The `kv_` functions that the archive defines, by `nm`.
fn exported_by(archive: &Path) -> Names {
    let listing = Command::new("nm").args(["--defined-only", "--extern-only"]).arg(archive).output().expect("nm runs");
    assert!(listing.status.success(), "nm cannot read {}: tests/run makes it", archive.display());
    String::from_utf8_lossy(&listing.stdout)
        .lines()
        .filter_map(|line| line.split_once(" T ").map(|(_, name)| name))
        .filter(|name| name.starts_with("kv_"))
        .map(str::to_owned)
        .collect()
}

/// The functions that the header declares, by the reader of headers: its lines with a parenthesis start with a call's name.
fn declared_by(header: &Path, reader: &Path) -> Names {
    println!("cargo:rerun-if-changed={}", reader.display());
    let listing = Command::new("awk").arg("-f").arg(reader).arg(header).output().expect("awk runs");
    assert!(listing.status.success(), "{} cannot read {}", reader.display(), header.display());
    String::from_utf8_lossy(&listing.stdout)
        .lines()
        .filter(|line| line.contains('('))
        .filter_map(|line| line.split(' ').next())
        .map(str::to_owned)
        .collect()
}

/// The `kv_` names before an opening parenthesis, comments left out: the functions that `ffi.rs` declares.
fn calls_in(source: &str) -> Names {
    let code = without_comments(source);
    let mut names = Names::new();
    for (open, _) in code.match_indices('(') {
        let before = code[..open].trim_end();
        let start = before.rfind(|c: char| !c.is_ascii_alphanumeric() && c != '_').map_or(0, |at| at + 1);
        if before[start..].starts_with("kv_") {
            names.insert(before[start..].to_owned());
        }
    }
    names
}

/// The source without its comments.
fn without_comments(source: &str) -> String {
    let mut code = String::new();
    let mut rest = source;
    while let Some(at) = rest.find("/*").into_iter().chain(rest.find("//")).min() {
        let end = if rest[at..].starts_with("/*") { "*/" } else { "\n" };
        code.push_str(&rest[..at]);
        code.push(' ');
        rest = rest[at + 2..].split_once(end).map_or("", |(_, after)| after);
    }
    code + rest
}

/// The three lists, as constants of the program.
fn write_names(path: &Path, exported: &Names, declared: &Names, known: &Names) {
    let text = format!(
        "pub const EXPORTED: &[&str] = &{exported:?};\n\
         pub const DECLARED: &[&str] = &{declared:?};\n\
         pub const KNOWN: &[&str] = &{known:?};\n"
    );
    // a set prints with braces, an array has brackets
    fs::write(path, text.replace("&{", "&[").replace("};", "];")).unwrap();
}

/// `exported = "kv_.."` for each call of the archive, `every_call` when none is missing.
fn set_conditions(exported: &Names, known: &Names) {
    println!("cargo:rustc-check-cfg=cfg(exported, values(any()))");
    println!("cargo:rustc-check-cfg=cfg(every_call)");
    for name in exported {
        println!("cargo:rustc-cfg=exported=\"{name}\"");
    }
    if known.is_subset(exported) {
        println!("cargo:rustc-cfg=every_call");
    }
}

/// Links the archive, by the name that the linker looks for, and OpenSSL's libcrypto.
fn link(archive: &Path, folder: &Path) {
    fs::copy(archive, folder.join("libketvaulo.a")).unwrap();
    println!("cargo:rustc-link-search=native={}", folder.display());
    println!("cargo:rustc-link-lib=static=ketvaulo");
    println!("cargo:rustc-link-lib=dylib=crypto");
}
