//! Links libprep.a, from the folder that PREP_LIB_DIR names or from the package in which this wrapper stands. The
//! include folder beside it has the library's version, which is compared with this wrapper's, and the table of
//! refusals, from which constants are made.

use std::path::{Path, PathBuf};
use std::{env, fs, process};

const VARIABLE: &str = "PREP_LIB_DIR";
const LIBRARY: &str = "libprep.a";
const HOW: &str =
    "It names the folder that has libprep.a: the lib folder of the package that ./package writes, \
                   target/package/prep-VERSION-x86_64-linux/lib.";

fn main() {
    println!("cargo:rerun-if-env-changed={VARIABLE}");
    if let Err(message) = build() {
        eprintln!("\n{message}\n");
        process::exit(1);
    }
}

fn build() -> Result<(), String> {
    let folder = library_folder()?;
    println!("cargo:rerun-if-changed={}", folder.join(LIBRARY).display());
    println!("cargo:rustc-link-search=native={}", folder.display());
    println!("cargo:rustc-link-lib=static=prep");
    compare_versions(&folder, &included(&folder, "prep.h")?)?;
    let code = constants(&included(&folder, "prep_refusals.def")?)?;
    fs::write(cargo_s("OUT_DIR")?.join("refusals.rs"), code)
        .map_err(|e| format!("refusals.rs cannot be written: {e}"))
}

/// A folder that cargo names.
fn cargo_s(variable: &str) -> Result<PathBuf, String> {
    env::var_os(variable).map(PathBuf::from).ok_or(format!("cargo has not set {variable}"))
}

/// The folder that has the library, or what is missing.
fn library_folder() -> Result<PathBuf, String> {
    let name = match env::var_os(VARIABLE) {
        Some(name) => name,
        None => return package_s_own()?.ok_or(format!("{VARIABLE} is not set. {HOW}")),
    };
    let folder = fs::canonicalize(&name).map_err(|e| {
        format!("{VARIABLE} is {name:?}, and that folder cannot be found ({e}); give its whole path. {HOW}")
    })?;
    if !folder.join(LIBRARY).is_file() {
        return Err(format!("{VARIABLE} is {name:?}, but there is no {LIBRARY} in it. {HOW}"));
    }
    Ok(folder)
}

/// The lib folder of the package in which this wrapper stands, as examples/rust, if it does.
fn package_s_own() -> Result<Option<PathBuf>, String> {
    let here = cargo_s("CARGO_MANIFEST_DIR")?;
    let folder = here.ancestors().nth(2).map(|package| package.join("lib"));
    Ok(folder.filter(|folder| folder.join(LIBRARY).is_file()))
}

/// The text of a file in the include folder beside the library's.
fn included(library: &Path, name: &str) -> Result<String, String> {
    let file = library.with_file_name("include").join(name);
    println!("cargo:rerun-if-changed={}", file.display());
    fs::read_to_string(&file)
        .map_err(|e| format!("{} tells what {LIBRARY} is, and it cannot be read: {e}", file.display()))
}

/// The library has this wrapper's major version, and its minor one or a later one.
fn compare_versions(library: &Path, header: &str) -> Result<(), String> {
    let ours = version(|part| env::var(format!("CARGO_PKG_VERSION_{part}")).ok())
        .ok_or("cargo has not set this wrapper's version")?;
    let theirs = version(|part| defined(header, &format!("PREP_VERSION_{part}")))
        .ok_or(format!("the prep.h beside {} has no version", library.display()))?;
    if theirs.0 == ours.0 && theirs.1 >= ours.1 {
        return Ok(());
    }
    Err(format!(
        "the library in {} is {}.{}, and this wrapper is for {}.{}: take both from one package",
        library.display(),
        theirs.0,
        theirs.1,
        ours.0,
        ours.1
    ))
}

/// The major and the minor version, from how each of them is told.
fn version(told: impl Fn(&str) -> Option<String>) -> Option<(u32, u32)> {
    let number = |part| told(part)?.parse().ok();
    Some((number("MAJOR")?, number("MINOR")?))
}

/// What a header defines a name as.
fn defined(header: &str, name: &str) -> Option<String> {
    let after = |line: &'_ str| {
        line.strip_prefix("#define ")?.strip_prefix(name)?.strip_prefix(' ').map(str::to_string)
    };
    header.lines().find_map(after)
}

/// Rust for the refusals of the table: a constant for each.
fn constants(table: &str) -> Result<String, String> {
    let mut constants = String::new();
    for line in table.lines().filter(|line| line.starts_with("PREP_REFUSAL(")) {
        let (number, name, words) =
            row_of(line).ok_or(format!("prep_refusals.def: not a refusal: {line}"))?;
        constants += &format!("    /// {words}.\n    pub const {name}: u16 = {number};\n");
    }
    Ok(format!("/// A constant for each refusal's number.\npub mod refusals {{\n{constants}}}\n"))
}

/// The number, the name and the words of a line.
fn row_of(line: &str) -> Option<(u16, &str, &str)> {
    let inside = line.strip_prefix("PREP_REFUSAL(")?.strip_suffix(')')?;
    let mut columns = inside.splitn(4, ',').map(str::trim);
    let number = columns.next()?.parse().ok()?;
    let name = columns.next()?;
    let words = columns.nth(1)?.strip_prefix('"')?.strip_suffix('"')?;
    Some((number, name, words))
}
