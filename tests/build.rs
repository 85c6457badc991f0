//! Has what the tests meet built whenever a crate has changed, so that they meet the code that stands
//! here: the static libraries of the crates `measure`, which has the proved check, and `capi`, which
//! has the calls; and the program of the crate `bench`.
//!
//! In a crate's folder `rt lib` writes its static library to out/libNAME.a and `rt run` its program
//! to out/NAME; the libraries are put into target/staticlib. The environment variable
//! NOSTRIMEL_STATICLIB names another folder, by its whole path, that has the libraries already, and
//! NOSTRIMEL_BENCH another program, by its whole path too.
//!
//! Both libraries go into one program: the functions that they have in common are not visible
//! outside each.

use std::env;
use std::fs;
use std::path::{Path, PathBuf};
use std::process::{exit, Command, Stdio};

const NAMED_FOLDER: &str = "NOSTRIMEL_STATICLIB";
const LIBRARIES: [&str; 2] = ["measure", "capi"];

const NAMED_PROGRAM: &str = "NOSTRIMEL_BENCH";
const PROGRAM: &str = "bench";
/// By this name the tests learn where the program is.
const FOUND_PROGRAM: &str = "NOSTRIMEL_PROGRAM";

fn main() {
    println!("cargo:rerun-if-env-changed={NAMED_FOLDER}");
    println!("cargo:rerun-if-env-changed={NAMED_PROGRAM}");
    println!("cargo:rerun-if-changed=build.rs");
    let folder = or_exit(libraries());
    println!("cargo:rustc-link-search=native={}", folder.display());
    for library in LIBRARIES {
        println!("cargo:rustc-link-lib=static={library}");
    }
    let program = or_exit(program());
    println!("cargo:rustc-env={FOUND_PROGRAM}={}", program.display());
}

fn or_exit(found: Result<PathBuf, String>) -> PathBuf {
    found.unwrap_or_else(|reason| {
        eprintln!("{reason}");
        exit(1);
    })
}

/// The folder that has the libraries, or one line that says why there is none.
fn libraries() -> Result<PathBuf, String> {
    if let Some(named) = env::var_os(NAMED_FOLDER) {
        let folder = PathBuf::from(named);
        for library in LIBRARIES {
            let file = folder.join(file_of(library));
            if !file.is_file() {
                return Err(format!("{NAMED_FOLDER}: there is no {}", file.display()));
            }
            println!("cargo:rerun-if-changed={}", file.display());
        }
        return Ok(folder);
    }
    let root = watched_repository();
    let folder = root.join("target").join("staticlib");
    fs::create_dir_all(&folder).map_err(|error| format!("target/staticlib: {error}"))?;
    for library in LIBRARIES {
        let file = file_of(library);
        let made = built(&root, "lib", library)?.join(&file);
        fs::copy(made, folder.join(&file))
            .map_err(|error| format!("rt lib left no crates/{library}/out/{file}: {error}"))?;
    }
    Ok(folder)
}

/// The library's file.
fn file_of(library: &str) -> String {
    format!("lib{library}.a")
}

/// The program, or one line that says why there is none.
fn program() -> Result<PathBuf, String> {
    if let Some(named) = env::var_os(NAMED_PROGRAM) {
        let program = PathBuf::from(named);
        return match program.is_file() {
            true => Ok(program),
            false => Err(format!(
                "{NAMED_PROGRAM}: there is no {}",
                program.display()
            )),
        };
    }
    let root = watched_repository();
    let program = built(&root, "run", PROGRAM)?.join(PROGRAM);
    match program.is_file() {
        true => Ok(program),
        false => Err(format!("rt run left no {}", program.display())),
    }
}

/// The folder above this package. When its crates change, this is run again.
fn watched_repository() -> PathBuf {
    let package = env::var_os("CARGO_MANIFEST_DIR").expect("cargo says where the package is");
    let mut root = PathBuf::from(package);
    root.pop();
    println!(
        "cargo:rerun-if-changed={}",
        root.join("crates.txt").display()
    );
    // Not the whole of crates: what rt makes stands in out, and would be a change each time.
    let crates = fs::read_dir(root.join("crates")).expect("the folder crates");
    for entry in crates {
        let folder = entry.expect("an entry").path();
        for part in ["src", "specs", "proofs"] {
            let watched = folder.join(part);
            if watched.is_dir() {
                println!("cargo:rerun-if-changed={}", watched.display());
            }
        }
    }
    root
}

/// Has the kit prove and write something of a crate, for every x86-64 processor, and gives the
/// folder that has it. What `rt` prints is kept from cargo, which would take lines of it for this
/// program's.
fn built(root: &Path, word: &str, name: &str) -> Result<PathBuf, String> {
    let folder = root.join("crates").join(name);
    let command = format!("rt {word} in crates/{name}");
    let done = Command::new("rt")
        .args([word, "--cpu", "x86-64"])
        .current_dir(&folder)
        .stdin(Stdio::null())
        .output()
        .map_err(|error| format!("{command} does not run: {error}"))?;
    if done.status.success() {
        return Ok(folder.join("out"));
    }
    let said = [done.stdout, done.stderr].concat();
    let said = String::from_utf8_lossy(&said);
    let last = said.trim_end().lines().last().unwrap_or("it says nothing");
    Err(format!("{command} failed ({}): {last}", done.status))
}
