// Links libtenahvar.a: from the folder that TENAHVAR_LIB_DIR names, else from where the repository's own is built.
use std::{
    env,
    path::{Path, PathBuf},
    process,
};

const ARCHIVE: &str = "libtenahvar.a";

fn main() {
    println!("cargo:rerun-if-env-changed=TENAHVAR_LIB_DIR");
    let package = PathBuf::from(env::var_os("CARGO_MANIFEST_DIR").unwrap());
    let repository = package.ancestors().nth(2).unwrap_or(&package);
    let named = env::var_os("TENAHVAR_LIB_DIR").filter(|named| !named.is_empty());
    let folders = match &named {
        Some(named) => places(Path::new(named), repository, &package),
        None => built(repository),
    };
    let Some(folder) = folders.iter().find(|f| f.join(ARCHIVE).is_file()) else {
        missing(&folders, named.is_some());
    };
    let folder = folder.canonicalize().unwrap();
    println!("cargo:rerun-if-changed={}", folder.join(ARCHIVE).display());
    println!("cargo:rustc-link-search=native={}", folder.display());
    println!("cargo:rustc-link-lib=static=tenahvar");
}

// Where a named folder may lie. Cargo starts this program in the package's folder and does not say where it was called itself:
// a shell does, in PWD. So a relative name counts from there, else from the repository's root, else from the package;
// an absolute one stays as it is, wherever it is joined.
fn places(named: &Path, repository: &Path, package: &Path) -> Vec<PathBuf> {
    if named.is_relative() {
        println!("cargo:rerun-if-env-changed=PWD");
    }
    let caller = env::var_os("PWD").map(PathBuf::from);
    let mut places = Vec::new();
    for start in [caller.as_deref(), Some(repository), Some(package)] {
        let place = start.map(|start| start.join(named));
        places.extend(place.filter(|place| !places.contains(place)));
    }
    places
}

// Where `rt lib` writes the archive, and where tests/native-staticlib leaves it.
fn built(repository: &Path) -> Vec<PathBuf> {
    ["crates/tenahvar/out", "target/native"].map(|folder| repository.join(folder)).into()
}

fn missing(folders: &[PathBuf], named: bool) -> ! {
    let list: Vec<_> = folders.iter().map(|f| f.display().to_string()).collect();
    eprintln!("no {ARCHIVE} in {}", list.join(", nor in "));
    if named {
        eprintln!("TENAHVAR_LIB_DIR names the folder that it lies in; an absolute path is always understood");
    } else {
        eprintln!("build it in the repository, by `rt lib --cpu x86-64` in crates/tenahvar;");
        eprintln!("or name the folder that it lies in: TENAHVAR_LIB_DIR=FOLDER");
    }
    process::exit(1)
}
