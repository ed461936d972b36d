//! Links the archives of the proved library: the whole engine's, and the lower part's. The crate leaves out what has no archive.
//!
//! An environment variable names an archive; by default it is in target/native of the repository.

use std::env;
use std::path::{Path, PathBuf};

/// An archive: the variable that names it, its default path, the cfg that it enables, the key for the build scripts of dependent
/// crates, the command that makes it, and what it provides.
struct Archive {
    variable: &'static str,
    usual: &'static str,
    cfg: &'static str,
    key: &'static str,
    made_by: &'static str,
    item: &'static str,
    /// Functions that an older archive does not have: `mishantral_opl` and so on.
    later: &'static [&'static str],
}

const ARCHIVES: [Archive; 2] = [
    Archive {
        variable: "MISHANTRAL_ARCHIVE",
        usual: "target/native/libmishantral.a",
        cfg: "mishantral_engine",
        key: "engine",
        made_by: "tools/archive",
        item: "mishantral::Engine",
        later: &["opl", "opl_all", "pile", "settled_request", "write", "mend"],
    },
    Archive {
        variable: "MISHANTRAL_LOWER_ARCHIVE",
        usual: "target/native/libmishantral_lower.a",
        cfg: "mishantral_lower",
        key: "lower",
        made_by: "tools/archive lower",
        item: "mishantral::lower::Engine",
        later: &["lower_write"],
    },
];

fn link(archive: &Archive, found: &Path) {
    let stem = found.file_stem().and_then(|stem| stem.to_str());
    let Some(name) = stem.and_then(|stem| stem.strip_prefix("lib")) else {
        panic!("{}: an archive is named lib*.a", found.display());
    };
    let folder = found.parent().unwrap_or(Path::new("."));
    println!("cargo:rustc-link-search=native={}", folder.display());
    println!("cargo:rustc-link-lib=static={name}");
    println!("cargo:rustc-cfg={}", archive.cfg);
    // The build scripts of dependent crates read these as DEP_MISHANTRAL_ENGINE, DEP_MISHANTRAL_LOWER, DEP_MISHANTRAL_OPL and so
    // on.
    println!("cargo:{}=linked", archive.key);
    for later in archive.later {
        if has(found, format!("mishantral_{later}\0").as_bytes()) {
            println!("cargo:rustc-cfg=mishantral_{later}");
            println!("cargo:{later}=linked");
        }
    }
}

/// Whether an archive contains a name: an archive that was made before a function existed does not contain its name.
fn has(archive: &Path, name: &[u8]) -> bool {
    let bytes = std::fs::read(archive).unwrap_or_default();
    bytes.windows(name.len()).any(|window| window == name)
}

/// The path that changes when an archive appears or changes: the archive itself, or the folder where it will appear. Cargo treats
/// a missing path as changed and would rebuild everything each time.
fn watched(archive: &Path) -> &Path {
    match archive.parent() {
        Some(folder) if !archive.exists() && std::fs::create_dir_all(folder).is_ok() => folder,
        _ => archive,
    }
}

/// Links the archive if it exists; returns whether it does.
fn linked(root: &Path, archive: &Archive) -> bool {
    let variable = archive.variable;
    let named = env::var_os(variable).map(PathBuf::from);
    let path = named.clone().unwrap_or_else(|| root.join(archive.usual));
    println!("cargo:rustc-check-cfg=cfg({})", archive.cfg);
    println!("cargo:rerun-if-env-changed={variable}");
    println!("cargo:rerun-if-changed={}", watched(&path).display());
    match path.canonicalize() {
        Ok(found) => link(archive, &found),
        Err(why) if named.is_some() => panic!("{variable}={}: {why}", path.display()),
        Err(_) => return false,
    }
    true
}

fn main() {
    for later in ARCHIVES.iter().flat_map(|archive| archive.later) {
        println!("cargo:rustc-check-cfg=cfg(mishantral_{later})");
    }
    let root = Path::new(env!("CARGO_MANIFEST_DIR")).join("../..");
    let root = root.canonicalize().unwrap_or(root);
    if ARCHIVES.iter().filter(|a| linked(&root, a)).count() > 0 {
        return;
    }
    println!("cargo:warning=the proved library is not there, and so `mishantral::Engine` is not");
    for archive in &ARCHIVES {
        let (made_by, of) = (root.join(archive.made_by), archive.item);
        let made_by = made_by.display();
        println!(
            "cargo:warning=for `{of}`: run `{made_by}`, or name its archive by {}",
            archive.variable
        );
    }
}
