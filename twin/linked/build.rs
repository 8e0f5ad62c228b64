//! Links libboard_c.a from the folder that BOARD_LIBRARY names, or else twin/target/library, and
//! writes a copy of the twin for every file of faults/, with that one line replaced.

use std::path::{Path, PathBuf};
use std::{env, fs};

/// The files of the twin that a faulty copy is made of.
const PARTS: [&str; 2] = ["area.rs", "board.rs"];

fn main() {
    println!("cargo:rerun-if-env-changed=BOARD_LIBRARY");
    let here = PathBuf::from(env::var("CARGO_MANIFEST_DIR").expect("cargo names the folder"));
    let given = env::var("BOARD_LIBRARY").map(PathBuf::from);
    let library = given.unwrap_or_else(|_| here.join("../target/library"));
    let archive = library.join("libboard_c.a");
    if !archive.exists() {
        eprintln!("no {}: run twin/library first, or set BOARD_LIBRARY", archive.display());
        std::process::exit(1);
    }
    println!("cargo:rerun-if-changed={}", archive.display());
    println!("cargo:rustc-link-search=native={}", library.display());
    println!("cargo:rustc-link-lib=static=board_c");
    let out = PathBuf::from(env::var("OUT_DIR").expect("cargo names the folder"));
    write_faults(&here, &out);
}

/// One fault: the file it is in, the line that is there and the line that takes its place.
struct Fault {
    name: String,
    about: String,
    file: String,
    old: String,
    new: String,
}

fn read(path: &Path) -> String {
    fs::read_to_string(path).unwrap_or_else(|error| panic!("{}: {error}", path.display()))
}

/// A fault's file has four lines: `# what it is`, `file: NAME`, `old: ..` and `new: ..`.
fn fault(path: &Path) -> Fault {
    let text = read(path);
    let field = |start: &str| {
        let line = text.lines().find_map(|line| line.strip_prefix(start));
        line.unwrap_or_else(|| panic!("{}: no line `{start}`", path.display())).to_string()
    };
    let name = path.file_stem().expect("a file has a name").to_string_lossy().to_string();
    Fault {
        name,
        about: field("# "),
        file: field("file: "),
        old: field("old: "),
        new: field("new: "),
    }
}

/// The twin's file, with the fault's one line replaced if it is in this file.
fn part(source: &Path, file: &str, fault: &Fault) -> String {
    let text = read(&source.join(file)).replace("use crate::", "use super::");
    if fault.file != file {
        return text;
    }
    let count = text.matches(&fault.old).count();
    assert!(
        count == 1 && !fault.old.contains('\n'),
        "{}: its old line stands {count} times",
        fault.name
    );
    text.replace(&fault.old, &fault.new)
}

/// Writes OUT_DIR/faults.rs: a module for every fault and the list of them.
fn write_faults(here: &Path, out: &Path) {
    println!("cargo:rerun-if-changed=faults");
    println!("cargo:rerun-if-changed=../src");
    let mut paths = Vec::new();
    for entry in fs::read_dir(here.join("faults")).expect("faults/ is there") {
        paths.push(entry.expect("a file of faults/").path());
    }
    paths.sort();
    let (mut modules, mut list) = (String::new(), String::new());
    for path in paths {
        println!("cargo:rerun-if-changed={}", path.display());
        let fault = fault(&path);
        let folder = out.join(&fault.name);
        fs::create_dir_all(&folder).expect("OUT_DIR takes folders");
        let mut inner = String::new();
        for file in PARTS {
            let to = folder.join(file);
            fs::write(&to, part(&here.join("../src"), file, &fault)).expect("OUT_DIR takes files");
            let module = file.trim_end_matches(".rs");
            inner.push_str(&format!("#[path = {:?}] pub mod {module};", to.display().to_string()));
        }
        let (name, about) = (&fault.name, &fault.about);
        modules.push_str(&format!("#[allow(unused, clippy::all)] mod {name} {{ {inner} }}\n"));
        list.push_str(&format!("({name:?}, {about:?}, side_of!({name})),\n"));
    }
    let text = format!("{modules}\npub fn all() -> Vec<Fault> {{ vec![\n{list}] }}\n");
    fs::write(out.join("faults.rs"), text).expect("OUT_DIR takes files");
}
