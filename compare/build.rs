//! Links the static library that `tools/build.sh` wrote; and, for the benchmark, four
//! copies of it at other places, and of a former one where `FORMER` names its file.

use std::env;
use std::fs;
use std::path::Path;
use std::process::Command;

/// The functions that the library exports.
const EXPORTS: [&str; 5] = ["judge", "evaluate", "compile", "run", "tabulate"];

/// How many copies there are. In copy k each function begins 16 k bytes behind a multiple
/// of 64, so where it lies in a line of the cache does not go by the functions before it.
const COPIES: usize = 4;

/// What a command prints; the build stops where it fails.
fn printed(command: &mut Command) -> String {
    let output = command.output();
    let output = output.unwrap_or_else(|error| panic!("{command:?}: {error}"));
    let said = String::from_utf8_lossy(&output.stderr);
    assert!(output.status.success(), "{command:?}: {said}");
    String::from_utf8(output.stdout).expect("text")
}

/// The sections of a library that hold a function each.
fn functions(library: &Path) -> Vec<String> {
    let table = printed(Command::new("objdump").arg("-h").arg(library));
    let names = table
        .lines()
        .filter_map(|line| line.split(' ').find(|word| word.starts_with(".text.")));
    names.map(str::to_string).collect()
}

/// The linker's script for a copy: every other one has its functions from last to first.
fn script(mut functions: Vec<String>, copy: usize) -> String {
    if copy % 2 == 1 {
        functions.reverse();
    }
    let place = |name: &String| format!(". = ALIGN(64); . += {}; *(\"{name}\")\n", 16 * copy);
    let places: String = functions.iter().map(place).collect();
    format!("SECTIONS {{ .text.copy : ALIGN(64) {{\n{places}}} }}\n")
}

/// Writes a copy of a library as an object whose exported functions have names of its own.
fn write_copy(library: &Path, name: &str, copy: usize, folder: &Path) -> String {
    let object = format!("{name}_{copy}.o");
    let file = folder.join(format!("{name}_{copy}.ld"));
    fs::write(&file, script(functions(library), copy)).expect("a script is written");
    let mut link = Command::new("ld");
    link.args(["-r", "-o", &object, "-T"]).arg(&file);
    printed(link.arg("--whole-archive").arg(library).current_dir(folder));
    let mut rename = Command::new("objcopy");
    for export in EXPORTS {
        rename.arg(format!(
            "--redefine-sym=engine_{export}={name}_{copy}_{export}"
        ));
    }
    printed(rename.arg(&object).current_dir(folder));
    object
}

/// Writes the copies of a library as a library, and has it linked.
fn link_copies(library: &Path, name: &str) {
    println!("cargo:rerun-if-changed={}", library.display());
    let folder = env::var("OUT_DIR").expect("cargo sets it");
    let folder = Path::new(&folder);
    let objects = (0..COPIES).map(|copy| write_copy(library, name, copy, folder));
    let mut archive = Command::new("ar");
    archive.args(["rcs", &format!("lib{name}.a")]).args(objects);
    printed(archive.current_dir(folder));
    link_last(&folder.join(format!("lib{name}.a")));
}

/// Has a library linked behind the second program, whose place then does not go by it.
fn link_last(library: &Path) {
    println!("cargo:rustc-link-arg={}", library.display());
}

fn main() {
    let root = env::var("CARGO_MANIFEST_DIR").expect("cargo sets it");
    let library = Path::new(&root).join("../target/staticlib/libcapi.a");
    link_last(&library);
    link_copies(&library, "engine");
    println!("cargo:rerun-if-env-changed=FORMER");
    println!("cargo:rustc-check-cfg=cfg(former)");
    if let Some(former) = env::var_os("FORMER") {
        link_copies(Path::new(&former), "former");
        println!("cargo:rustc-cfg=former");
    }
}
