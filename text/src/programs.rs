//! The proved programs, `judgebook` and `rulerun`: where they are, and running them.

use std::io::Write;
use std::path::{Path, PathBuf};
use std::process::{Command, Stdio};

/// Names the folder of the proved programs where they are not found by themselves.
pub const FOLDER: &str = "RULE_PROGRAMS";

/// The proved program of a name: in the folder that is named in the environment, else in
/// `target/bin` of the project, else on the path.
pub fn find(name: &str) -> Result<PathBuf, String> {
    let folders = match std::env::var_os(FOLDER) {
        Some(folder) => vec![PathBuf::from(folder)],
        None => folders(),
    };
    let found = folders.iter().map(|folder| folder.join(name));
    let found = found.into_iter().find(|path| path.is_file());
    found.ok_or_else(|| {
        format!(
            "the proved program '{name}' is not there: run 'bash tools/build.sh' in the project's \
             folder, or name the folder that holds it in {FOLDER}"
        )
    })
}

/// `target/bin` above this program and above the current folder, then the path's folders.
fn folders() -> Vec<PathBuf> {
    let starts = [std::env::current_exe().ok(), std::env::current_dir().ok()];
    let mut folders = Vec::new();
    for start in starts.iter().flatten() {
        folders.extend(start.ancestors().map(|above| above.join("target/bin")));
    }
    let path = std::env::var_os("PATH").unwrap_or_default();
    folders.extend(std::env::split_paths(&path));
    folders
}

/// What a program prints for what it reads.
pub fn output_of(path: &Path, input: &[u8]) -> Result<String, String> {
    let failed = |error: std::io::Error| format!("{}: {error}", path.display());
    let mut child = Command::new(path)
        .stdin(Stdio::piped())
        .stdout(Stdio::piped())
        .spawn()
        .map_err(failed)?;
    let output = std::thread::scope(|threads| {
        let stdin = child.stdin.take();
        threads.spawn(move || stdin.map(|mut stdin| stdin.write_all(input)));
        child.wait_with_output()
    });
    let output = output.map_err(failed)?;
    match output.status.success() {
        true => Ok(String::from_utf8_lossy(&output.stdout).into_owned()),
        false => Err(format!("{}: {}", path.display(), output.status)),
    }
}
