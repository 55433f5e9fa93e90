//! Finds the proved archives, and has `tools/build` make each where it is missing or older than the Rattle sources. In a release,
//! which has no Rattle sources, the archives are those in `lib/`.
use std::fs::{File, OpenOptions};
use std::io::{self, BufRead, BufReader, Write};
use std::path::{Path, PathBuf};
use std::process::{Command, Stdio};
use std::time::SystemTime;
use std::{env, fs};

/// The crates whose archives are linked: the store, the catalogue above it, their calls that are cut off, for tests, and rehearsals.
const CRATES: [&str; 4] = ["clash_c", "catalogue_c", "cut_c", "rehearsal_c"];

const BUILT: &str = "target/staticlib";
const RELEASED: &str = "lib";

fn main() {
    let root = repository();
    let released = root.join(RELEASED);
    let is_released = CRATES.iter().all(|name| watched(&released, name).exists());
    let folder = if is_released { released } else { built(&root) };
    println!("cargo:rustc-link-search=native={}", folder.display());
    for name in CRATES {
        println!("cargo:rustc-link-lib=static={name}");
    }
}

/// The folder of a repository's archives, each built where it has to be.
fn built(root: &Path) -> PathBuf {
    let folder = root.join(BUILT);
    let sources = sources(root);
    for path in &sources {
        println!("cargo:rerun-if-changed={}", path.display());
    }
    for name in CRATES {
        if is_stale(&watched(&folder, name), &sources) {
            build(root, name);
        }
    }
    folder
}

/// The archive of a crate, which cargo looks at before the next build.
fn watched(folder: &Path, name: &str) -> PathBuf {
    let archive = folder.join(format!("lib{name}.a"));
    println!("cargo:rerun-if-changed={}", archive.display());
    archive
}

fn repository() -> PathBuf {
    let here = env::var("CARGO_MANIFEST_DIR").expect("set by cargo");
    Path::new(&here).parent().expect("rust/ stands in the repository").to_path_buf()
}

/// The list of crates, and the code of each: contracts and proofs do not change the archive.
fn sources(root: &Path) -> Vec<PathBuf> {
    let mut found = vec![root.join("crates.txt")];
    for folder in entries(&root.join("crates")) {
        found.extend(entries(&folder.join("src")));
    }
    found
}

fn entries(folder: &Path) -> Vec<PathBuf> {
    let list = fs::read_dir(folder).unwrap_or_else(|e| panic!("{}: {e}", folder.display()));
    list.map(|entry| entry.expect("a folder's entry").path()).collect()
}

fn is_stale(archive: &Path, sources: &[PathBuf]) -> bool {
    match changed(archive) {
        None => true,
        Some(built) => sources.iter().filter_map(|path| changed(path)).any(|at| at > built),
    }
}

fn changed(path: &Path) -> Option<SystemTime> {
    fs::metadata(path).and_then(|about| about.modified()).ok()
}

fn build(root: &Path, name: &str) {
    let archive = format!("{BUILT}/lib{name}.a");
    let pinned = fs::read_to_string(root.join("KIT")).unwrap_or_default();
    let pinned = pinned.trim();
    let found = match Command::new("rt").arg("version").output() {
        Ok(done) => String::from_utf8_lossy(&done.stdout).trim().to_string(),
        Err(e) => panic!("{archive} is missing or old, and there is no command `rt` to build it ({e}). It needs the Rattle kit: {pinned}"),
    };
    let mut words = words();
    if found != pinned {
        say(&mut words, &format!("clash: another Rattle kit: found '{found}', and KIT names '{pinned}'. The kit found goes on."));
    }
    say(&mut words, &format!("clash: proving and building {archive}; about twenty minutes on two cores if nothing is proved yet"));
    let said = prove(root, name, &mut words).unwrap_or_else(|e| panic!("`tools/build {name}` could not be run: {e}"));
    if let Err(said) = said {
        panic!("`tools/build {name}` failed:\n{said}");
    }
    say(&mut words, &format!("clash: built {archive}"));
}

/// Has the kit build an archive, and passes on its lines as they come. Gives all of them where it fails.
fn prove(root: &Path, name: &str, words: &mut Option<File>) -> io::Result<Result<(), String>> {
    let command = format!("exec tools/build {name} 2>&1");
    let mut rt = Command::new("sh").args(["-c", &command]).current_dir(root).stdout(Stdio::piped()).spawn()?;
    let mut said = String::new();
    for line in BufReader::new(rt.stdout.take().expect("piped")).lines() {
        let line = line?;
        if line.starts_with("rt: ") {
            say(words, &line);
        }
        said = said + &line + "\n";
    }
    Ok(if rt.wait()?.success() { Ok(()) } else { Err(said) })
}

/// Cargo keeps what a build script writes until the script fails; what takes minutes should be said at once. So it goes to the standard
/// error of cargo itself, where that is a terminal or a pipe: in a file cargo would write over it.
fn words() -> Option<File> {
    let cargo = std::os::unix::process::parent_id();
    let file = OpenOptions::new().append(true).open(format!("/proc/{cargo}/fd/2")).ok()?;
    (!file.metadata().ok()?.is_file()).then_some(file)
}

fn say(words: &mut Option<File>, line: &str) {
    let said = words.as_mut().map(|file| writeln!(file, "{line}"));
    if !matches!(said, Some(Ok(()))) {
        eprintln!("{line}");
    }
}
