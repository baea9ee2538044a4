// Points the build at two things that are not in this folder: the original's sources, CORBELNIB_RUST, and the folder of our
// archive, CORBELNIB_ARCHIVE (else target/staticlib of the repository). The original is taken from where it stands, by `#[path]`
// lines, which must be literal; only for src/turned.rs is its solver.rs written again, into the folder of the build.
use std::path::{Path, PathBuf};

// A file of the original.
fn source(sources: &Path, file: &str) -> PathBuf {
    let path = sources.join(file);
    println!("cargo:rerun-if-changed={}", path.display());
    path
}

// An item that takes its text from a file of the original.
fn module(path: &Path, name: &str) -> String {
    format!(
        "#[path = {:?}]\npub mod {name};\n",
        path.display().to_string()
    )
}

fn folder(name: &str, otherwise: Option<&Path>) -> PathBuf {
    println!("cargo:rerun-if-env-changed={name}");
    let given = std::env::var_os(name).map(PathBuf::from);
    let path = given.or(otherwise.map(Path::to_path_buf));
    let path = path.unwrap_or_else(|| panic!("{name} is not set"));
    path.canonicalize()
        .unwrap_or_else(|why| panic!("{name}, {}: {why}", path.display()))
}

// Each weight, a constant, as a function of its name; and their names.
fn weights_as_calls(weights: &str) -> String {
    let (mut calls, mut names) = (String::new(), Vec::new());
    for line in weights.lines() {
        let Some(constant) = line.strip_prefix("pub const ") else {
            continue;
        };
        let (name, rest) = constant.split_once(": ").expect("NAME: TYPE");
        let (kind, rest) = rest.split_once(" = ").expect("TYPE = NUMBER");
        let (number, _) = rest.split_once(';').expect("NUMBER;");
        calls += &format!("pub fn {name}() -> {kind} {{ turned({name:?}, {number}) as {kind} }}\n");
        names.push(name);
    }
    format!(
        "{calls}pub const NAMES: [&str; {}] = {names:?};\n",
        names.len()
    )
}

// The solver with each weight called.
fn calling_weights(solver: &str) -> String {
    let mut parts = solver.split("weights::");
    let mut text = parts.next().unwrap_or_default().to_string();
    for part in parts {
        let end = part.find(|c: char| !c.is_ascii_uppercase() && c != '_');
        let (name, rest) = part.split_at(end.unwrap_or(part.len()));
        text += &format!("weights::{name}(){rest}");
    }
    text
}

fn main() {
    let sources = folder("CORBELNIB_RUST", None);
    let archive = folder("CORBELNIB_ARCHIVE", Some(Path::new("../target/staticlib")));
    let out = PathBuf::from(std::env::var_os("OUT_DIR").unwrap());
    let [card, board, weights, solver] = [
        "common/card.rs",
        "freecell/board.rs",
        "freecell/weights.rs",
        "freecell/solver.rs",
    ]
    .map(|file| source(&sources, file));
    let text = |path: &Path| std::fs::read_to_string(path).unwrap();
    let write = |file: &str, text: String| std::fs::write(out.join(file), text).unwrap();
    write("common.rs", module(&card, "card"));
    write("freecell.rs", module(&board, "board"));
    write("given.rs", module(&weights, "weights"));
    write("weights.rs", weights_as_calls(&text(&weights)));
    write("solver.rs", calling_weights(&text(&solver)));
    println!("cargo:rustc-env=CORBELNIB_SOLVER={}", solver.display());
    println!(
        "cargo:rerun-if-changed={}",
        archive.join("libcorbelnib.a").display()
    );
    println!("cargo:rustc-link-search=native={}", archive.display());
    println!("cargo:rustc-link-lib=static=corbelnib");
}
