//! Makes a copy of the second implementation for each mistake of `edits.txt`,
//! as a module, and edits it. The implementation itself stays free of hooks.
//! A copy has only those files of its own that an edit reaches.

use std::collections::{BTreeMap, BTreeSet};
use std::env;
use std::fmt::Write;
use std::fs;
use std::path::{Path, PathBuf};
use std::process::exit;

/// One change: in a file, these lines become those.
#[derive(Default)]
struct Edit {
    file: String,
    old: Vec<String>,
    new: Vec<String>,
}

#[derive(Default)]
struct Mutant {
    title: String,
    edits: Vec<Edit>,
}

/// The texts of an implementation's modules, by their names.
type Modules = BTreeMap<String, String>;

/// The module that holds the implementation without a mistake.
const ORIGINAL: &str = "original";

fn main() {
    println!("cargo::rerun-if-changed=edits.txt");
    println!("cargo::rerun-if-env-changed=MUTANTS");
    let original = modules(Path::new("../reference/src"));
    let mutants = read(&fs::read_to_string("edits.txt").expect("edits.txt"));
    let out = PathBuf::from(env::var_os("OUT_DIR").expect("set by cargo"));
    let every = original.keys().cloned().collect();
    let mut code = write_copy(&out, ORIGINAL, &original, &every);
    let mut list = String::new();
    // Copies differ by a line each, so one is enough to be linted.
    let most = env::var("MUTANTS").map_or(usize::MAX, |most| most.parse().expect("a number"));
    for (number, mutant) in mutants.iter().enumerate().take(most) {
        let module = format!("m{number:03}");
        let (edited, changed) = edit(&original, mutant);
        let copied = with_users(&edited, changed);
        code += &write_copy(&out, &module, &edited, &copied);
        let title = &mutant.title;
        writeln!(list, "        $make!({title:?}, copies::{module}),").unwrap();
    }
    writeln!(
        code,
        "/// A slice of what a macro makes of each copy's title and module.\n\
         #[macro_export]\nmacro_rules! each {{\n    ($make:ident) => {{ &[\n{list}    ] }};\n}}"
    )
    .unwrap();
    fs::write(out.join("copies.rs"), code).expect("the list");
}

fn modules(folder: &Path) -> Modules {
    println!("cargo::rerun-if-changed={}", folder.display());
    let files = fs::read_dir(folder).expect("the original");
    let paths = files.map(|file| file.expect("the original").path());
    let module = |path: PathBuf| {
        let name = path.file_stem().and_then(|name| name.to_str());
        let name = name.expect("a module's name").to_owned();
        (name, fs::read_to_string(&path).expect("the original"))
    };
    paths.map(module).collect()
}

/// Makes a mutant's edits. Also gives the names of the modules edited.
fn edit(original: &Modules, mutant: &Mutant) -> (Modules, BTreeSet<String>) {
    let mut edited = original.clone();
    let mut changed = BTreeSet::new();
    for edit in &mutant.edits {
        let name = edit.file.trim_end_matches(".rs");
        let Some(text) = edited.get_mut(name) else {
            fail(&format!("{}: an edit names no file", mutant.title));
        };
        *text = apply(text, edit, &mutant.title);
        changed.insert(name.to_owned());
    }
    if changed.is_empty() {
        fail(&format!("{}: no edit", mutant.title));
    }
    (edited, changed)
}

/// These modules and all that use one of them, themselves or through others.
fn with_users(modules: &Modules, mut some: BTreeSet<String>) -> BTreeSet<String> {
    loop {
        let uses = |text: &str| used(text).any(|name| some.contains(name));
        let users = modules.iter().filter(|(_, text)| uses(text));
        let users: Vec<_> = users.map(|(name, _)| name.clone()).collect();
        let before = some.len();
        some.extend(users);
        if some.len() == before {
            return some;
        }
    }
}

/// The modules that a text names, each written out behind `crate::`.
fn used(text: &str) -> impl Iterator<Item = &str> {
    text.split("crate::").skip(1).map(|behind| {
        let end = behind.find(|letter: char| !letter.is_alphanumeric() && letter != '_');
        match &behind[..end.unwrap_or(behind.len())] {
            "" => fail("a list behind `crate::` can't be read"),
            name => name,
        }
    })
}

/// Writes a copy of some modules; the others are those of the original. Gives
/// the line that declares it.
fn write_copy(out: &Path, copy: &str, modules: &Modules, copied: &BTreeSet<String>) -> String {
    let folder = out.join(copy);
    fs::create_dir_all(&folder).expect("a folder for the copy");
    for (name, text) in modules {
        let mut text = text.replace("crate::", &format!("crate::{copy}::"));
        if name == "lib" {
            for other in modules.keys().filter(|other| !copied.contains(*other)) {
                let same = format!("pub mod {other} {{ pub use crate::{ORIGINAL}::{other}::*; }}");
                text = text.replace(&format!("pub mod {other};"), &same);
            }
        }
        let file = if name == "lib" { "mod" } else { name };
        fs::write(folder.join(file).with_extension("rs"), text).expect("the copy");
    }
    let path = folder.join("mod.rs");
    format!("#[allow(warnings, clippy::all)]\n#[path = {path:?}]\npub mod {copy};\n")
}

/// Reads the edits: `= title` begins a mutant, `@ file` an edit of it, lines
/// with `-` are the old ones and lines with `+` the new ones.
fn read(text: &str) -> Vec<Mutant> {
    let mut mutants: Vec<Mutant> = Vec::new();
    for line in text.lines() {
        let rest = line.get(1..).unwrap_or_default().trim().to_owned();
        let mutant = mutants.last_mut();
        match (line.chars().next(), mutant) {
            (None | Some('#'), _) => (),
            (Some('='), _) => mutants.push(Mutant {
                title: rest,
                edits: Vec::new(),
            }),
            (Some('@'), Some(mutant)) => mutant.edits.push(Edit {
                file: rest,
                ..Edit::default()
            }),
            (Some(sign @ ('-' | '+')), Some(mutant)) => {
                let Some(edit) = mutant.edits.last_mut() else {
                    fail(&format!("{}: no file before {line}", mutant.title));
                };
                let lines = if sign == '-' {
                    &mut edit.old
                } else {
                    &mut edit.new
                };
                lines.push(rest);
            }
            _ => fail(&format!("edits.txt: {line}")),
        }
    }
    mutants
}

/// Replaces the only place where the old lines stand, blanks around them
/// aside.
fn apply(text: &str, edit: &Edit, title: &str) -> String {
    let lines: Vec<&str> = text.lines().collect();
    let fits = |window: &[&str]| window.iter().map(|line| line.trim()).eq(edit.old.iter());
    let mut windows = lines.windows(edit.old.len().max(1));
    let places = windows.clone().filter(|window| fits(window)).count();
    if places != 1 {
        fail(&format!(
            "{title}: stands at {places} places in {}",
            edit.file
        ));
    }
    let place = windows.position(fits).unwrap();
    let mut edited: Vec<&str> = lines[..place].to_vec();
    edited.extend(edit.new.iter().map(String::as_str));
    edited.extend(&lines[place + edit.old.len()..]);
    edited.join("\n") + "\n"
}

fn fail(words: &str) -> ! {
    println!("cargo::error={words}");
    exit(1);
}
