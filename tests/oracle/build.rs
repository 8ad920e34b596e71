//! Makes the reference compilable: reads it from FERREUS_SRC, applies edits.rs,
//! writes the result to OUT_DIR. No copy of the reference stands in the repository.

mod edits;

use edits::{Edit, EDITS, FILES};
use std::fmt::Write as _;
use std::path::{Path, PathBuf};
use std::{env, fs};

fn main() {
    println!("cargo:rerun-if-env-changed=FERREUS_SRC");
    println!("cargo:rerun-if-changed=build.rs");
    println!("cargo:rerun-if-changed=edits.rs");

    let source = env::var_os("FERREUS_SRC")
        .map(PathBuf::from)
        .unwrap_or_else(|| {
            fail("FERREUS_SRC is not set: it names the folder that holds ferreus_rmt/src".into())
        });
    let out = PathBuf::from(env::var_os("OUT_DIR").expect("cargo sets OUT_DIR"));

    // The modules are declared with #[path], so that each file of the reference
    // stays a file of its own with its inner comments.
    let mut modules = String::new();
    for (file, module) in FILES {
        let edited = edited(&source.join(file), file);
        let target = out.join(format!("{module}.rs"));
        fs::write(&target, edited).unwrap_or_else(|e| fail(format!("{}: {e}", target.display())));
        writeln!(
            modules,
            "#[allow(dead_code, unused)]\n#[path = {target:?}]\npub(crate) mod {module};"
        )
        .expect("writing to a string");
    }
    fs::write(out.join("reference.rs"), modules).unwrap_or_else(|e| fail(e.to_string()));
}

/// The text of one file with its edits applied.
fn edited(path: &Path, file: &str) -> String {
    println!("cargo:rerun-if-changed={}", path.display());
    let mut text = fs::read_to_string(path)
        .unwrap_or_else(|e| fail(format!("cannot read {}: {e}", path.display())));
    for edit in EDITS.iter().filter(|edit| edit.file == file) {
        text = apply(&text, edit);
    }
    text
}

fn apply(text: &str, edit: &Edit) -> String {
    let found = text.matches(edit.old).count();
    if found != edit.times {
        fail(format!(
            "an edit of {} must match {} time(s) and matches {found}.\nOld text:\n{}\nReason: {}",
            edit.file, edit.times, edit.old, edit.why
        ));
    }
    text.replace(edit.old, edit.new)
}

fn fail(message: String) -> ! {
    eprintln!("oracle: {message}");
    std::process::exit(1)
}
