//! The declarations here are the header's: the same functions, with the same parameters in the same order. A difference would
//! compile, link and misread memory.

use std::collections::BTreeMap;
use std::fs;
use std::path::Path;

/// Parameters as (name, type of Rust), by function.
type Functions = BTreeMap<String, Vec<(String, String)>>;

/// What stands between `open` behind a function's name and the next `close`, for each name that begins with yongpham_.
fn functions(text: &str, before: &str, parameter: fn(&str) -> (String, String)) -> Functions {
    let mut found = Functions::new();
    for part in text.split(&format!("{before}yongpham_")).skip(1) {
        let (name, rest) = part.split_once('(').expect("a list of parameters");
        let (list, _) = rest.split_once(')').expect("an end of it");
        let parameters = list
            .split(',')
            .map(str::trim)
            .filter(|word| !word.is_empty());
        let earlier = found.insert(name.into(), parameters.map(parameter).collect());
        assert!(earlier.is_none(), "{name} is declared twice");
    }
    found
}

/// `const double *vertices` or `uint64_t values[4]` as Rust declares it.
fn of_c(text: &str) -> (String, String) {
    let (kind, name) = text.rsplit_once([' ', '*']).expect("a type and a name");
    let pointed = text.contains('*') || name.ends_with("[4]");
    let constant = kind.contains("const ");
    let kind = kind.replace("const ", "").replace('*', "");
    let kind = match kind.trim() {
        "double" => "f64",
        "uint32_t" => "u32",
        "uint64_t" => "u64",
        "size_t" => "usize",
        other => panic!("no type of this interface: {other}"),
    };
    let prefix = match (pointed, constant) {
        (false, _) => "",
        (true, true) => "*const ",
        (true, false) => "*mut ",
    };
    (
        name.trim_end_matches("[4]").into(),
        format!("{prefix}{kind}"),
    )
}

fn of_rust(text: &str) -> (String, String) {
    let (name, kind) = text.split_once(": ").expect("a name and a type");
    (name.into(), kind.into())
}

#[test]
fn declarations_are_the_headers() {
    let here = Path::new(env!("CARGO_MANIFEST_DIR"));
    let header = fs::read_to_string(here.join("../include/yongpham.h")).expect("the header");
    let mut sources = String::new();
    for entry in fs::read_dir(here.join("src")).expect("the sources") {
        sources += &fs::read_to_string(entry.expect("a file").path()).expect("a source");
    }
    let ours = functions(&sources, "    fn ", of_rust);
    assert!(ours.len() >= 5, "every function is declared");
    assert_eq!(ours, functions(&header, "\nuint32_t ", of_c));
    let answers = sources.matches("    fn yongpham_").count();
    assert_eq!(
        sources.matches("    ) -> u32;").count(),
        answers,
        "each answers 32 bits"
    );
}
