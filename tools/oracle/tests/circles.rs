//! The files of src/ name each other in no circle, and neither do its modules.
//!
//! A file names another by declaring it as a module, or by a path that begins with `crate`, `super` or such a module. Of the
//! root nothing is named but modules: those of src/, and the originals, which are no files of ours.

use std::collections::{BTreeMap, BTreeSet};
use std::path::Path;

/// Where a file stands in the crate: `compare::rows` is `["compare", "rows"]`, and main.rs is `[]`.
type Module = Vec<String>;
type Graph = BTreeMap<Module, BTreeSet<Module>>;

const ORIGINALS: [&str; 8] = [
    "card", "chain", "courier", "data", "epoch", "kdf", "state", "transfer",
];

#[test]
fn no_circle_between_files() {
    let graph = graph();
    let main_names_commands = graph[&Vec::new()].contains(&vec!["commands".to_string()]);
    assert!(main_names_commands, "names are not found: {graph:?}");
    assert_eq!(circle(&graph), None);
}

#[test]
fn no_circle_between_modules() {
    let first = |file: &Module| file[..file.len().min(1)].to_vec();
    let mut modules = Graph::new();
    for (file, named) in graph() {
        let others = named.iter().map(first).filter(|one| *one != first(&file));
        modules.entry(first(&file)).or_default().extend(others);
    }
    assert_eq!(circle(&modules), None);
}

/// Each file of src/, and the other files that it names.
fn graph() -> Graph {
    let mut sources = BTreeMap::new();
    let src = Path::new(env!("CARGO_MANIFEST_DIR")).join("src");
    read(&src, &Vec::new(), &mut sources);
    let named = |(file, text): (&Module, &String)| {
        let paths = paths(&words(text));
        let mut named: BTreeSet<Module> = paths
            .iter()
            .filter_map(|path| resolved(file, path, &sources))
            .collect();
        named.remove(file);
        (file.clone(), named)
    };
    sources.iter().map(named).collect()
}

fn read(folder: &Path, within: &Module, sources: &mut BTreeMap<Module, String>) {
    for entry in std::fs::read_dir(folder).expect("src can be read") {
        let path = entry.expect("src can be read").path();
        let name = path.file_stem().expect("a file has a name");
        let module = [&within[..], &[name.to_string_lossy().into_owned()]].concat();
        if path.is_dir() {
            read(&path, &module, sources);
        } else if path.extension().is_some_and(|ending| ending == "rs") {
            let module = if module == ["main"] {
                Vec::new()
            } else {
                module
            };
            let text = std::fs::read_to_string(&path).expect("src can be read");
            sources.insert(module, text);
        }
    }
}

/// Names, `::`, and other characters one by one; no comments.
fn words(text: &str) -> Vec<String> {
    let code = text
        .lines()
        .filter(|line| !line.trim_start().starts_with("//"));
    let code = code.collect::<Vec<&str>>().join("\n");
    let mut words: Vec<String> = Vec::new();
    let mut before = ' ';
    for character in code.chars() {
        let in_name = |one: char| one.is_alphanumeric() || one == '_';
        match words.last_mut() {
            Some(word) if in_name(before) && in_name(character) => word.push(character),
            Some(word) if word == ":" && character == ':' => word.push(':'),
            _ if character.is_whitespace() => {}
            _ => words.push(character.into()),
        }
        before = character;
    }
    words
}

/// Every path, where `a::{b, c::d}` is `a::b` and `a::c::d`; and the name of every module that is declared.
fn paths(words: &[String]) -> Vec<Vec<String>> {
    let mut all = Vec::new();
    let mut at = 0;
    while at < words.len() {
        let next = |steps: usize| words.get(at + steps).map_or("", String::as_str);
        if next(1) == "::" {
            at = tree(words, at, &[], &mut all);
            continue;
        }
        if words[at] == "mod" && next(2) == ";" {
            all.push(vec![next(1).into()]);
        }
        at += 1;
    }
    all
}

/// Takes the path at this place, with what is in front of it; where the next begins.
fn tree(words: &[String], mut at: usize, front: &[String], all: &mut Vec<Vec<String>>) -> usize {
    let mut path = front.to_vec();
    while at < words.len() {
        if words[at] == "{" {
            at += 1;
            while words[at] != "}" {
                at = tree(words, at, &path, all);
                at += usize::from(words[at] == ",");
            }
            return at + 1;
        }
        path.push(words[at].clone());
        at += 1;
        if words.get(at).is_none_or(|next| next != "::") {
            break;
        }
        at += 1;
    }
    all.push(path);
    at
}

/// The file that a path of `file` goes to.
fn resolved(file: &Module, path: &[String], files: &BTreeMap<Module, String>) -> Option<Module> {
    let child = [&file[..], &path[..1]].concat();
    let whole = match path[0].as_str() {
        "crate" => path[1..].to_vec(),
        "super" => [&file[..file.len() - 1], &path[1..]].concat(),
        _ if files.contains_key(&child) => [&file[..], path].concat(),
        _ => return None,
    };
    let longest = (0..=whole.len())
        .rev()
        .find(|size| files.contains_key(&whole[..*size]));
    let longest = longest.expect("main.rs is there");
    if longest == 0 {
        let original = ORIGINALS.contains(&whole[0].as_str());
        assert!(
            original,
            "{file:?} names {whole:?}, which is only in main.rs"
        );
        return None;
    }
    Some(whole[..longest].to_vec())
}

/// A circle, if there is one: its files in order, the first again at its end.
fn circle(graph: &Graph) -> Option<String> {
    let mut done = BTreeSet::new();
    graph
        .keys()
        .find_map(|file| circle_from(graph, file, &mut Vec::new(), &mut done))
}

fn circle_from<'a>(
    graph: &'a Graph,
    file: &'a Module,
    way: &mut Vec<&'a Module>,
    done: &mut BTreeSet<&'a Module>,
) -> Option<String> {
    if let Some(start) = way.iter().position(|one| *one == file) {
        let circle = way[start..].iter().chain([&file]);
        let names: Vec<String> = circle.map(|module| module.join("::")).collect();
        return Some(names.join(" -> "));
    }
    if done.contains(file) {
        return None;
    }
    way.push(file);
    let named = graph.get(file).into_iter().flatten();
    let found = named
        .into_iter()
        .find_map(|next| circle_from(graph, next, way, done));
    way.pop();
    done.insert(file);
    found
}
