//! Every must-fail edit, also those that the gate does not try, fits the sources as they are: each text that it replaces stands there once.

use std::collections::HashMap;
use std::fs;
use std::path::{Path, PathBuf};

fn files(folder: &Path) -> Vec<PathBuf> {
    let Ok(entries) = fs::read_dir(folder) else {
        return Vec::new();
    };
    let mut paths: Vec<PathBuf> = entries.map(|entry| entry.expect("a file").path()).collect();
    paths.sort();
    paths
}

/// Why an edit cannot be made, if so: its replacements are made in order.
fn fault(edit: &str, source_of: impl Fn(&str) -> Option<String>) -> Option<String> {
    let mut sources: HashMap<String, String> = HashMap::new();
    let (mut file, mut old, mut pairs) = ("", "", 0);
    for line in edit.lines() {
        if let Some(name) = line.strip_prefix("file: ") {
            file = name;
        } else if let Some(text) = line.strip_prefix("old: ") {
            old = text;
        } else if let Some(new) = line.strip_prefix("new:") {
            if !sources.contains_key(file) {
                let Some(source) = source_of(file) else {
                    return Some(format!("there is no {file}"));
                };
                sources.insert(file.to_string(), source);
            }
            let source = sources.get_mut(file)?;
            match source.matches(old).count() {
                1 if !old.is_empty() => *source = source.replace(old, new.trim_start_matches(' ')),
                count => return Some(format!("{count} times in {file}: {old}")),
            }
            pairs += 1;
        }
    }
    (pairs == 0).then(|| "it changes nothing".to_string())
}

#[test]
fn every_edit_fits() {
    let root = Path::new(env!("CARGO_MANIFEST_DIR")).join("..");
    let mut count = 0;
    for crate_folder in files(&root.join("crates")) {
        let name = crate_folder.file_name().expect("a name");
        let beyond = root.join("must-fail").join(name);
        for edit in [files(&crate_folder.join("must-fail")), files(&beyond)].concat() {
            let text = fs::read_to_string(&edit).expect("an edit");
            let fault = fault(&text, |file| {
                fs::read_to_string(crate_folder.join(file)).ok()
            });
            assert_eq!(fault, None, "{}", edit.display());
            count += 1;
        }
    }
    let beyond: usize = files(&root.join("must-fail"))
        .iter()
        .map(|folder| files(folder).len())
        .sum();
    assert!(count > beyond && beyond > 0, "{count}, {beyond}");
}

#[test]
fn an_edit_that_does_not_fit() {
    let fault = |edit: &str| fault(edit, |file| (file == "a").then(|| "x y x".to_string()));
    assert_eq!(fault("file: a\nold: y\nnew: z"), None);
    assert_eq!(fault("file: a\nold: x y\nnew: x\nold: x x\nnew:"), None);
    assert!(fault("file: a\nold: x\nnew: z").is_some());
    assert!(fault("file: a\nold: z\nnew: x").is_some());
    assert!(fault("file: b\nold: y\nnew: z").is_some());
    assert!(fault("file: a\nold: y").is_some());
}
