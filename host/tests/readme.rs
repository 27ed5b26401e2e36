//! The links of all documents lead to files that are there, and to headings in them; the README names every call, and PROMISES every must-fail edit.

use std::collections::BTreeSet;
use std::fs;
use std::path::{Path, PathBuf};

use crate::sold::ARCHIVES;

/// Every document.
fn documents() -> Vec<PathBuf> {
    let root = fs::canonicalize(Path::new(env!("CARGO_MANIFEST_DIR")).join("..")).unwrap();
    let docs = fs::read_dir(root.join("docs")).unwrap().map(|entry| entry.unwrap().path());
    docs.chain([root.join("README.md"), root.join("oracle/GLUE.md")]).collect()
}

/// The relative links of a Markdown text, those in code left out.
fn links(text: &str) -> Vec<String> {
    let prose: String = text.split('`').step_by(2).collect();
    prose.split("](").skip(1).filter_map(|rest| rest.split(')').next()).map(str::to_string).collect()
}

/// The names by which a link leads to the headings of a Markdown text.
fn headings(text: &str) -> Vec<String> {
    let titles =
        text.lines().filter(|line| line.trim_start_matches('#').starts_with(' ') && line.starts_with('#'));
    let name = |title: &str| {
        let kept = title.chars().filter(|c| c.is_alphanumeric() || " -_".contains(*c));
        kept.collect::<String>().trim().to_lowercase().replace(' ', "-")
    };
    titles.map(name).collect()
}

#[test]
fn every_link_leads_to_a_file_and_to_a_heading_in_it() {
    let mut linked = BTreeSet::new();
    for document in documents() {
        let text = fs::read_to_string(&document).unwrap();
        for link in links(&text) {
            let (file, heading) = link.split_once('#').unwrap_or((&link, ""));
            let target = if file.is_empty() { document.clone() } else { document.with_file_name(file) };
            assert!(target.exists(), "{} links to {link}", document.display());
            let known = || headings(&fs::read_to_string(&target).unwrap());
            assert!(
                heading.is_empty() || known().iter().any(|name| name == heading),
                "{} links to {link}",
                document.display()
            );
            linked.insert(fs::canonicalize(target).unwrap());
        }
    }
    for document in documents().iter().filter(|document| !document.ends_with("README.md")) {
        assert!(linked.contains(document), "nothing links to {}", document.display());
    }
}

#[test]
fn every_call_is_in_the_table() {
    let root = Path::new(env!("CARGO_MANIFEST_DIR")).join("..");
    let text = fs::read_to_string(root.join("README.md")).unwrap();
    for archive in ARCHIVES {
        let feature = format!("| `{}` |", archive.name.replace('_', "-"));
        let row = text.lines().find(|line| line.contains(&feature)).expect("a row for each archive");
        let named: Vec<&str> =
            row.rsplit(" |").nth(1).unwrap_or_default().split('`').skip(1).step_by(2).collect();
        let exports: Vec<&str> =
            archive.exports.iter().filter_map(|name| name.strip_prefix("chain_arena_")).collect();
        let (named, exports): (BTreeSet<_>, BTreeSet<_>) =
            (named.into_iter().collect(), exports.into_iter().collect());
        assert_eq!(named, exports, "{}", archive.name);
    }
}

/// Every must-fail edit: its crate, the function that it is about, and what is wrong.
fn edits() -> Vec<(String, String, String)> {
    let mut found = vec![];
    for folder in fs::read_dir(Path::new(env!("CARGO_MANIFEST_DIR")).join("../crates")).unwrap() {
        let folder = folder.unwrap().path();
        let Ok(edits) = fs::read_dir(folder.join("must-fail")) else { continue };
        let owner = folder.file_name().unwrap().to_str().unwrap();
        for edit in edits.map(|entry| entry.unwrap().path()) {
            let label = edit.file_stem().unwrap().to_str().unwrap();
            let (function, what) = label.split_once("__").expect("FUNCTION__what_is_wrong.edit");
            found.push((owner.to_string(), function.to_string(), what.replace('_', " ")));
        }
    }
    found
}

#[test]
fn every_export_has_edits_in_the_crate_that_exports_it_and_in_two_of_those_below() {
    for (archive, export) in
        ARCHIVES.iter().flat_map(|archive| archive.exports.iter().map(move |export| (archive, export)))
    {
        let owners: Vec<String> = edits()
            .into_iter()
            .filter(|(_, function, _)| function == export)
            .map(|(owner, ..)| owner)
            .collect();
        let thin = crate::exports_of(archive.name);
        assert!(owners.contains(&thin), "no edit of {export} is in the export itself");
        let below: Vec<&String> = owners.iter().filter(|owner| **owner != thin).collect();
        assert!(below.len() >= 2, "{export} has {} edits below its export", below.len());
        assert!(
            below
                .iter()
                .any(|owner| *owner == archive.name || owner.starts_with(&format!("{}_", archive.name))),
            "no edit of {export} is in the function that it calls"
        );
    }
}

#[test]
fn every_edit_is_named_beside_its_function() {
    let root = Path::new(env!("CARGO_MANIFEST_DIR")).join("..");
    let text = fs::read_to_string(root.join("docs/PROMISES.md")).unwrap();
    for (owner, function, what) in edits() {
        let (function, what) = (format!("| `{function}` |"), format!(" {owner}: {what}"));
        let named = |row: &str| {
            row.rsplit(" |").nth(1).unwrap_or_default().split(',').any(|edit| edit.ends_with(&what))
        };
        assert!(
            text.lines().filter(|line| line.contains(&function)).any(named),
            "PROMISES does not name the edit{what} beside {function}"
        );
    }
    let mut listed = 0;
    let mut inside = false;
    for line in text.lines() {
        inside = line.starts_with('|') && (inside || line.contains("| edits (crate: what is wrong) |"));
        if inside && !line.contains("(crate: what is wrong)") {
            listed += line.rsplit(" |").nth(1).unwrap_or_default().matches(": ").count();
        }
    }
    assert_eq!(listed, edits().len(), "PROMISES names edits that are not there");
}
