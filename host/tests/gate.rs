//! The gate's script says 'N passed, 0 failed' last, and only if every step passed. It is tried with stand-ins for the tools that it calls.

use std::fs;
use std::os::unix::fs::{PermissionsExt, symlink};
use std::path::Path;
use std::process::Command;

use crate::Outside;

/// What the toolchain's own gate says last.
const VERDICT: &str = "3 passed, 0 failed";

/// What it says before that, if all is well.
const WELL: &str = "rt: ok; handles allowed: none; must-fail edits: 2 refused; every proof and must-fail edit was done in this run";

/// The tools that the gate asks for beside `rt` and `cargo`.
const OTHERS: [&str; 2] = ["nm", "cc"];

/// A folder with the gate's script, a stand-in for `archives`, and one for each tool; `fails` names the step that fails, and `ci` is what the toolchain's own
/// gate says at the end.
struct Stage {
    folder: Outside,
}

impl Stage {
    fn new(name: &str, fails: &str, ci: &str) -> Stage {
        let folder = Outside::new(&format!("gate_{name}"));
        fs::create_dir_all(folder.join("repository/.ci")).unwrap();
        fs::create_dir_all(folder.join("repository/build")).unwrap();
        fs::create_dir_all(folder.join("tools")).unwrap();
        fs::copy(Path::new(env!("CARGO_MANIFEST_DIR")).join("../.ci/run"), folder.join("repository/.ci/run"))
            .unwrap();
        let stage = Stage { folder };
        // a step writes its words down, and whether the folder of ready archives is still named
        let step = |words: &str| {
            format!(
                "#!/usr/bin/env bash\necho \"{words}${{CHAIN_ARENA_ARCHIVES:+ with $CHAIN_ARENA_ARCHIVES}}\" >> {}\n{}\n[[ \"{words}\" != {fails} ]]\n",
                stage.folder.join("steps").display(),
                if words.starts_with("rt") {
                    format!("[[ \"$1\" != ci ]] || printf 'all proved\\n{ci}\\n'")
                } else {
                    String::new()
                },
            )
        };
        stage.script("repository/archives", &step("archives $*"));
        stage.script("tools/rt", &step("rt $*"));
        stage.script("tools/cargo", &step("cargo $*"));
        for tool in OTHERS {
            stage.script(&format!("tools/{tool}"), "#!/usr/bin/env bash\n");
        }
        for tool in ["bash", "env", "dirname", "mktemp", "tee", "sed", "tail", "grep", "rm"] {
            let found = ["/bin", "/usr/bin"]
                .iter()
                .map(|folder| Path::new(folder).join(tool))
                .find(|path| path.exists());
            symlink(
                found.unwrap_or_else(|| panic!("{tool} is missing")),
                stage.folder.join("tools").join(tool),
            )
            .unwrap();
        }
        stage
    }

    /// Writes a script that can be run.
    fn script(&self, name: &str, text: &str) {
        let path = self.folder.join(name);
        fs::write(&path, text).unwrap();
        fs::set_permissions(&path, fs::Permissions::from_mode(0o755)).unwrap();
    }

    /// Runs the gate: whether it passed, its last line, and the steps that were tried.
    fn run(&self) -> (bool, String, Vec<String>) {
        let mut command = Command::new("bash");
        command.arg(self.folder.join("repository/.ci/run"));
        let output = command
            .env("PATH", self.folder.join("tools"))
            .env("CHAIN_ARENA_ARCHIVES", "a folder")
            .output()
            .unwrap();
        let said = String::from_utf8(output.stdout).unwrap();
        let last = said.lines().last().unwrap_or_default().to_string();
        let steps = fs::read_to_string(self.folder.join("steps")).unwrap_or_default();
        (output.status.success(), last, steps.lines().map(str::to_string).collect())
    }
}

/// What the toolchain's gate says at the end, with this as its last line, as `printf` has it.
fn well(verdict: &str) -> String {
    format!("{WELL}\\n{verdict}")
}

/// The steps in their order, each with whether it links the archives that the gate made.
fn all_steps() -> Vec<(String, bool)> {
    let alone = |feature: &str| {
        let options = format!(
            "-p chain_arena --profile quick --no-default-features --features {feature} --offline --quiet"
        );
        let tests = "test --test levels";
        [tests, "test --doc", "doc --no-deps"].map(|what| format!("cargo {what} {options}"))
    };
    let proving = ["rt ci", "archives build/archives"].map(|words| (words.to_string(), false));
    let with_all = "cargo test --workspace --offline --quiet".to_string();
    let linking = [with_all]
        .into_iter()
        .chain(["", "level-one", "level-two", "level-three", "small-arenas"].into_iter().flat_map(alone));
    let last = [
        ("cargo test -p checker --profile quick --no-default-features --offline --quiet --test program".to_string(), true),
        ("cargo test -p checker --profile quick --no-default-features --features level-two --offline --quiet --test program".to_string(), true),
        ("cargo run --offline --quiet -p oracle --bin compare".to_string(), true),
        ("cargo run --offline --quiet".to_string(), false),
    ];
    proving.into_iter().chain(linking.map(|words| (words, true))).chain(last).collect()
}

/// What the first steps, so many, write down.
fn first(stage: &Stage, count: usize) -> Vec<String> {
    let made = stage.folder.join("repository/build/archives");
    let with = |linked: bool| if linked { format!(" with {}", made.display()) } else { String::new() };
    all_steps()[..count].iter().map(|(words, linked)| format!("{words}{}", with(*linked))).collect()
}

#[test]
fn every_step_is_made_and_the_verdict_comes_last() {
    let stage = Stage::new("whole", "nothing", &well(VERDICT));
    let (passed, last, steps) = stage.run();
    assert!(passed);
    assert_eq!(last, VERDICT);
    assert_eq!(steps, first(&stage, all_steps().len()));
}

#[test]
fn a_step_that_fails_ends_the_gate_with_another_line() {
    for (k, (words, _)) in all_steps().iter().enumerate() {
        let stage = Stage::new(&format!("step_{k}"), &format!("\"{words}\""), &well(VERDICT));
        let (passed, last, steps) = stage.run();
        assert!(!passed, "{words}");
        assert!(last.starts_with(".ci/run: "), "{words}: {last}");
        assert_eq!(steps, first(&stage, k + 1), "{words}");
    }
}

#[test]
fn a_verdict_that_does_not_say_0_failed_is_not_passed_on() {
    for (k, verdict) in ["3 passed, 1 failed", "3 passed, 0 failed?", "3 passed", ""].iter().enumerate() {
        let stage = Stage::new(&format!("verdict_{k}"), "nothing", &well(verdict));
        let (passed, last, steps) = stage.run();
        assert!(!passed, "{verdict}");
        assert!(last.starts_with(".ci/run: "), "{verdict}: {last}");
        assert_eq!(steps, first(&stage, 1), "{verdict}");
    }
}

#[test]
fn a_bad_must_fail_edit_fails_the_gate() {
    let edits = |said: &str| WELL.replace("2 refused", said);
    for (k, (said, is_well)) in [
        (edits("2 refused, 1 bad"), false),
        (edits("2 refused, 1 of them only by a limit, 1 bad"), false),
        (edits("0 refused, 12 bad"), false),
        ("all proved".to_string(), false),
        (edits("2 refused, 1 of them only by a limit"), true),
        (edits("2 refused, 0 bad"), true),
    ]
    .into_iter()
    .enumerate()
    {
        let stage = Stage::new(&format!("edits_{k}"), "nothing", &format!("{said}\\n{VERDICT}"));
        let (passed, last, steps) = stage.run();
        assert_eq!(passed, is_well, "{said}");
        assert_eq!(last == VERDICT, is_well, "{said}: {last}");
        assert_eq!(steps, first(&stage, if is_well { all_steps().len() } else { 1 }), "{said}");
    }
}

#[test]
fn without_a_tool_nothing_passes() {
    for tool in ["rt", "cargo"].iter().chain(&OTHERS) {
        let stage = Stage::new(&format!("without_{tool}"), "nothing", &well(VERDICT));
        fs::remove_file(stage.folder.join("tools").join(tool)).unwrap();
        let (passed, last, steps) = stage.run();
        assert!(!passed, "{tool}");
        assert!(last.starts_with(&format!(".ci/run: {tool} was not found")), "{tool}: {last}");
        assert!(steps.is_empty(), "{tool}");
    }
}
