//! The build script: what it refuses and in which words, where it looks for ready archives, and that it tells how far proving is. It is compiled here by
//! itself and run as cargo runs it; a shell stands for cargo, and a script of a few lines for `archives`.

use std::fs;
use std::path::{Path, PathBuf};
use std::process::Command;
use std::sync::LazyLock;

use crate::Outside;

/// The build script as a program.
static BUILD_SCRIPT: LazyLock<PathBuf> = LazyLock::new(|| {
    let program = Path::new(env!("CARGO_TARGET_TMPDIR")).join("build_script");
    let source = Path::new(env!("CARGO_MANIFEST_DIR")).join("build.rs");
    let mut command = Command::new(option_env!("RUSTC").unwrap_or("rustc"));
    let status =
        command.args(["--edition", "2024", "-D", "warnings", "-o"]).arg(&program).arg(source).status();
    assert!(status.expect("the Rust compiler").success(), "build.rs was not compiled");
    program
});

/// A folder with `repository/host`, where the script runs, `caller`, where cargo is called, and `out`.
struct Stage {
    folder: Outside,
    variables: Vec<(&'static str, String)>,
}

/// What the script says to cargo, and what is seen meanwhile where cargo's messages go.
#[derive(Debug)]
struct Said {
    cargo: String,
    seen: String,
}

impl Said {
    /// The lines that let the build fail.
    fn errors(&self) -> Vec<&str> {
        self.cargo.lines().filter_map(|line| line.strip_prefix("cargo::error=")).collect()
    }
}

impl Stage {
    /// A stage for x86-64 Linux and all features.
    fn new(name: &str) -> Self {
        let folder = Outside::new(&format!("build_{name}"));
        for part in ["repository/host", "caller", "out"] {
            fs::create_dir_all(folder.join(part)).unwrap();
        }
        let mut variables = vec![("OUT_DIR", folder.join("out").display().to_string())];
        variables.extend(
            [
                ("TARGET", "x86_64-unknown-linux-gnu"),
                ("CARGO_CFG_TARGET_ARCH", "x86_64"),
                ("CARGO_CFG_TARGET_OS", "linux"),
                ("CARGO_CFG_TARGET_POINTER_WIDTH", "64"),
                ("CARGO_FEATURE_LEVEL_ONE", "1"),
                ("CARGO_FEATURE_LEVEL_TWO", "1"),
                ("CARGO_FEATURE_LEVEL_THREE", "1"),
                ("CARGO_FEATURE_SMALL_ARENAS", "1"),
            ]
            .map(|(name, value)| (name, value.to_string())),
        );
        Self { folder, variables }
    }

    /// The stage with a variable set, or without it where the value is empty.
    fn with(mut self, name: &'static str, value: &str) -> Self {
        self.variables.retain(|(other, _)| *other != name);
        if !value.is_empty() {
            self.variables.push((name, value.to_string()));
        }
        self
    }

    /// Writes a file of the stage.
    fn write(&self, name: &str, text: &str) {
        let path = self.folder.join(name);
        fs::create_dir_all(path.parent().unwrap()).unwrap();
        fs::write(path, text).unwrap();
    }

    /// Writes a folder of ready archives, each with its own name as its text.
    fn ready(&self, folder: &str, names: &[&str]) {
        fs::create_dir_all(self.folder.join(folder)).unwrap();
        for name in names {
            self.write(&format!("{folder}/lib{name}.a"), name);
        }
    }

    /// Runs the script: its parent, a shell, stands in the folder `caller`, the script itself in `repository/host`.
    fn run(&self) -> Said {
        self.run_with_messages_to("")
    }

    /// The same, where cargo's messages go to a file of the stage, if one is named.
    fn run_with_messages_to(&self, file: &str) -> Said {
        let mut command = Command::new("bash");
        let to_file = if file.is_empty() { String::new() } else { format!("exec 2> ../{file}; ") };
        let script = format!("{to_file}env -C ../repository/host \"$0\" 2> /dev/null; exit $?");
        command.arg("-c").arg(script).arg(&*BUILD_SCRIPT);
        command.current_dir(self.folder.join("caller")).env_remove("CHAIN_ARENA_ARCHIVES");
        for (name, value) in &self.variables {
            command.env(name, value);
        }
        let output = command.output().unwrap();
        assert!(output.status.success(), "the script ended with {}", output.status);
        let text = |bytes| String::from_utf8(bytes).unwrap();
        Said { cargo: text(output.stdout), seen: text(output.stderr) }
    }

    /// What stands in the folder that is linked from.
    fn linked(&self) -> Vec<String> {
        let names = fs::read_dir(self.folder.join("out")).unwrap();
        let mut names: Vec<String> =
            names.map(|entry| entry.unwrap().file_name().into_string().unwrap()).collect();
        names.sort();
        names
    }
}

const ALL: [&str; 4] = ["level_one", "level_two", "level_three", "small_arenas"];
const FILES: [&str; 4] = ["liblevel_one.a", "liblevel_three.a", "liblevel_two.a", "libsmall_arenas.a"];

#[test]
fn another_target_is_refused_with_a_sentence() {
    for (target, arch, os, width) in [
        ("aarch64-unknown-linux-gnu", "aarch64", "linux", "64"),
        ("x86_64-pc-windows-msvc", "x86_64", "windows", "64"),
        ("x86_64-unknown-linux-gnux32", "x86_64", "linux", "32"),
    ] {
        let stage = Stage::new("target").with("TARGET", target).with("CARGO_CFG_TARGET_ARCH", arch);
        let stage = stage.with("CARGO_CFG_TARGET_OS", os).with("CARGO_CFG_TARGET_POINTER_WIDTH", width);
        let sentence =
            "chain_arena is proved code that was compiled for x86-64 Linux, and cannot be linked for";
        assert_eq!(stage.run().errors(), [format!("{sentence} {target}")]);
        let none = ["CARGO_FEATURE_LEVEL_ONE", "CARGO_FEATURE_LEVEL_TWO", "CARGO_FEATURE_LEVEL_THREE"];
        let stage = none.into_iter().fold(stage, |stage, feature| stage.with(feature, ""));
        assert_eq!(stage.run().errors(), [format!("{sentence} {target}")], "the small arenas are left");
        let stage = stage.with("CARGO_FEATURE_SMALL_ARENAS", "");
        assert!(stage.run().errors().is_empty(), "nothing is linked without a feature");
    }
}

#[test]
fn a_relative_folder_is_meant_from_where_cargo_was_called() {
    let stage = Stage::new("relative").with("CHAIN_ARENA_ARCHIVES", "ready");
    stage.ready("caller/ready", &ALL);
    let said = stage.run();
    assert!(said.errors().is_empty());
    assert_eq!(stage.linked(), FILES);
    for variable in ["CHAIN_ARENA_ARCHIVES", "PWD"] {
        assert!(said.cargo.contains(&format!("cargo::rerun-if-env-changed={variable}\n")), "{variable}");
    }
    let stage = Stage::new("absolute");
    stage.ready("elsewhere", &ALL);
    let folder = stage.folder.join("elsewhere").display().to_string();
    let stage = stage.with("CHAIN_ARENA_ARCHIVES", &folder);
    let said = stage.run();
    assert_eq!(stage.linked(), FILES);
    for name in ALL {
        assert!(said.cargo.contains(&format!("cargo::rustc-link-lib=static={name}\n")));
        assert!(said.cargo.contains(&format!("cargo::metadata={name}=linked\n")));
        assert!(said.cargo.contains(&format!("cargo::rerun-if-changed={folder}/lib{name}.a\n")));
    }
    assert!(said.cargo.contains("cargo::rerun-if-env-changed=CHAIN_ARENA_ARCHIVES\n"));
    assert!(!said.cargo.contains("PWD"), "a folder from the root on is the same from everywhere");
}

#[test]
fn ready_archives_are_copied_again_and_those_of_other_features_go() {
    let stage = Stage::new("again").with("CHAIN_ARENA_ARCHIVES", "ready");
    stage.ready("caller/ready", &ALL);
    for archive in FILES.map(|file| stage.folder.join("caller/ready").join(file)) {
        let mut permissions = fs::metadata(&archive).unwrap().permissions();
        permissions.set_readonly(true);
        fs::set_permissions(&archive, permissions).unwrap();
    }
    for _ in 0..2 {
        assert!(stage.run().errors().is_empty());
        assert_eq!(stage.linked(), FILES);
    }
    let stage = stage.with("CARGO_FEATURE_SMALL_ARENAS", "");
    assert!(stage.run().errors().is_empty());
    assert_eq!(stage.linked(), FILES[..3]);
    let stage = stage.with("CARGO_FEATURE_LEVEL_THREE", "");
    assert!(stage.run().errors().is_empty());
    assert_eq!(stage.linked(), ["liblevel_one.a", "liblevel_two.a"]);
    let own = stage.folder.join("out").display().to_string();
    let stage = stage.with("CHAIN_ARENA_ARCHIVES", &own);
    assert!(stage.run().errors().is_empty());
    for level in ["level_one", "level_two"] {
        assert_eq!(fs::read_to_string(stage.folder.join(format!("out/lib{level}.a"))).unwrap(), level);
    }
}

#[test]
fn what_a_folder_lacks_is_said() {
    let stage = Stage::new("lacks").with("CHAIN_ARENA_ARCHIVES", "ready");
    stage.ready("caller/ready", &["level_one"]);
    let folder = stage.folder.join("caller/ready").display().to_string();
    assert_eq!(
        stage.run().errors(),
        [
            format!(
                "the folder {folder}, which CHAIN_ARENA_ARCHIVES names, lacks liblevel_two.a, liblevel_three.a and libsmall_arenas.a; it has liblevel_one.a"
            ),
            "`bash archives OUT` writes all of them into a folder OUT; without the cargo feature level-two, level-three and small-arenas the build does not ask for them".to_string(),
        ]
    );
    let stage = stage.with("CARGO_FEATURE_LEVEL_TWO", "").with("CARGO_FEATURE_LEVEL_THREE", "");
    assert!(stage.run().errors()[0].ends_with("lacks libsmall_arenas.a; it has liblevel_one.a"));
    let stage = stage.with("CARGO_FEATURE_SMALL_ARENAS", "");
    assert!(stage.run().errors().is_empty());
    assert_eq!(stage.linked(), ["liblevel_one.a"]);
    let stage = stage.with("CHAIN_ARENA_ARCHIVES", "nowhere");
    assert!(stage.run().errors()[0].ends_with("/caller/nowhere, and there is no such folder"));
    fs::create_dir(stage.folder.join("caller/nowhere")).unwrap();
    assert!(stage.run().errors()[0].ends_with(
        "/caller/nowhere, which CHAIN_ARENA_ARCHIVES names, lacks liblevel_one.a; it has no archive"
    ));
}

#[test]
fn a_package_without_its_repository_asks_for_ready_archives() {
    let stage = Stage::new("alone");
    let sentence = "this package stands alone, so its archives cannot be proved here: CHAIN_ARENA_ARCHIVES must name a folder with ready ones";
    assert_eq!(stage.run().errors(), [sentence]);
}

#[test]
fn progress_is_told_at_once_and_archives_are_named() {
    let stage = Stage::new("progress").with("CARGO_FEATURE_LEVEL_TWO", "");
    stage.write(
        "repository/archives",
        "echo 'archives: first is proved, 1 of 2' >&2\necho noise >&2\necho \"archives: $2 $3 $4 in $1\" >&2\n",
    );
    for file in ["one/src/lib.rt", "one/out/libone.a", "two/src/lib.rt", "two/proofs/Lib.antt"] {
        stage.write(&format!("repository/crates/{file}"), "");
    }
    let said = stage.run();
    let out = stage.folder.join("out").display().to_string();
    assert_eq!(
        said.seen,
        format!(
            "archives: first is proved, 1 of 2 (0 s)\narchives: level_one level_three small_arenas in {out} (0 s)\n"
        )
    );
    assert!(said.errors().is_empty() && !said.cargo.contains("cargo::warning"));
    assert!(!said.cargo.contains("level_two"));
    let read = said.cargo.lines().filter_map(|line| line.strip_prefix("cargo::rerun-if-changed=../"));
    let listed = ["archives", "crates.txt", "crates/one/src", "crates/two/proofs", "crates/two/src"];
    assert_eq!(read.collect::<Vec<_>>(), listed, "what proving writes beside the crates is no change");
    let stage = stage.with("CHAIN_ARENA_ARCHIVES", " ");
    assert!(stage.run().errors()[0].ends_with("there is no such folder"));
    let stage = Stage {
        variables: [stage.variables, vec![("CHAIN_ARENA_ARCHIVES", String::new())]].concat(),
        ..stage
    };
    assert_eq!(stage.run().seen, said.seen, "an empty variable names no folder");
}

#[test]
fn where_nobody_is_told_meanwhile_a_warning_tells_afterwards() {
    let stage = Stage::new("untold");
    stage.write("repository/archives", "echo 'archives: first is proved, 1 of 2' >&2\n");
    let said = stage.run_with_messages_to("log");
    assert!(said.cargo.contains("cargo::warning=the archives were proved and compiled in 0 s\n"));
    assert_eq!(fs::read_to_string(stage.folder.join("log")).unwrap(), "");
    stage.write("repository/archives", "echo 'bash: warning: setlocale' >&2\n");
    assert!(!stage.run_with_messages_to("log").cargo.contains("cargo::warning"));
}

#[test]
fn what_archives_says_when_it_fails_is_said() {
    let stage = Stage::new("fails");
    stage.write("repository/archives", "echo 'archives: chain_edits is not proved' >&2\nexit 1\n");
    let failed = "`bash archives` failed. A folder with ready archives can be named in CHAIN_ARENA_ARCHIVES.";
    assert_eq!(stage.run().errors(), ["archives: chain_edits is not proved", failed]);
}

#[test]
fn what_is_up_to_date_is_linked_without_a_word() {
    let stage = Stage::new("quiet");
    stage.write("repository/archives", "true\n");
    let said = stage.run();
    assert_eq!(said.seen, "");
    assert!(said.errors().is_empty() && !said.cargo.contains("cargo::warning"));
}
