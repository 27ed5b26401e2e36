//! The script `archives`: which archives it makes again, and which it leaves. A stand-in for the toolchain writes down what it is asked for.

use std::fs;
use std::io::Read;
use std::os::unix::fs::PermissionsExt;
use std::path::Path;
use std::process::{Command, Output, Stdio};

use crate::sold::ARCHIVES;
use crate::{Outside, exports_of};

/// A stand-in for `rt`: it proves the crates of a line of crates.txt, one of them with no word on its proof, as of a library, and compiles an archive that is the
/// texts of these crates.
const RT: &str = r#"#!/usr/bin/env bash
crate=$(basename "$PWD")
below=$(sed -n "s/^$crate staticlib://p" ../../crates.txt 2> /dev/null)
case "$1 ${2:-}" in
  "version ") echo stand-in ;;
  "all check")
    for one in $below $crate; do
      echo "check $one" >> "$ASKED"
      echo "== $one"
      if [ "$one" = below ]; then echo "rt: below: begins with what a check kept"; else echo "fn $one::first: proved"; fi
      if grep -q wrong "../$one/src/lib.rt"; then
        printf '== summary\n%s: failed (1)\n' "$one"
        exit 1
      fi
      [ "$one" = below ] || echo "logic=proved functions=1"
    done
    echo "== summary" ;;
  "lib ")
    echo "lib $crate" >> "$ASKED"
    ! grep -q uncompiled src/lib.rt || exit 1
    ! grep -q restless src/lib.rt || echo more >> src/lib.rt
    mkdir -p out && for one in $below $crate; do cat "../$one/src/lib.rt"; done > "out/lib$crate.a" ;;
  *) exit 2 ;;
esac
"#;

/// A small repository with the script, and the stand-in.
struct Stage {
    folder: Outside,
}

impl Stage {
    /// The crates of exports of all archives over what they call, two levels over a crate `below`. Other crates have names that begin alike.
    fn new(name: &str) -> Self {
        let stage = Self { folder: Outside::new(&format!("archives_{name}")) };
        let script = fs::read_to_string(Path::new(env!("CARGO_MANIFEST_DIR")).join("../archives")).unwrap();
        stage.write("repository/archives", &script);
        stage.write("repository/crates.txt", &CRATES.map(|(one, on)| format!("{one}:{on}\n")).concat());
        for name in CRATES.map(|(one, _)| one.trim_end_matches(" staticlib")) {
            stage.write(&format!("repository/crates/{name}/src/lib.rt"), &format!("{name}\n"));
        }
        stage.write("tools/rt", RT);
        fs::set_permissions(stage.folder.join("tools/rt"), fs::Permissions::from_mode(0o755)).unwrap();
        stage
    }

    /// Writes a file of the stage.
    fn write(&self, name: &str, text: &str) {
        let path = self.folder.join(name);
        fs::create_dir_all(path.parent().unwrap()).unwrap();
        fs::write(path, text).unwrap();
    }

    /// Runs the script from another folder.
    fn run(&self, arguments: &[&str]) -> Output {
        let path = format!("{}:{}", self.folder.join("tools").display(), std::env::var("PATH").unwrap());
        let mut command = Command::new("bash");
        command.arg("repository/archives").args(arguments).current_dir(&*self.folder);
        command.env("PATH", path).env("ASKED", self.folder.join("asked")).output().unwrap()
    }

    /// Runs the script, which must succeed, and answers which archives were compiled for it.
    fn compiled(&self, arguments: &[&str]) -> Vec<String> {
        let asked = self.folder.join("asked");
        let _ = fs::remove_file(&asked);
        let output = self.run(arguments);
        let said = String::from_utf8_lossy(&output.stderr).into_owned();
        assert!(output.status.success(), "{said}");
        let asked = fs::read_to_string(asked).unwrap_or_default();
        assert_eq!(
            said.is_empty(),
            asked.is_empty(),
            "it tells what is proved, and nothing where nothing is: {said}"
        );
        asked
            .lines()
            .filter_map(|line| line.strip_prefix("lib ")?.strip_suffix("_c"))
            .map(str::to_string)
            .collect()
    }

    /// The texts of the crates that an archive was made from, in the order of the alphabet.
    fn texts(&self, archive: &str) -> Vec<String> {
        let text = fs::read_to_string(self.folder.join(archive)).unwrap();
        let mut texts: Vec<String> = text.lines().map(str::to_string).collect();
        texts.sort();
        texts
    }

    /// Whether a file of the stage is there.
    fn has(&self, name: &str) -> bool {
        self.folder.join(name).exists()
    }
}

/// The crates of the stage, each with what it depends on.
const CRATES: [(&str, &str); 11] = [
    ("below", ""),
    ("small_table", ""),
    ("level_one_a", " below"),
    ("level_two_a", " below"),
    ("level_two_b", " below"),
    ("small_arenas", " small_table"),
    ("level_one_c staticlib", " below level_one_a"),
    ("level_two_c staticlib", " below level_two_a level_two_b"),
    ("level_three_c staticlib", ""),
    ("small_arenas_c staticlib", " small_table small_arenas"),
    ("small_printer", " small_arenas"),
];

/// The archives, in the order in which they are made.
const EVERY: [&str; 4] = ["level_one", "level_two", "level_three", "small_arenas"];

#[test]
fn what_is_up_to_date_is_not_made_again() {
    let stage = Stage::new("again");
    assert_eq!(stage.compiled(&["out"]), EVERY);
    assert_eq!(stage.texts("out/liblevel_two.a"), ["below", "level_two_a", "level_two_b", "level_two_c"]);
    assert!(stage.compiled(&["out"]).is_empty());
    assert!(stage.compiled(&["elsewhere", "level_two"]).is_empty(), "what was made serves other folders");
    assert!(stage.has("elsewhere/liblevel_two.a") && !stage.has("elsewhere/liblevel_one.a"));
    for name in EVERY {
        fs::remove_dir_all(stage.folder.join(format!("repository/crates/{name}_c/out"))).unwrap();
    }
    assert!(stage.compiled(&["third"]).is_empty(), "the gate takes the folders out/ away");
    fs::remove_dir_all(stage.folder.join("repository/target")).unwrap();
    assert!(stage.compiled(&["out"]).is_empty(), "an archive tells itself what it was made from");
    assert_eq!(stage.compiled(&["new", "level_one"]), ["level_one"]);
}

#[test]
fn an_archive_is_made_from_the_crate_that_has_its_name_with_c_and_from_those_below() {
    let stage = Stage::new("named");
    assert_eq!(stage.compiled(&["out", "small_arenas"]), ["small_arenas"]);
    assert_eq!(stage.texts("out/libsmall_arenas.a"), ["small_arenas", "small_arenas_c", "small_table"]);
    assert!(!stage.has("out/liblevel_one.a"));
    let asked = fs::read_to_string(stage.folder.join("asked")).unwrap();
    let lines = ["check small_table", "check small_arenas", "check small_arenas_c", "lib small_arenas_c"];
    assert_eq!(asked.lines().collect::<Vec<_>>(), lines, "what is below is proved first, and no other crate");
    // the tests go by the same rule
    for archive in ARCHIVES {
        let line = format!("{} staticlib", exports_of(archive.name));
        assert!(CRATES.iter().any(|(one, _)| *one == line), "{line}");
    }
}

#[test]
fn everything_that_is_sold_is_in_the_script() {
    let script = fs::read_to_string(Path::new(env!("CARGO_MANIFEST_DIR")).join("../archives")).unwrap();
    let names: Vec<&str> = ARCHIVES.iter().map(|archive| archive.name).collect();
    assert!(script.contains(&format!("\nsold=\"{}\"\n", names.join(" "))));
    let (last, others) = names.split_last().unwrap();
    let files: Vec<String> = others.iter().map(|name| format!("lib{name}.a")).collect();
    assert!(script.contains(&format!("     {} and lib{last}.a, or the named ones", files.join(", "))));
}

#[test]
fn what_has_changed_is_made_again() {
    let stage = Stage::new("changed");
    stage.compiled(&["out"]);
    stage.write("repository/crates/level_two_b/src/lib.rt", "another\n");
    assert_eq!(stage.compiled(&["out"]), ["level_two"]);
    assert_eq!(stage.texts("out/liblevel_two.a"), ["another", "below", "level_two_a", "level_two_c"]);
    stage.write("repository/crates/small_table/src/lib.rt", "another\n");
    assert_eq!(stage.compiled(&["out"]), ["small_arenas"]);
    stage.write("repository/crates/below/src/lib.rt", "another\n");
    assert_eq!(stage.compiled(&["out"]), ["level_one", "level_two"]);
    for part in ["specs", "proofs"] {
        stage.write(&format!("repository/crates/below/{part}/Text.antt"), "another\n");
        assert_eq!(stage.compiled(&["out"]), ["level_one", "level_two"], "{part}");
    }
    stage.write("repository/crates/level_three_c/src/lib.rt", "another\n");
    assert_eq!(stage.compiled(&["out"]), ["level_three"]);
    assert_eq!(stage.texts("out/liblevel_three.a"), ["another"]);
    stage.write("out/liblevel_three.a", "damaged");
    assert!(stage.compiled(&["out"]).is_empty());
    assert_eq!(stage.texts("out/liblevel_three.a"), ["another"]);
}

#[test]
fn with_another_toolchain_all_is_made_again() {
    let stage = Stage::new("toolchain");
    stage.compiled(&["out"]);
    stage.write("tools/rt", &RT.replace("stand-in", "another"));
    assert_eq!(stage.compiled(&["out"]), EVERY);
}

#[test]
fn a_file_that_changes_while_it_is_compiled_is_noticed() {
    let stage = Stage::new("restless");
    stage.write("repository/crates/level_three_c/src/lib.rt", "restless\n");
    let output = stage.run(&["out", "level_three"]);
    assert!(!output.status.success());
    let said = String::from_utf8_lossy(&output.stderr);
    let noticed = "a file that liblevel_three.a is made from changed while it was compiled: run it again";
    assert!(said.contains(noticed), "{said}");
    assert!(!stage.has("out/liblevel_three.a"));
}

#[test]
fn two_runs_wait_for_each_other() {
    let stage = Stage::new("waits");
    stage.compiled(&["out"]);
    let lock = stage.folder.join("repository/target/archives/lock");
    let mut holder = Command::new("flock");
    holder.arg(lock).args(["bash", "-c", "echo held; sleep 1"]).stdout(Stdio::piped());
    let mut holder = holder.spawn().unwrap();
    holder.stdout.take().unwrap().read_exact(&mut [0; 5]).unwrap();
    let said = String::from_utf8(stage.run(&["out"]).stderr).unwrap();
    assert_eq!(said, "archives: waiting for another run in this folder\n");
    assert!(holder.wait().unwrap().success());
}

#[test]
fn how_far_it_is_is_told() {
    let stage = Stage::new("told");
    let said = String::from_utf8(stage.run(&["out", "level_one", "level_two"]).stderr).unwrap();
    assert_eq!(
        said.lines().collect::<Vec<_>>(),
        [
            "archives: proving 6 crates, and compiling 2 archives of them; this takes minutes",
            "archives: below is proved, 1 of 6",
            "archives: level_one_a is proved, 2 of 6",
            "archives: level_one_c is proved, 3 of 6",
            "archives: liblevel_one.a is compiled, 1 of 2",
            "archives: level_two_a is proved, 4 of 6",
            "archives: level_two_b is proved, 5 of 6",
            "archives: level_two_c is proved, 6 of 6",
            "archives: liblevel_two.a is compiled, 2 of 2",
        ]
    );
}

#[test]
fn an_archive_that_is_not_proved_is_not_left() {
    for (text, message) in [
        ("wrong", "archives: level_one_a is not proved"),
        ("uncompiled", "archives: liblevel_one.a could not be compiled"),
    ] {
        let stage = Stage::new("left");
        stage.compiled(&["out"]);
        let of = if text == "wrong" { "level_one_a" } else { "level_one_c" };
        stage.write(&format!("repository/crates/{of}/src/lib.rt"), text);
        let output = stage.run(&["out"]);
        assert!(!output.status.success());
        let said = String::from_utf8_lossy(&output.stderr);
        assert!(said.contains(message), "{said}");
        assert!(!said.contains(&format!("{of} is proved")) || text == "uncompiled", "{said}");
        assert!(!stage.has("out/liblevel_one.a") && stage.has("out/liblevel_two.a"));
        assert!(!stage.run(&["out", "level_four"]).status.success());
        assert!(!stage.run(&[]).status.success());
    }
}
