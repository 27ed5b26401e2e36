//! The table of line starts in the code holds the numbers that the program `line_starts` prints, in the same order, and these are 341 times the line. The
//! toolchain's gate runs the program and compares what it prints with the stored output; here that is compared with the table.

use std::fs;
use std::path::Path;

/// How many lines a frame has, and how many dots a line has.
const LINES: usize = 262;
const DOTS: usize = 341;

/// A file of the repository.
fn read(name: &str) -> String {
    let path = Path::new(env!("CARGO_MANIFEST_DIR")).join("..").join(name);
    fs::read_to_string(path).unwrap_or_else(|error| panic!("{name}: {error}"))
}

/// A decimal number without leading zeros.
fn number(word: &str) -> Result<usize, String> {
    let parsed = word.parse().ok().filter(|number: &usize| number.to_string() == word);
    parsed.ok_or_else(|| format!("{word:?} is no number"))
}

/// The numbers of the constant table in a source, comments left out, or what is wrong with its form.
fn table(source: &str) -> Result<Vec<usize>, String> {
    let code: String =
        source.lines().map(|line| line.split("//").next().unwrap_or_default()).collect::<Vec<_>>().join("\n");
    let begins = format!("const LINE_STARTS: [u32; {LINES}] = [");
    let parts: Vec<&str> = code.split(&begins).collect();
    let &[_, behind] = parts.as_slice() else {
        return Err(format!("there are {} tables", parts.len() - 1));
    };
    let (list, _) = behind.split_once("];").ok_or("the table has no end")?;
    let list = list.trim();
    list.strip_suffix(',').unwrap_or(list).split(',').map(|word| number(word.trim())).collect()
}

/// The numbers that a program printed, one on each line.
fn printed(output: &str) -> Result<Vec<usize>, String> {
    let lines = output.strip_suffix('\n').ok_or("the last line has no end")?;
    lines.split('\n').map(number).collect()
}

/// Whether the table of a source and what was printed are the starts of all lines.
fn held(source: &str, output: &str) -> Result<(), String> {
    let (table, printed) = (table(source)?, printed(output)?);
    let starts: Vec<usize> = (0..LINES).map(|line| DOTS * line).collect();
    for (name, numbers) in [("the table", table), ("what was printed", printed)] {
        if numbers.len() != LINES {
            return Err(format!("{name} has {} numbers", numbers.len()));
        }
        if let Some(line) = (0..LINES).find(|&line| numbers[line] != starts[line]) {
            return Err(format!("{name} has {} for line {line}", numbers[line]));
        }
    }
    Ok(())
}

#[test]
fn the_table_and_the_stored_output_are_the_starts_of_the_lines() {
    assert_eq!(held(&read("crates/frame_clock/src/lib.rt"), &read("crates/line_starts/stdout")), Ok(()));
}

/// A source with a table of words, and an output of words.
fn written(in_table: &[String], in_output: &[String]) -> (String, String) {
    let table = in_table.chunks(10).map(|words| format!("    {},\n", words.join(", "))).collect::<String>();
    let source = format!(
        "// The starts.\npub const LINE_STARTS: [u32; 262] = [\n{table}];\n\nfn f() -> u32 {{\n    0\n}}\n"
    );
    (source, in_output.iter().map(|word| format!("{word}\n")).collect())
}

#[test]
fn a_number_that_is_wrong_or_missing_or_one_too_many_is_found() {
    let right: Vec<String> = (0..LINES).map(|line| (DOTS * line).to_string()).collect();
    assert_eq!(right.last().map(String::as_str), Some("89001"));
    let held = |in_table: &[String], in_output: &[String]| {
        let (source, output) = written(in_table, in_output);
        held(&source, &output)
    };
    assert_eq!(held(&right, &right), Ok(()));
    for line in 0..LINES {
        let mut wrongs = vec![right.clone(); 4];
        wrongs[0][line] = (DOTS * line + 1).to_string();
        wrongs[1].remove(line);
        wrongs[2].insert(line, right[line].clone());
        wrongs[3].swap(line, (line + 1) % LINES);
        for wrong in wrongs {
            assert!(held(&wrong, &right).is_err(), "line {line} in the table");
            assert!(held(&right, &wrong).is_err(), "line {line} of the output");
            assert!(held(&wrong, &wrong).is_err(), "line {line} in both");
        }
        for word in ["", "-1", "+341", "0341", "0x155", "341u32", "34 1"] {
            let mut wrong = right.clone();
            wrong[line] = word.to_string();
            assert!(held(&wrong, &right).is_err() && held(&right, &wrong).is_err(), "{word:?}");
        }
    }
    assert_eq!(held(&right[..261], &right), Err("the table has 261 numbers".to_string()));
    let more = [right.as_slice(), &["89342".to_string()]].concat();
    assert_eq!(held(&right, &more), Err("what was printed has 263 numbers".to_string()));
}

#[test]
fn a_table_of_another_form_is_found() {
    let right: Vec<String> = (0..LINES).map(|line| (DOTS * line).to_string()).collect();
    let (source, output) = written(&right, &right);
    let one_line = source.replace("\n    ", "").replace(",\n]", "]");
    for good in [&source, &one_line] {
        assert_eq!(held(good, &output), Ok(()));
    }
    for (wrong, message) in [
        (format!("{source}{source}"), "there are 2 tables"),
        (source.replace("LINE_STARTS", "STARTS"), "there are 0 tables"),
        (source.replace("[u32; 262]", "[u32; 261]"), "there are 0 tables"),
        (source.replace("pub const", "// pub const"), "there are 0 tables"),
        (source.replace("];", ""), "the table has no end"),
    ] {
        assert_eq!(held(&wrong, &output), Err(message.to_string()));
    }
    // a number that is commented out is missing, and a second comma stands behind none
    assert!(held(&source.replace("    0, 341,", "    // 0,\n    341,"), &output).is_err());
    assert!(held(&source.replace(",\n]", ",,\n]"), &output).is_err());
    for wrong in [output.trim_end().to_string(), format!("{output}\n"), format!(" {output}"), String::new()] {
        assert!(held(&source, &wrong).is_err());
    }
}
