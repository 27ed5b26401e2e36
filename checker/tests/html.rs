//! The page that `--html` writes: what stands in it, and what a browser makes of it. Where there is no Chromium or no Node, the
//! tests that need it say so and are skipped.
//!
//! The modules that make the page are included by their paths, since a program's modules cannot be used from here. So a page
//! can be made of any panels, and several arenas share one start of the browser.

#[allow(dead_code)]
#[path = "../src/by_slot.rs"]
mod by_slot;
#[path = "../src/html.rs"]
mod html;
#[allow(dead_code)]
#[path = "../src/panel.rs"]
mod panel;
#[allow(dead_code)]
#[path = "../src/picture.rs"]
mod picture;
#[path = "../src/wording.rs"]
mod wording;

use std::env;
use std::fs::{self, File};
use std::io::{self, Write};
use std::path::{Path, PathBuf};
use std::process::{Command, Stdio};
use std::thread;
use std::time::{Duration, Instant};

use chain_arena::{Arena, OwnedArena};

use panel::{Due, Fault, Panel};

/// As many slots as an arena can have, and so many that several such arenas stand on a page.
const MOST: u32 = Arena::CAPACITY_LIMIT as u32;
const MANY: u32 = 65_535;

/// The folder of the arenas.
fn arenas() -> PathBuf {
    Path::new(env!("CARGO_MANIFEST_DIR")).join("tests/arenas")
}

/// A file of its own for each test.
fn file(name: &str) -> PathBuf {
    Path::new(env!("CARGO_TARGET_TMPDIR")).join(name)
}

/// The page that the program writes of files in the folder of the arenas.
fn written(command: &[&str], out: &str) -> String {
    let out = file(out);
    let _ = fs::remove_file(&out);
    let mut program = Command::new(env!("CARGO_BIN_EXE_checker"));
    let ran = program.args(command).arg("--html").arg(&out).current_dir(arenas()).output().unwrap();
    assert!(ran.stderr.is_empty(), "{}", String::from_utf8_lossy(&ran.stderr));
    fs::read_to_string(out).unwrap()
}

/// A panel of an arena of which nothing is said.
fn panel(title: &str, arena: OwnedArena) -> Panel {
    Panel::new(title.to_string(), arena)
}

/// An arena without free slots whose links have the neighbours that are given by slot.
fn linked(slots: u32, neighbours: impl Fn(u32) -> (u32, u32)) -> OwnedArena {
    let (prev, next) = (1..=slots).map(neighbours).unzip();
    let payload = (1..=slots).map(|slot| slot.wrapping_mul(65_537)).collect();
    OwnedArena { prev, next, generation: vec![5; slots as usize], payload, header: vec![slots, slots, 0, 5] }
}

/// One chain through all slots.
fn one_chain(slots: u32) -> OwnedArena {
    linked(slots, |slot| (slot - 1, if slot == slots { 0 } else { slot + 1 }))
}

/// One closed chain through all slots.
fn closed_chain(slots: u32) -> OwnedArena {
    linked(slots, |slot| (if slot == 1 { slots } else { slot - 1 }, if slot == slots { 1 } else { slot + 1 }))
}

/// Chains of two, and if need be a last link alone.
fn pairs(slots: u32) -> OwnedArena {
    linked(slots, |slot| match slot % 2 {
        1 if slot < slots => (0, slot + 1),
        1 => (0, 0),
        _ => (slot - 1, 0),
    })
}

/// Links that are closed alone, each of which has a line of its own.
fn closed_alone(slots: u32) -> OwnedArena {
    linked(slots, |slot| (slot, slot))
}

/// Arenas of every large shape, with their names.
fn large() -> [(&'static str, OwnedArena); 4] {
    [
        ("one chain", one_chain(MANY)),
        ("closed", closed_chain(MANY)),
        ("pairs", pairs(MANY)),
        ("lone", linked(MANY, |_| (0, 0))),
    ]
}

/// The words of a column in the data of a page's first panel.
fn column(page: &str, name: &str) -> Vec<u32> {
    let data = page.split("id=\"data\">").nth(1).unwrap();
    let data = data.split(&format!("\"{name}\":[")).nth(1).unwrap().split(']').next().unwrap();
    let (width, text) = data.split_once(",\"").unwrap();
    let digit = |byte| match byte {
        b'A'..=b'Z' => u32::from(byte - b'A'),
        b'a'..=b'z' => u32::from(byte - b'a') + 26,
        b'0'..=b'9' => u32::from(byte - b'0') + 52,
        b'+' => 62,
        b'/' => 63,
        _ => panic!("no digit of base64: {byte}"),
    };
    let mut bytes = Vec::new();
    for four in text.trim_end_matches(['"', '=']).as_bytes().chunks(4) {
        let word = (0..4).fold(0, |word, k| word << 6 | four.get(k).map_or(0, |&byte| digit(byte)));
        bytes.extend_from_slice(&word.to_be_bytes()[1..four.len()]);
    }
    let low_first = |word: &[u8]| word.iter().rev().fold(0, |word, &byte| word << 8 | u32::from(byte));
    bytes.chunks(width.parse().unwrap()).map(low_first).collect()
}

#[test]
fn the_page_loads_nothing() {
    for page in [written(&["check", "broken.txt"], "nothing.html"), html::page(&[panel("one", one_chain(9))])]
    {
        let policy = "http-equiv=\"Content-Security-Policy\" content=\"default-src 'none'; ";
        assert_eq!(page.matches(policy).count(), 1);
        for word in ["http:", "https:", "src=", "@import", "url(", "<link", "<iframe", "import(", "fetch("] {
            assert!(!page.contains(word), "{word}");
        }
    }
}

#[test]
fn the_same_arena_gives_the_same_page() {
    let [one, two] = ["same1.html", "same2.html"].map(|out| written(&["check", "whole.txt"], out));
    assert!(one == two);
}

#[test]
fn every_word_of_every_slot_is_in_the_page() {
    let page = written(&["check", "whole.txt"], "words.html");
    let text = fs::read_to_string(arenas().join("whole.txt")).unwrap();
    let lines = text.lines().filter(|line| line.starts_with(|first: char| first.is_ascii_digit()));
    let rows: Vec<Vec<u32>> =
        lines.map(|line| line.split_whitespace().map(|word| word.parse().unwrap()).collect()).collect();
    for (k, name) in ["prev", "next", "generation", "payload"].iter().enumerate() {
        assert!(column(&page, name).into_iter().eq(rows.iter().map(|row| row[k + 1])), "{name}");
    }
    assert_eq!(column(&page, "order"), [1, 5, 3, 2, 4, 7, 9, 8, 6]);
    assert_eq!(column(&page, "lengths"), [3, 2, 1, 1, 2]);
    assert_eq!(column(&page, "kinds"), [0, 2, 2, 1, 3]);
    for fact in [
        "<dt>Stack length</dt><dd>9</dd>",
        "<dt>Link count</dt><dd>7</dd>",
        "<dt>Root</dt><dd>8</dd>",
        "<dt>Current generation</dt><dd>5</dd>",
        "<dt>Open chains</dt><dd>1</dd>",
        "<dt>Lone links</dt><dd>1</dd>",
        "<dt>Closed chains</dt><dd>2</dd>",
        "<dt>Free slots</dt><dd>2</dd>",
        "<dt>Capacity</dt><dd>10</dd>",
        "<p class=\"verdict passes\">passes the check</p>",
        "<p class=\"generations\">Other generations: <a href=\"#panel=1&amp;generation=2\">2</a> (1 link), \
         <a href=\"#panel=1&amp;generation=3\">3</a> (1 link), \
         <a href=\"#panel=1&amp;generation=4\">4</a> (1 link)</p>",
    ] {
        assert!(page.contains(fact), "{fact}");
    }
}

#[test]
fn columns_are_as_wide_as_their_largest_word() {
    for (payload, width) in
        [(0, 1), (0xff, 1), (0x100, 2), (0xffff, 2), (0x1_0000, 4), (0x1_ffff, 4), (u32::MAX, 4)]
    {
        let arena = OwnedArena { payload: vec![7, payload, 1], ..one_chain(3) };
        let page = html::page(&[panel("wide", arena)]);
        assert!(page.contains(&format!("\"payload\":[{width},")), "{payload}");
        assert_eq!(column(&page, "payload"), [7, payload, 1]);
    }
}

/// The texts of a class in each panel of a page.
#[cfg(feature = "level-three")]
fn said<'p>(page: &'p str, class: &str) -> Vec<Vec<&'p str>> {
    let start = format!("<p class=\"verdict {class}\">");
    let texts =
        |panel: &'p str| panel.split(&start).skip(1).map(|text| text.split('<').next().unwrap()).collect();
    page.split("<section ").skip(1).map(texts).collect()
}

#[cfg(feature = "level-three")]
#[test]
fn the_verdict_of_a_comparison_stands_in_both_panels() {
    let page = written(&["compare", "whole.txt", "changed.txt"], "changed.html");
    let a = [
        "does not hold the same chains as B: 2 chains are only in A",
        "the first only in A and the chain of B that begins most like it part at place 3: \
         the way back to old slot 2 in A, the end in B",
        "canonically compressed, they first differ at slot 4: prev 5 in A, 0 in B",
    ];
    let b = "does not hold the same chains as A: 2 chains are only in B";
    assert_eq!(said(&page, "told"), [a.to_vec(), vec![b]]);
    assert_eq!(page.matches("<h3>Slots without a partner: 3</h3>").count(), 2);
    assert!(page.contains("<li><b>4</b> its chain, slots 4 to 5, has no partner in B</li>"));
    let page = written(&["compare", "whole.txt", "renamed.txt"], "renamed.html");
    let same =
        |other| vec![format!("passes the check and holds the same chains as {other}, in another order")];
    assert_eq!(said(&page, "passes"), [same("B"), same("A")]);
    assert_eq!((page.matches("<h3>").count(), page.matches("class=\"verdict told\"").count()), (0, 0));
    let page = written(&["compare", "broken.txt", "whole.txt"], "refused.html");
    assert_eq!(said(&page, "passes"), [vec![], vec!["passes the check"]]);
    assert_eq!(said(&page, "refused").iter().map(Vec::len).collect::<Vec<_>>(), [1, 0]);
    assert_eq!(said(&page, "told"), [["not compared"], ["not compared"]]);
    assert!(page.contains("title-1\">A: broken.txt</h2>") && page.contains("title-2\">B: whole.txt</h2>"));
}

#[cfg(feature = "level-three")]
#[test]
fn a_page_around_a_free_slot_shows_all_of_the_compression() {
    let page = written(&["compress", "whole.txt", "--around", "6"], "around_free.html");
    assert!(page.contains("title-2\">whole.txt, canonically compressed</h2>"));
    assert_eq!((page.matches("\"around\":6").count(), page.matches("\"around\":0").count()), (1, 1));
}

#[test]
fn a_broken_arena_says_why_without_a_script() {
    for (name, verdict, faults) in [
        (
            "broken",
            "at the next of slot 1: its next is 2, but the prev of slot 2 is 4, not 1 (2 faults at 2 slots)",
            &[
                (1, "slot 1: its next is 2, but the prev of slot 2 is 4, not 1 (named by the check)"),
                (2, "slot 2: its prev is 4, but slot 4 has no next"),
            ][..],
        ),
        (
            "broken_next",
            "at the next of slot 4: its next is 2, but slot 2 has no prev",
            &[(4, "slot 4: its next is 2, but slot 2 has no prev")],
        ),
        (
            "broken_both",
            "at the prev of slot 3: its prev is 4, but slot 4 is free (2 faults at 1 slot)",
            &[
                (3, "slot 3: its prev is 4, but slot 4 is free (named by the check)"),
                (3, "slot 3: its next is 9, which is above the stack length 5"),
            ],
        ),
        (
            "broken_two",
            "at the next of slot 3: its next is 1, but slot 1 has no prev (3 faults at 2 slots)",
            &[
                (3, "slot 3: its next is 1, but slot 1 has no prev (named by the check)"),
                (5, "slot 5: its prev is 4, but slot 4 has no next"),
                (5, "slot 5: its next is 6, but slot 6 has no prev"),
            ],
        ),
    ] {
        let page = written(&["check", &format!("{name}.txt")], &format!("why.{name}.html"));
        let verdict = format!("<p class=\"verdict refused\">refused with 11 {verdict}</p>");
        assert!(page.contains(&verdict) && !page.contains("passes the check"), "{name}");
        let (_, list) = page.split_once(&format!("<h3>Faults: {}</h3>", faults.len())).unwrap();
        let listed = list.lines().filter_map(|line| line.strip_prefix("<li>")?.strip_suffix("</li>"));
        let items = faults.iter().map(|(slot, sentence)| format!("<b>{slot}</b> {sentence}"));
        assert!(listed.take(faults.len()).eq(items), "{name}");
        assert!(column(&page, "faults").into_iter().eq(faults.iter().map(|(slot, _)| *slot)), "{name}");
        let data: Vec<String> = faults.iter().map(|(_, sentence)| format!("\"{sentence}\"")).collect();
        assert!(page.contains(&format!("\"sentences\":[{}]}}", data.join(",\n"))), "{name}");
    }
}

#[test]
fn a_large_arena_makes_a_small_page_quickly() {
    let most = [("most pairs", pairs(MOST)), ("most alone", closed_alone(MOST))];
    for (name, arena) in large().into_iter().chain(most) {
        let (start, slots) = (Instant::now(), arena.capacity());
        let page = html::page(&[panel(name, arena.clone())]);
        assert!(start.elapsed() < Duration::from_secs(5), "{name}: {:?}", start.elapsed());
        // A column that needs more than 16 bits has four bytes a word.
        let bytes = if slots > 65_535 { 26 * slots } else { 1_500_000 };
        assert!(page.len() < bytes, "{name}: {} bytes", page.len());
        assert!(column(&page, "prev") == arena.prev, "{name}");
        assert!(column(&page, "payload") == arena.payload, "{name}");
        let mut order = column(&page, "order");
        order.sort_unstable();
        assert!(order.into_iter().eq(1..=slots as u32), "{name}");
    }
    let [half, whole] = [MANY / 2, MANY].map(|slots| html::page(&[panel("pairs", pairs(slots))]).len());
    assert!(whole < 2 * half + 1000, "{half} and {whole} bytes");
}

#[test]
fn what_must_be_told_of_an_arena_that_passes_is_no_refusal() {
    let told = vec!["the generation overflowed".to_string(), "and more".to_string()];
    let page = html::page(&[Panel { told, ..panel("told", one_chain(2)) }]);
    assert!(page.contains("<p class=\"verdict passes\">passes the check</p>\n"));
    assert!(page.contains(
        "<p class=\"verdict told\">the generation overflowed</p>\n<p class=\"verdict told\">and more</p>"
    ));
    assert!(!page.contains("verdict refused"));
}

/// The items of the list of what is due.
fn due_items(page: &str) -> Vec<&str> {
    let list = page.split("<details class=\"due-list\" open>").nth(1).unwrap_or_default();
    let list = list.split("</details>").next().unwrap();
    list.lines().filter_map(|line| line.strip_prefix("<li>")?.strip_suffix("</li>")).collect()
}

#[test]
fn what_is_due_stands_in_the_page_with_and_without_a_script() {
    let page = written(&["due", "frame.txt", "6", "6", "89000", "342"], "due.html");
    assert!(page.contains("</i>Due, in the order of the walk: 3</summary>"));
    let item =
        |slot: u32, words: &str| format!("<a href=\"#panel=1&amp;slot={slot}\">slot {slot}</a>: {words}");
    let items = [
        item(6, "line 1, place 0, payload 341"),
        item(3, "line 261, place 340, payload 89341"),
        item(1, "line 0, place 340, payload 340"),
    ];
    assert_eq!(due_items(&page), items);
    assert_eq!(column(&page, "due"), [6, 3, 1]);
    assert_eq!(column(&page, "dueLines"), [1, 261, 0]);
    assert_eq!(column(&page, "duePlaces"), [0, 340, 340]);
    // The page has all slots, and the link that the walk begins with is chosen when it opens.
    assert_eq!(column(&page, "order").len(), 9);
    assert!(page.contains("\"around\":6,"));
    assert!(page.contains("<p class=\"verdict told\">the chain of 6:6 has 5 links, of which 3 are due</p>"));
    for sign in [".box.due { border-color: var(--due); }", "--due-ground: #ffd9a0;", "--due-ground: #4a2c0a;"]
    {
        assert!(page.contains(sign), "{sign}");
    }
    assert!(page.contains("<li>Orange boxes with a second edge are due, where that was asked."));
}

#[test]
fn where_nothing_is_due_the_page_has_no_list_of_it() {
    for command in [
        &["check", "frame.txt"][..],
        &["due", "frame.txt", "6", "6", "341", "341"],
        &["due", "frame.txt", "3", "6", "0", "89342"],
        &["due", "frame.txt", "6", "6", "0", "89343"],
        &["due", "broken.txt", "1", "5", "0", "89342"],
    ] {
        let page = written(command, "due_none.html");
        assert!(
            !page.contains("<details class=\"due-list\"") && column(&page, "due").is_empty(),
            "{command:?}"
        );
    }
}

#[test]
fn a_long_list_of_what_is_due_is_cut() {
    let due = (1..=1_500).rev().map(|slot| Due { slot, line: 0, place: slot % 341 }).collect();
    let page = html::page(&[Panel { due, ..panel("due", one_chain(1_500)) }]);
    assert_eq!(due_items(&page).len(), 1000);
    assert!(
        page.contains("Due, in the order of the walk: 1500</summary>")
            && page.contains("<p>and 500 more</p>")
    );
    assert!(column(&page, "due").into_iter().eq((1..=1_500).rev()));
}

/// What is due is marked in its box by more than a colour, and told of the chosen slot.
#[test]
fn what_is_due_is_marked_in_a_browser() {
    let page = written(&["due", "frame.txt", "6", "6", "89000", "342"], "due_browsed.html");
    let steps = "
note(chosen());
note([...list(1).querySelectorAll('.box.due')].map((box) => `${box.dataset.slot}: ${box.querySelector('.due-number').textContent}`).join(', '));
note(card(1, 'dl').textContent.includes('1 of 3: line 1, place 0'));
note(box(1, 8).classList.contains('due')); note(box(1, 3).getAttribute('aria-label'));
panels[0].querySelector('.due-list li:nth-child(2) a').click(); go('#panel=1&slot=3'); note(chosen());
";
    let Some(document) = browsed("due", &page, "", &format!("{TOOLS}{steps}")) else { return };
    let marked = "1: due 3, 6: due 1, 3: due 2";
    assert_eq!(noted(&document), ["6", marked, "true", "false", "slot 3, payload 89341, gen 5, due 2", "3"]);
}

/// A program on the PATH: the first of its names that is there.
fn on_path(names: &[&str]) -> Option<PathBuf> {
    let path = env::var_os("PATH")?;
    let mut programs =
        env::split_paths(&path).flat_map(|folder| names.iter().map(move |name| folder.join(name)));
    programs.find(|program| program.is_file())
}

/// Chromium, if it is here: what CHROMIUM names, else the first of its names on the PATH.
fn chromium() -> Option<PathBuf> {
    let named = env::var_os("CHROMIUM").map(PathBuf::from);
    named.or_else(|| on_path(&["chromium", "chromium-browser", "google-chrome"]))
}

/// Says that a test is skipped, past the capture of the tests, so that it is seen.
fn skipped(why: &str) {
    let _ = io::stderr().write_all(format!("\nSKIPPED: {why}\n").as_bytes());
}

/// A path as part of an address.
fn address(path: &Path) -> String {
    let plain = |byte: &u8| byte.is_ascii_alphanumeric() || b"/._-".contains(byte);
    let sign = |byte: u8| if plain(&byte) { char::from(byte).to_string() } else { format!("%{byte:02X}") };
    path.to_str().unwrap().bytes().map(sign).collect()
}

/// The document that Chromium makes of a page at a fragment, after a script that is added to it; none without Chromium.
fn browsed(name: &str, page: &str, fragment: &str, script: &str) -> Option<String> {
    let Some(chromium) = chromium() else {
        skipped(&format!("Chromium is missing, so the page '{name}' was not opened in a browser"));
        return None;
    };
    let folder = file(&format!("browsed-{name}"));
    let _ = fs::remove_dir_all(&folder);
    fs::create_dir_all(&folder).unwrap();
    let [html, out, log] = ["page.html", "document.html", "log.txt"].map(|name| folder.join(name));
    let page = page.replace("</body>", &format!("<script>\n{script}</script>\n</body>"));
    fs::write(&html, page).unwrap();
    let mut browser = Command::new(&chromium)
        .args([
            "--headless=new",
            "--no-sandbox",
            "--disable-gpu",
            "--disable-dev-shm-usage",
            "--no-first-run",
        ])
        .args([
            "--enable-logging=stderr",
            "--virtual-time-budget=2000",
            "--window-size=1280,800",
            "--dump-dom",
        ])
        .arg(format!("--user-data-dir={}", folder.join("profile").display()))
        .arg(format!("file://{}{fragment}", address(&html)))
        .stdout(File::create(&out).unwrap())
        .stderr(File::create(&log).unwrap())
        .spawn()
        .unwrap_or_else(|error| panic!("{} does not start: {error}", chromium.display()));
    let start = Instant::now();
    while browser.try_wait().unwrap().is_none() {
        if start.elapsed() > Duration::from_secs(60) {
            let _ = browser.kill();
            let _ = browser.wait();
            panic!("Chromium hangs with the page '{name}'");
        }
        thread::sleep(Duration::from_millis(20));
    }
    let (document, log) = (fs::read(out).unwrap(), fs::read(log).unwrap());
    let log = String::from_utf8_lossy(&log);
    let _ = fs::remove_dir_all(folder.join("profile"));
    assert!(!log.contains("CONSOLE"), "'{name}' has errors:\n{log}");
    let document = String::from_utf8_lossy(&document).into_owned();
    assert!(document.contains("data-ready=\"yes\""), "'{name}' is not ready:\n{log}");
    Some(document)
}

/// What the added scripts use: the chosen slots of all panels, a box, a key, a search, and what was noted.
const TOOLS: &str = "\
const panels = [...document.querySelectorAll('.panel')];
const chosen = () => panels.map((panel) => panel.dataset.chosen ?? '0').join('/');
const box = (panel, slot) => document.getElementById(`panel-${panel}-slot-${slot}`);
const list = (panel) => panels[panel - 1].querySelector('.list');
const key = (node, key, shiftKey = false) => node.dispatchEvent(new KeyboardEvent('keydown', { key, shiftKey, bubbles: true, cancelable: true }));
const found = () => document.getElementById('found').textContent;
const look = (text, by) => { document.getElementById('wanted').value = text; document.getElementById('by').value = by; document.getElementById('search').requestSubmit(); };
const go = (fragment) => { location.hash = fragment; dispatchEvent(new HashChangeEvent('hashchange')); };
const card = (panel, part) => panels[panel - 1].querySelector(`.card ${part}`);
const noted = [];
const note = (what) => { noted.push(what); document.body.dataset.noted = noted.join('; '); };
";

/// What an added script noted.
fn noted(document: &str) -> Vec<&str> {
    document.split("data-noted=\"").nth(1).unwrap().split('"').next().unwrap().split("; ").collect()
}

/// Two arenas that are compared are not taken for one before and after its compression, though each tells where its links
/// came from; the slot that was asked for is chosen when the page opens.
#[test]
fn compared_arenas_are_followed_by_slot() {
    let fault = |slot| Fault { slot, sentence: format!("slot {slot} differs") };
    let compared = |title: &str, where_from: Vec<u32>| Panel {
        where_from,
        faults: vec![fault(3)],
        ..panel(title, one_chain(3))
    };
    let [mut a, b] = [compared("A", vec![3, 2, 1]), compared("B", vec![2, 1, 3])];
    a.around = Some(2);
    let page = html::page(&[a, b]);
    assert_eq!(page.matches("<h3>Slots without a partner: 1</h3>").count(), 2);
    let steps = "
note(chosen());
box(2, 3).click(); note(chosen()); note(box(1, 1).querySelector('.tie').textContent);
note(panels.map((panel) => panel.querySelector('.card .faulty').textContent).join(' / '));
";
    let Some(document) = browsed("compared", &page, "", &format!("{TOOLS}{steps}")) else { return };
    assert_eq!(noted(&document), ["2/2", "3/3", "from 3", "slot 3 differs / slot 3 differs"]);
}

/// A link is followed by clicks and keys and searched for, and its partner in the other arena is chosen with it.
#[cfg(feature = "level-three")]
#[test]
fn a_compression_is_followed_side_by_side() {
    let page = written(&["compress", "whole.txt"], "followed.html");
    let steps = "
note(chosen()); note(found());
note([...list(1).querySelectorAll('.end')].map((end) => end.textContent).join(' '));
box(1, 5).click(); note(chosen());
note([box(1, 5), box(1, 1)].map((box) => getComputedStyle(box).outlineStyle).join(' '));
note([box(1, 5), box(2, 2)].map((box) => box.querySelector('.tie').textContent).join(' '));
panels[0].querySelector('.card .next').click(); note(chosen());
key(list(2), 'ArrowLeft'); note(chosen());
key(list(1), 'Home'); note(chosen());
key(list(1), 'End'); note(chosen());
box(2, 4).click(); note(chosen());
key(list(2), 'ArrowLeft'); note(chosen());
look('500', 'any'); note(chosen()); note(found());
look('5', 'any'); note(found());
look('5', 'any'); note(chosen()); note(found());
key(document.getElementById('wanted'), 'Enter', true); note(found());
look('0xffffffff', 'payload'); note(chosen()); note(found());
look('77', 'any'); note(found());
look('10', 'slot'); note(found());
look('10', 'any'); note(found());
look('99999999999999999999', 'payload'); note(found());
look('x', 'slot'); note(found());
look('5', 'generation'); note(found());
go('#panel=1&generation=5'); note(found());
document.getElementById('search').requestSubmit(); note(found());
key(document.getElementById('wanted'), 'Enter', true); note(found());
go('#generation=6'); note(found());
go('#payload=700'); note(chosen()); note(found());
go('#panel=2&slot=99'); note(chosen()); note(found());
box(1, 8).click(); note(chosen()); note(location.hash);
key(document.body, '/'); note(document.activeElement.id);
note(panels[0].querySelector('.card dl').textContent);
box(2, 2).click(); note(panels.map((panel) => panel.querySelector('.card dl').textContent).join(' / '));
";
    let Some(document) = browsed("compression", &page, "#panel=2&slot=4", &format!("{TOOLS}{steps}")) else {
        return;
    };
    assert_eq!(
        noted(&document),
        [
            "4/4",
            "",
            "back to2 back to7 root itself",
            "5/2",
            "solid none",
            "to 2 from 5",
            "3/3",
            "5/2",
            "1/1",
            "3/3",
            "4/4",
            "2/5",
            "5/2",
            "1 of 1 hit: payload of slot 5 in whole.txt",
            "1 of 2 hits: slot 5 in whole.txt",
            "2/5",
            "2 of 2 hits: slot 5 in whole.txt, canonically compressed",
            "1 of 2 hits: slot 5 in whole.txt",
            "9/7",
            "1 of 1 hit: payload of slot 9 in whole.txt",
            "Not found: no slot and no link with payload 77.",
            "Slot 10 is above the stack.",
            "Slot 10 is above the stack, and no link has payload 10.",
            "Not found: no link with payload 99999999999999999999.",
            "Type a number, such as 50 or 0x32.",
            "1 of 4 hits: generation of slot 1 in whole.txt",
            "1 of 4 hits: generation of slot 1 in whole.txt",
            "2 of 4 hits: generation of slot 2 in whole.txt",
            "1 of 4 hits: generation of slot 1 in whole.txt",
            "1 of 7 hits: generation of slot 1 in whole.txt, canonically compressed",
            "7/6",
            "1 of 1 hit: payload of slot 7 in whole.txt",
            "7/6",
            "Not found: no slot 99.",
            "8/0",
            "#panel=1&amp;slot=8",
            "wanted",
            "Freeon the freelist, 1 of 2",
            "Payload500 (0x1f4)Generation2, current is 5Chainopen, link 2 of 3Went toslot 2 / \
             Payload500 (0x1f4)Generation6Chainopen, link 2 of 3Came fromslot 5",
        ]
    );
}

#[test]
fn wrong_pointers_and_free_slots_are_shown() {
    // 7 names 12 and 5, the freelist 8 -> 6 leads to 70, and 9 is free but not on it. The prev of 8 means nothing.
    let mut arena = linked(9, |slot| {
        [(0, 5), (4, 4), (5, 0), (2, 2), (1, 3), (0, 70), (12, 5), (3, 6), (0, 9)][slot as usize - 1]
    });
    (arena.generation[5], arena.generation[7], arena.generation[8]) = (0, 0, 0);
    arena.header = vec![9, 6, 8, 5];
    // The header's stack is longer than the columns, and the last slot leads to between.
    let mut compared = panel("compared", one_chain(7));
    (compared.arena.header[0], compared.arena.next[6]) = (20, 12);
    let mut broken = panel("a</script><b>\u{2028}", arena);
    broken.passes = false;
    broken.verdict = "refused".to_string();
    broken.faults = [6, 7].map(|slot| Fault { slot, sentence: format!("slot {slot} is wrong") }).to_vec();
    let steps = "
note(chosen()); note(found());
const colour = (node) => getComputedStyle(node).color;
const wrong = colour(document.querySelector('.end.wrong'));
const red = () => ['.prev', '.next'].map((side) => colour(card(1, side)) === wrong).join(' ');
note(document.querySelector('h2').textContent);
note([...list(1).querySelectorAll('.end.wrong')].map((end) => end.textContent).join(' '));
note([...list(1).querySelectorAll('.box.free')].map((box) => box.dataset.slot).join(' '));
note([...document.querySelectorAll('.box.broken')].map((box) => box.dataset.slot).join(' '));
note([...list(1).querySelectorAll('h3')].map((heading) => heading.textContent).join(', '));
key(document.querySelector('.faults'), 'ArrowDown'); note(chosen());
note(card(1, '.next').textContent); note(red());
key(document.querySelector('.faults'), 'ArrowDown'); note(chosen());
note(card(2, '.next').textContent); note(red());
key(document.querySelector('.faults'), 'ArrowDown'); note(chosen());
key(list(1), 'ArrowLeft'); note(chosen());
note(document.querySelector('.card .prev').textContent);
note(document.querySelector('.card .faulty').textContent);
document.querySelector('.end.leads').click(); note(chosen());
document.querySelector('.fault').click(); note(chosen());
box(1, 5).click(); note(red());
box(1, 8).click(); note(card(1, '.prev').textContent); note(red());
key(list(1), 'ArrowLeft'); card(1, '.prev').click(); note(chosen());
box(1, 9).click(); note(chosen());
note(document.querySelector('noscript').childElementCount);
";
    let page = html::page(&[broken, compared]);
    let Some(document) = browsed("broken", &page, "#payload=0x20002", &format!("{TOOLS}{steps}")) else {
        return;
    };
    assert_eq!(
        noted(&document),
        [
            "2/2",
            "1 of 2 hits: payload of slot 2 in a&lt;/script&gt;&lt;b&gt;\u{fffd}",
            "a&lt;/script&gt;&lt;b&gt;\u{fffd}",
            "prev12 next5 next70",
            "8 6 9",
            "7 6",
            "Open chains2, Closed chains1, Freelist2, Free, not on the freelist1",
            "6/6",
            "next70 above the stack",
            "false true",
            "7/7",
            "next12 not in the columns",
            "true true",
            "7/7",
            "7/7",
            "prev12 above the stack",
            "slot 7 is wrong",
            "5/5",
            "6/6",
            "false false",
            "prevnone",
            "false false",
            "8/0",
            "9/0",
            "0",
        ]
    );
}

#[test]
fn of_a_large_arena_only_what_is_seen_is_drawn() {
    // All shapes stand side by side on one page, since each start of the browser takes a second.
    let panels: Vec<Panel> = large().into_iter().map(|(name, arena)| panel(name, arena)).collect();
    let mut broken = panel("broken", one_chain(MANY));
    broken.faults = (1..=MANY)
        .step_by(10)
        .map(|slot| Fault { slot, sentence: format!("slot {slot} is wrong") })
        .collect();
    let panels: Vec<Panel> = panels.into_iter().chain([broken]).collect();
    let steps = "
note(chosen());
note(panels.every((panel) => panel.querySelectorAll('.box').length < 300));
note(document.querySelectorAll('.fault').length < 50);
for (let panel = 1; panel <= 5; panel++) { list(panel).scrollTop = 1e9; list(panel).dispatchEvent(new Event('scroll')); }
for (let panel = 1; panel <= 5; panel++) note(box(panel, 65535) !== null);
note(panels.every((panel) => panel.querySelectorAll('.box').length < 300));
for (let panel = 1; panel <= 5; panel++) { look('40000', 'slot'); note(chosen()); note(box(panel, 40000).classList.contains('chosen')); }
views[4].print();
note(list(5).querySelectorAll('.line').length);
const [, from, to, all] = list(5).querySelector('.cut').textContent.match(/^Lines (\\d+) to (\\d+) of (\\d+) are printed.$/).map(Number);
note(to - from); note(all > 5000);
const line = [...list(5).querySelectorAll('.line')].indexOf(box(5, 40000).parentNode); note(line);
";
    let page = html::page(&panels);
    let Some(document) = browsed("large", &page, "#slot=60000", &format!("{TOOLS}{steps}")) else { return };
    let mut expected = vec!["60000/0/0/0/0", "true", "true"];
    expected.extend(["true"; 6]);
    for chosen in ["40000/0/0/0/0", "0/40000/0/0/0", "0/0/40000/0/0", "0/0/0/40000/0", "0/0/0/0/40000"] {
        expected.extend([chosen, "true"]);
    }
    expected.extend(["300", "299", "true", "150"]);
    assert_eq!(noted(&document), expected);
}

/// A list that is higher than a browser can show: each of its lines can be seen all the same.
#[test]
fn the_highest_list_is_scrolled_from_end_to_end() {
    let steps = "
const scroll = (top) => { list(1).scrollTop = top; list(1).dispatchEvent(new Event('scroll')); };
const frame = () => list(1).getBoundingClientRect();
const isSeen = (slot) => { const node = box(1, slot)?.getBoundingClientRect(); return node !== undefined && node.top >= frame().top - 1 && node.bottom <= frame().bottom + 1; };
note(views[0].list.height > 4e7); note(list(1).scrollHeight < 17895697);
note(isSeen(1)); scroll(1e9); note(isSeen(1048576)); scroll(0); note(isSeen(1));
for (const slot of [65541, 524288, 1048575]) { look(String(slot), 'slot'); note(chosen()); note(isSeen(slot)); }
note(list(1).querySelectorAll('.line').length < 100);
";
    let page = html::page(&[panel("highest", closed_alone(MOST))]);
    let Some(document) = browsed("highest", &page, "", &format!("{TOOLS}{steps}")) else { return };
    let mut expected = vec!["true"; 5];
    expected.extend(["65541", "true", "524288", "true", "1048575", "true", "true"]);
    assert_eq!(noted(&document), expected);
}

/// Lists of every height, up to that of the largest arena, in a stand-in for the browser.
#[test]
fn every_line_of_a_list_is_seen_however_high_it_is() {
    let Some(node) = on_path(&["node"]) else {
        return skipped("Node is missing, so no list was scrolled without a browser");
    };
    let script = [include_str!("../src/page/scroller.js"), include_str!("scroller.js")].concat();
    let mut running =
        Command::new(node).arg("-").stdin(Stdio::piped()).stdout(Stdio::piped()).spawn().unwrap();
    running.stdin.take().unwrap().write_all(script.as_bytes()).unwrap();
    let output = running.wait_with_output().unwrap();
    assert_eq!((&*output.stdout, output.status.code()), (&b"every line is seen\n"[..], Some(0)));
}

/// A list of every part, longer than the window: its buttons, its order, its place after a new layout, and its print.
#[test]
fn a_long_list_is_scrolled_laid_out_and_printed() {
    // A chain, a closed one, lone links and the freelist, of 300 slots each.
    let mut arena = linked(1200, |slot| match (slot - 1) / 300 {
        0 => (slot - 1, if slot == 300 { 0 } else { slot + 1 }),
        1 => (if slot == 301 { 600 } else { slot - 1 }, if slot == 600 { 301 } else { slot + 1 }),
        2 => (0, 0),
        _ => (0, slot.min(1199) + 1),
    });
    arena.generation[900..].fill(0);
    arena.header = vec![1200, 900, 901, 5];
    let sentence = "its chain, slots 60000 to 65000, has no partner in B";
    let fault = |slot| Fault { slot, sentence: [sentence; 3][..slot as usize % 3 + 1].join(", and ") };
    let long = Panel { faults: (1..=40).map(fault).collect(), ..panel("long", arena) };
    let page = html::page(&[long]);
    let steps = "
const scroll = (top) => { list(1).scrollTop = top; list(1).dispatchEvent(new Event('scroll')); };
const lay = () => dispatchEvent(new Event('afterprint'));
const lines = () => [...list(1).querySelectorAll('.space > *')];
const tops = () => lines().map((line) => parseFloat(line.style.top));
const upper = () => list(1).getBoundingClientRect().top;
const seen = () => lines().find((line) => line.getBoundingClientRect().bottom > upper() + 3);
for (const button of document.querySelectorAll('nav button:not([hidden])')) {
  button.click(); list(1).dispatchEvent(new Event('scroll'));
  note(`${button.textContent} ${seen().textContent}`);
}
scroll(2500); scroll(2300); scroll(2400); note(tops().every((top, k, all) => k === 0 || all[k - 1] < top)); note(tops().length > 10);
const slot = Number(seen().querySelector('.box').dataset.slot);
const few = lines().length;
panels[0].style.width = '420px'; lay();
note(Number(seen().querySelector('.box').dataset.slot) <= slot && slot <= Number([...seen().querySelectorAll('.box')].at(-1).dataset.slot));
const linesIn = (node) => { const text = document.createRange(); text.selectNodeContents(node); return text.getClientRects().length; };
let [low, high] = [0, 0];
for (let width = 340; width < 520; width += 6) {
  panels[0].style.width = `${width}px`; lay();
  const spare = [...document.querySelectorAll('.fault')].map((fault) => Math.round(fault.offsetHeight / 24) - linesIn(fault.lastChild));
  low += spare.some((lines) => lines < 0); high += spare.some((lines) => lines > 0);
}
note(low); note(high < 5 || high);
dispatchEvent(new Event('beforeprint'));
const printed = [...list(1).querySelectorAll('.box')].map((box) => Number(box.dataset.slot));
note(printed.length); note(new Set(printed).size); note(document.querySelectorAll('.fault').length);
note(document.querySelectorAll('.cut').length);
lay(); note(Math.abs(lines().length - few) < 10); note(document.querySelectorAll('.spread').length);
";
    let Some(document) = browsed("long", &page, "", &format!("{TOOLS}{steps}")) else { return };
    assert_eq!(
        noted(&document),
        [
            "Open chains1 Open chains1",
            "Lone links300 Lone links300",
            "Closed chains1 Closed chains1",
            "Freelist300 Freelist300",
            "true",
            "true",
            "true",
            // No line is too low for its sentence at any of thirty widths, and at few of them one is too high.
            "0",
            "true",
            "1200",
            "1200",
            "40",
            "0",
            "true",
            "0",
        ]
    );
}
