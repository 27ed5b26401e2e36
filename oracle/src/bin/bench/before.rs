//! The calls of the archives of two landings, the present one and an earlier one, measured beside each other in one run.
//!
//! `CHAIN_ARENA_ARCHIVES` and `CHAIN_ARENA_BEFORE` name the folders of the archives when the benchmark is run. Both export the
//! same names, so `ld` makes a shared object of what a call needs of its archive, and the call is looked up in there. How long
//! a loop takes depends on where its code lies as well: each call is loaded at four places, as far into a line of the cache as
//! a linker may put it.
//!
//! The width of its slots is a landing's own (`Landing`); what else the calls take and answer is the same in both
//! (`Archives::load`).

use std::cell::RefCell;
use std::collections::HashMap;
use std::env;
use std::ffi::{CString, c_char, c_int, c_void};
use std::fs;
use std::hint::black_box;
use std::marker::PhantomData;
use std::mem;
use std::os::unix::ffi::OsStrExt;
use std::path::{Path, PathBuf};
use std::process::{self, Command};

use oracle::{Arena, Call, Ptr, Reading, Reply};

use crate::subjects::{self, Measured, Subject};
use crate::{LARGE, ROUNDS, Side, again, fresh, measure, median};

/// A ratio of now to before that is above this one is marked.
const BOUND: f64 = 1.15;

/// A landing whose archives are measured.
trait Landing {
    /// What it is called
    const NAME: &'static str;
    /// What its slots are numbered with
    type Slot: Copy + TryFrom<u32> + Into<u32> + 'static;
}

/// The earlier landing.
struct Before;

impl Landing for Before {
    const NAME: &'static str = "before";
    type Slot = u32;
}

/// The present landing.
struct Now;

impl Landing for Now {
    const NAME: &'static str = "now";
    type Slot = u32;
}

/// Measures every call on an arena of both landings, on the same arenas of each kind. Both must answer and leave the same.
pub fn section() {
    let (now, before) = match folders() {
        Ok([now, before]) => (Archives::<Now>::of(now), Archives::<Before>::of(before)),
        Err(what) => {
            println!("before: not measured; {what}");
            return;
        }
    };
    println!(
        "before: each call now and before, loaded at {} places, nanoseconds an item: all of them, the quickest and the slowest; \
         the ratio is marked where it is above {BOUND}",
        PLACES.len()
    );
    let mut told = Vec::new();
    for measured in &subjects::ALL {
        println!("before: {}, nanoseconds a {}", measured.what, measured.item);
        match rows(measured, &now, &before) {
            Ok(ratios) => told.push((measured.what, ratios)),
            Err(what) => println!("  not measured; {what}"),
        }
    }
    println!("before: the least and the largest ratio of each call at 2,048 and at 65,535 slots");
    for (what, ratios) in told {
        let shown = ratios.map(|of_size| {
            let [least, most] = least_and_most(&of_size);
            format!("{least:.2} to {most:.2}{}", mark(most))
        });
        println!("  {what:<36} {:<16} {}", shown[0], shown[1]);
    }
}

/// Measures one call at both sizes, and answers the ratios at each.
fn rows(
    measured: &Measured,
    now: &Archives<Now>,
    before: &Archives<Before>,
) -> Result<[Vec<f64>; 2], String> {
    let mut ratios = [vec![], vec![]];
    for (slots, of_size) in [2_048, LARGE].into_iter().zip(&mut ratios) {
        for subject in (measured.subjects)(slots) {
            of_size.push(row(slots, &subject, now, before)?);
        }
    }
    Ok(ratios)
}

/// Measures one call on one arena, prints the row and answers the ratio: at each place the median over the rounds, and of these
/// the geometric mean.
fn row(
    slots: usize,
    subject: &Subject,
    now: &Archives<Now>,
    before: &Archives<Before>,
) -> Result<f64, String> {
    let arena = with_unread_zeros(&subject.arena);
    let (new, old) = (Loaded::of(now, &arena, &subject.call)?, Loaded::of(before, &arena, &subject.call)?);
    let left = new.left();
    assert!(left == old.left(), "now and before differ on {}", subject.kind);
    assert!(matches!(left.0.number, 0 | 11 | 12 | 100), "{} is refused before its end", subject.kind);
    let changes = left.1 != Columns::of(&arena);
    let turns = new.sides(changes).zip(old.sides(changes)).flat_map(|(new, old)| [Some(new), Some(old)]);
    let times = measure(ROUNDS, turns.collect()).times;
    let of_landing = |landing: usize| times.iter().skip(landing).step_by(2);
    let shown = |landing| {
        let each = |of_place: &Vec<f64>| median(of_place.clone()).unwrap_or(0.0) / subject.items as f64;
        let nanos: Vec<f64> = of_landing(landing).map(each).collect();
        let [least, most] = least_and_most(&nanos);
        format!("{:.2} ({least:.2} to {most:.2})", nanos.iter().sum::<f64>() / nanos.len() as f64)
    };
    let of_place = |(new, old): (&Vec<f64>, &Vec<f64>)| {
        median(new.iter().zip(old).map(|(new, old)| new / old).collect()).unwrap_or(0.0).ln()
    };
    let ratio = (of_landing(0).zip(of_landing(1)).map(of_place).sum::<f64>() / PLACES.len() as f64).exp();
    println!(
        "  {slots:>6}  {:<44} now {:<22} before {:<22} ratio {ratio:.2}{}",
        subject.kind,
        shown(0),
        shown(1),
        mark(ratio)
    );
    Ok(ratio)
}

/// The least and the largest of some numbers.
fn least_and_most(of: &[f64]) -> [f64; 2] {
    [f64::min, f64::max].map(|pick| of.iter().copied().reduce(pick).unwrap_or(0.0))
}

/// The mark of a ratio that is too large.
fn mark(ratio: f64) -> &'static str {
    if ratio > BOUND { " !" } else { "" }
}

/// The folders of the present and of the earlier archives, or what is missing.
fn folders() -> Result<[PathBuf; 2], String> {
    let folder = |name| env::var_os(name).map(PathBuf::from).filter(|folder| !folder.as_os_str().is_empty());
    match [folder("CHAIN_ARENA_ARCHIVES"), folder("CHAIN_ARENA_BEFORE")] {
        [Some(now), Some(before)] => Ok([now, before]),
        _ => Err("CHAIN_ARENA_ARCHIVES and CHAIN_ARENA_BEFORE must name the folders that `bash archives` has filled now \
                  and in an earlier landing"
            .to_string()),
    }
}

/// The arena with 0 for what nobody reads as a slot, so that the slots of every landing can hold it.
fn with_unread_zeros(arena: &Arena) -> Arena {
    let mut a = arena.clone();
    for s in (1..=a.capacity()).filter(|&s| !arena.is_link(s)) {
        a.prev[s - 1] = 0;
        if s > arena.stack() {
            a.next[s - 1] = 0;
        }
    }
    a
}

/// The columns and the header of an arena, as the calls of a landing take them.
#[derive(Clone, PartialEq)]
struct Columns<Slot> {
    prev: Vec<Slot>,
    next: Vec<Slot>,
    generation: Vec<u32>,
    payload: Vec<u32>,
    header: Vec<u32>,
}

impl<Slot: Copy + TryFrom<u32> + Into<u32>> Columns<Slot> {
    /// Those of an arena whose slots are numbers of that width.
    fn of(a: &Arena) -> Self {
        Self {
            prev: narrowed(&a.prev),
            next: narrowed(&a.next),
            generation: a.generation.clone(),
            payload: a.payload.clone(),
            header: a.header.clone(),
        }
    }

    /// The same with wide slots.
    fn widened(&self) -> Columns<u32> {
        Columns {
            prev: widened(&self.prev),
            next: widened(&self.next),
            generation: self.generation.clone(),
            payload: self.payload.clone(),
            header: self.header.clone(),
        }
    }
}

/// The slices that are lent to a call beside the arena.
struct Lent<Slot> {
    /// The commands of a run
    commands: Vec<u32>,
    /// A where-from column, or the report of what is due
    slots: Vec<Slot>,
    /// Any other report, or the answers of a run
    words: Vec<u32>,
}

impl<Slot: TryFrom<u32>> Lent<Slot> {
    /// Those of a call.
    fn of(call: &Call) -> Self {
        let mut lent = Self { commands: vec![], slots: vec![], words: vec![] };
        match call {
            Call::CompressCanonical(..) | Call::DueEvents(..) => lent.slots = narrowed(&call.lent()),
            _ => lent.words = call.lent(),
        }
        if let Call::Run(commands, _) = call {
            lent.commands = commands.clone();
        }
        lent
    }
}

/// Slots as numbers of a landing's width.
fn narrowed<Slot: TryFrom<u32>>(slots: &[u32]) -> Vec<Slot> {
    slots.iter().map(|&slot| narrow(slot)).collect()
}

/// A slot as a number of a landing's width.
fn narrow<Slot: TryFrom<u32>>(slot: u32) -> Slot {
    Slot::try_from(slot).ok().expect("a slot of that width")
}

/// Slots as wide numbers.
fn widened<Slot: Copy + Into<u32>>(slots: &[Slot]) -> Vec<u32> {
    slots.iter().map(|&slot| slot.into()).collect()
}

/// A call of a landing that is loaded, and what it is made on.
struct Loaded<L: Landing> {
    places: Vec<Made<L::Slot>>,
    columns: RefCell<Columns<L::Slot>>,
    lent: RefCell<Lent<L::Slot>>,
}

impl<L: Landing> Loaded<L> {
    /// The call on that arena.
    fn of(archives: &Archives<L>, arena: &Arena, call: &Call) -> Result<Self, String> {
        Ok(Self {
            places: archives.load(call)?,
            columns: RefCell::new(Columns::of(arena)),
            lent: RefCell::new(Lent::of(call)),
        })
    }

    /// What the call answers and leaves in the columns and in the slices, the slots wide.
    fn left(&self) -> (Reply, Columns<u32>, Vec<u32>, Vec<u32>) {
        let (mut columns, mut lent) = (self.columns.borrow().clone(), self.lent.borrow_mut());
        let reply = self.places[0](&mut columns, &mut lent);
        (reply, columns.widened(), widened(&lent.slots), lent.words.clone())
    }

    /// A side for each place, all of them on the same columns, of which each call gets a copy if it changes them.
    fn sides(&self, changes: bool) -> impl Iterator<Item = Side<'_>> {
        self.places.iter().map(move |made| -> Side {
            let call = move |columns: &mut _| _ = black_box(made(columns, &mut self.lent.borrow_mut()));
            if changes {
                Box::new(fresh(|| self.columns.borrow().clone(), call))
            } else {
                Box::new(again(move || call(black_box(&mut self.columns.borrow_mut()))))
            }
        })
    }
}

/// The archives of a landing, and where the calls are that have been loaded from them.
struct Archives<L> {
    folder: PathBuf,
    found: RefCell<HashMap<&'static str, Vec<*mut c_void>>>,
    landing: PhantomData<L>,
}

/// A call at one of its places, with all its arguments but the slices.
type Made<Slot> = Box<dyn Fn(&mut Columns<Slot>, &mut Lent<Slot>) -> Reply>;

/// The words of a result.
#[repr(C)]
struct Words<const COUNT: usize>([u32; COUNT]);

impl<const COUNT: usize> Words<COUNT> {
    /// The reply that they are.
    fn reply(self) -> Reply {
        let [number, broken, side, ref words @ ..] = self.0[..] else {
            unreachable!("a result has three words")
        };
        Reply { broken, side, ..Reply::new(number, words) }
    }
}

impl<L: Landing> Archives<L> {
    /// Those in a folder.
    fn of(folder: PathBuf) -> Self {
        Self { folder, found: RefCell::default(), landing: PhantomData }
    }

    /// What makes a call, at each of its places: its arguments behind the arena by their types, and how many words its result
    /// has.
    fn load(&self, call: &Call) -> Result<Vec<Made<L::Slot>>, String> {
        macro_rules! made {
            (|$lent:ident| $($type:ty: $value:expr),*; $count:literal) => {{
                type Exported<Slot> = unsafe extern "C" fn(
                    *mut Slot, usize, *mut Slot, usize, *mut u32, usize, *mut u32, usize, *mut u32, usize
                    $(, $type)*
                ) -> Words<$count>;
                let made = |found: &*mut c_void| -> Made<L::Slot> {
                    // Safety: the archive has the call with these parameters and this result.
                    let exported = unsafe { mem::transmute::<*mut c_void, Exported<L::Slot>>(*found) };
                    Box::new(move |a, $lent| {
                        // Safety: each pointer and count are those of one vector.
                        let words = unsafe {
                            exported(
                                a.prev.as_mut_ptr(), a.prev.len(), a.next.as_mut_ptr(), a.next.len(),
                                a.generation.as_mut_ptr(), a.generation.len(),
                                a.payload.as_mut_ptr(), a.payload.len(), a.header.as_mut_ptr(), a.header.len()
                                $(, $value)*
                            )
                        };
                        words.reply()
                    })
                };
                self.found(call)?.iter().map(made).collect()
            }};
        }
        let slot = |p: Ptr| narrow::<L::Slot>(p.slot);
        Ok(match *call {
            Call::Check => made!(|_lent| ; 3),
            Call::GetLink(p) => made!(|_lent| Slot: slot(p), u32: p.generation; 8),
            Call::GetLinkNoGen(p) => made!(|_lent| Slot: slot(p), u32: p.generation; 6),
            Call::AreNeighbors(p, q) => {
                made!(|_lent| Slot: slot(p), u32: p.generation, Slot: slot(q), u32: q.generation; 4)
            }
            Call::WalkStart(p) => made!(|_lent| Slot: slot(p), u32: p.generation; 7),
            Call::WalkStep(walk) => {
                made!(|_lent| u32: walk.start, u32: walk.position, u32: walk.direction, u32: walk.left; 9)
            }
            Call::DueCount(p, from, to) => {
                made!(|_lent| Slot: slot(p), u32: p.generation, u32: from, u32: to; 4)
            }
            Call::DueEvents(p, from, to, _) => {
                made!(|lent| Slot: slot(p), u32: p.generation, u32: from, u32: to,
                    *mut Slot: lent.slots.as_mut_ptr(), usize: lent.slots.len(); 4)
            }
            Call::Connect(p, q) | Call::ExchangeNext(p, q) => {
                made!(|_lent| Slot: slot(p), u32: p.generation, Slot: slot(q), u32: q.generation; 3)
            }
            Call::BreakPrev(p) | Call::BreakNext(p) => made!(|_lent| Slot: slot(p), u32: p.generation; 3),
            Call::Insert(kind, p, q, payload) => {
                made!(|_lent| u32: kind, Slot: slot(p), u32: p.generation, Slot: slot(q), u32: q.generation,
                    u32: payload; 5)
            }
            Call::Remove(p) => made!(|_lent| Slot: slot(p), u32: p.generation; 6),
            Call::Drain(p, _) => {
                made!(|lent| Slot: slot(p), u32: p.generation,
                    *mut u32: lent.words.as_mut_ptr(), usize: lent.words.len(); 5)
            }
            Call::SetGeneration(generation) => made!(|_lent| u32: generation; 3),
            Call::IncGeneration | Call::CanonicalizeFreelist => made!(|_lent| ; 3),
            Call::Run(..) => {
                made!(|lent| *const u32: lent.commands.as_ptr(), usize: lent.commands.len(),
                    *mut u32: lent.words.as_mut_ptr(), usize: lent.words.len(); 3)
            }
            Call::CompressWith(reset, _) => {
                made!(|lent| u32: reset, *mut u32: lent.words.as_mut_ptr(), usize: lent.words.len(); 3)
            }
            Call::CompressCanonical(reset, _) => {
                made!(|lent| u32: reset, *mut Slot: lent.slots.as_mut_ptr(), usize: lent.slots.len(); 3)
            }
            Call::LineOfDot(_) | Call::LineDots(_) | Call::SmallArena(_) => {
                return Err("it is no call on an arena".to_string());
            }
        })
    }

    /// The addresses of a call, one for each place; it stays loaded.
    fn found(&self, call: &Call) -> Result<Vec<*mut c_void>, String> {
        let name = call.name();
        if let Some(found) = self.found.borrow().get(name) {
            return Ok(found.clone());
        }
        let archive = self.folder.join(format!("lib{}.a", call.archive().name()));
        let at = |place: &u32| address(L::NAME, &archive, &format!("chain_arena_{name}"), *place);
        let found = PLACES.iter().map(at).collect::<Result<Vec<_>, _>>()?;
        self.found.borrow_mut().insert(name, found.clone());
        Ok(found)
    }
}

unsafe extern "C" {
    fn dlopen(file: *const c_char, flags: c_int) -> *mut c_void;
    fn dlsym(library: *mut c_void, name: *const c_char) -> *mut c_void;
}

/// To `dlopen`: find everything at once, and lend no name to others.
const NOW_AND_LOCAL: c_int = 2;

/// Where the code of an object begins: at the start of a line of the cache, and a quarter further each. What the linker puts
/// before the code ends below.
const PLACES: [u32; 4] = [0x1_0000, 0x1_0010, 0x1_0020, 0x1_0030];

/// The address of a call of an archive whose code begins at a place. Each object has a name of its own, since one that is
/// loaded already is not loaded again.
fn address(landing: &str, archive: &Path, call: &str, place: u32) -> Result<*mut c_void, String> {
    let object = env::temp_dir().join(format!("{landing}_{call}_{place:x}_{}.so", process::id()));
    let linked = Command::new("ld")
        .args(["-shared", "-Bsymbolic", &format!("-Ttext={place:#x}"), "-u", call, "-o"])
        .args([&object, archive])
        .status();
    if !linked.is_ok_and(|status| status.success()) {
        return Err(format!("ld could not link {}", archive.display()));
    }
    let [path, name] =
        [object.as_os_str().as_bytes(), call.as_bytes()].map(|text| CString::new(text).expect("a name"));
    // Safety: both are strings that end in 0, and the library has nothing that runs when it is loaded.
    let found = unsafe {
        let library = dlopen(path.as_ptr(), NOW_AND_LOCAL);
        if library.is_null() { library } else { dlsym(library, name.as_ptr()) }
    };
    let _ = fs::remove_file(&object);
    if found.is_null() {
        return Err(format!("{} has no {call} that could be loaded", archive.display()));
    }
    Ok(found)
}
