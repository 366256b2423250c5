//! Why an object is moved every night, or is not, for hotline and service staff: over snapshot files it says a sentence for one id, some ids or all.
//!
//!     cargo run --release --example why -- FILE ratio=0.75 id=8 id=9    # of two ids
//!     cargo run --release --example why -- FILE ratio=0.75              # of each row of the file, in its order
//!
//! A FILE begins a group: its ratio, and ids, up to the next FILE. The words, and what is written, are those of the program `why` in crates/why, which needs
//! no Rust and takes smaller stores; this one takes any. A snapshot has the slots that its rows hold, and nothing that is pending.
use std::ffi::{OsStr, OsString};
use std::fs::File;
use std::io::{self, BufWriter, Read, Write};

use wentuhoro::snapshot::{self, BLOCK, BLOCK_ROWS};
use wentuhoro::{Refusal, RefusalKind, Store};

/// Those of the store that a file's rows are put into. A snapshot does not say its own store's, and no reason depends on them.
#[derive(Clone, Copy)]
pub struct Capacities {
    pub ids: usize,
    pub slots: usize,
}

impl Capacities {
    pub const LARGEST: Capacities = Capacities { ids: 65_536, slots: 65_536 };

    fn most_objects(self) -> usize {
        self.ids - 1
    }

    /// The bytes of a snapshot of so many.
    fn longest(self) -> usize {
        self.most_objects().div_ceil(BLOCK_ROWS) * BLOCK
    }
}

/// A ratio, and how it was typed.
struct Ratio<'a> {
    value: f32,
    typed: &'a str,
}

/// Or a line for staff: why there is no answer.
type Told<T> = Result<T, String>;

fn is_file(word: &OsString) -> bool {
    let word = word.as_encoded_bytes();
    !word.starts_with(b"ratio=") && !word.starts_with(b"id=")
}

/// What is said to the words that the program is started with.
pub fn say_all(words: &[OsString], capacities: Capacities, out: &mut impl Write) -> io::Result<()> {
    if !words.first().is_some_and(is_file) {
        let help = "why FILE ratio=0.75 [id=8 ..] ..: why objects of snapshot files are to be moved, or are not; without an id, each row's";
        writeln!(out, "{help}")?;
    }
    for group in words.chunk_by(|_, word| !is_file(word)).filter(|group| is_file(&group[0])) {
        say_group(&group[0], &group[1..], capacities, out)?;
    }
    Ok(())
}

fn say_group(file: &OsStr, words: &[OsString], capacities: Capacities, out: &mut impl Write) -> io::Result<()> {
    writeln!(out, "{}:", file.to_string_lossy())?;
    let words: Vec<_> = words.iter().map(|word| word.to_string_lossy()).collect();
    match ratio_of(words.first()).and_then(|ratio| Ok((ratio, store_of(file, capacities)?))) {
        Err(line) => writeln!(out, "{line}"),
        // Without an id, each row's.
        Ok((ratio, (store, rows))) if words.len() == 1 => {
            rows.iter().try_for_each(|id| writeln!(out, "{}", sentence(&store, *id, &ratio)))
        }
        Ok((ratio, (store, _))) => words[1..].iter().try_for_each(|word| match word.strip_prefix("id=").and_then(whole) {
            Some(id) => writeln!(out, "{}", sentence(&store, id, &ratio)),
            None => writeln!(out, "{word}: no id such as id=8"),
        }),
    }
}

/// With the ratio as it was typed.
fn sentence(store: &Store, id: u64, ratio: &Ratio) -> String {
    let reason = store.reason_for_object(id, ratio.value).expect("no batch is open, and the ratio was judged");
    reason.to_string().replacen(&format!("(ratio {}", ratio.value), &format!("(ratio {}", ratio.typed), 1)
}

/// What the word behind a file says.
fn ratio_of<'a>(word: Option<&'a impl AsRef<str>>) -> Told<Ratio<'a>> {
    let Some(typed) = word.and_then(|word| word.as_ref().strip_prefix("ratio=")) else {
        return Err("no ratio is given: it stands behind the file, as ratio=0.75".into());
    };
    match decimal(typed) {
        None => Err(format!("ratio={typed}: no decimal such as 0.75")),
        Some(value) if 0.0 < value && value <= 1.0 => Ok(Ratio { value, typed }),
        Some(_) => Err(format!("{typed} is no fill ratio: it is above 0 and at most 1")),
    }
}

/// Digits alone; `parse` would take a sign, too.
fn whole(typed: &str) -> Option<u64> {
    typed.bytes().all(|byte| byte.is_ascii_digit()).then(|| typed.parse().ok())?
}

/// Digits, of which up to seven may stand behind a point, and which without it are a number below 2^24: 0.75, 1, .5.
fn decimal(typed: &str) -> Option<f32> {
    let (before, after) = typed.split_once('.').unwrap_or((typed, ""));
    let digits = whole(&[before, after].concat())?;
    (digits < 1 << 24 && after.len() <= 7).then(|| typed.parse().ok())?
}

/// The store of a file's rows, and their ids in the file's order.
fn store_of(file: &OsStr, capacities: Capacities) -> Told<(Store, Vec<u64>)> {
    let bytes = bytes_of(file, capacities)?;
    let rows = snapshot::rows(&bytes).map_err(|refusal| refused("block", refusal, capacities))?;
    // Its blocks are right, so what is refused is a row.
    let store = Store::from_snapshot(capacities.ids, capacities.slots, &bytes).map_err(|refusal| refused("row", refusal, capacities))?;
    Ok((store, rows.iter().map(|row| row.id).collect()))
}

/// Where a file cannot be read, standard error says why.
fn bytes_of(file: &OsStr, capacities: Capacities) -> Told<Vec<u8>> {
    let opened = File::open(file).map_err(|error| {
        eprintln!("why: {error}");
        "it cannot be read"
    })?;
    let (longest, mut bytes) = (capacities.longest(), vec![]);
    let read = opened.take(longest as u64 + 1).read_to_end(&mut bytes);
    if read.is_err() || bytes.len() > longest {
        return Err(refused("block", Refusal { kind: RefusalKind::WrongShape, index: 0 }, capacities));
    }
    Ok(bytes)
}

fn refused(part: &str, refusal: Refusal, Capacities { ids, slots }: Capacities) -> String {
    let why = match refusal.kind {
        RefusalKind::WrongShape => {
            let most = ids - 1;
            format!("the file is empty or cut short, could not be read to its end, or has more than the {most} objects that this program takes")
        }
        RefusalKind::CheckDiffers => "its check differs: the file was damaged".into(),
        RefusalKind::UnknownVersion => "its version is neither 1 nor 2".into(),
        RefusalKind::WrongBlock => "its number, row count, padding, row order or version, or a key in it, is wrong".into(),
        RefusalKind::NoSuchId => format!("its id is 0, or above {}, the largest that this program takes", ids - 1),
        RefusalKind::OutOfRange => format!("its location is none, or its slot above {}, the largest that this program takes", slots - 1),
        _ => "an earlier row has its location".into(),
    };
    format!("{part} {} is refused with {}: {why}", refusal.index, refusal.kind.number())
}

fn main() -> io::Result<()> {
    let words: Vec<OsString> = std::env::args_os().skip(1).collect();
    let mut out = BufWriter::new(io::stdout());
    say_all(&words, Capacities::LARGEST, &mut out)?;
    out.flush()
}
