//! hpr in process: changed versions of a program are integrated by what they compute.
//!
//! ```
//! let base = b"program\nissued 1:1\n1.1: x := 1;\nend(x)\n";
//! let a = b"program\nissued 1:1, 2:1\n1.1: x := 1;\n2.1: y := x + 1;\nend(x, y)\n";
//! let merged = hpr::integrate(base, a, base);
//! assert_eq!(merged.status, hpr::Status::Done);
//! assert!(merged.out.ends_with(b"end(x, y)\n"));
//! ```
//!
//! What each call promises is proved of the library below; [`Answer`] tells what it says. Calls keep nothing behind them, so any
//! number of threads may make them at once, each with [`STACK`] bytes of stack.

mod raw;

/// How many bytes of stack a call asks for.
pub const STACK: usize = 256 * 1024;

/// How a call ended.
#[derive(Clone, Copy, Debug, PartialEq, Eq, Hash)]
#[non_exhaustive]
pub enum Status {
    /// The command did what it is for.
    Done,
    /// The variants interfere.
    Interference,
    /// No program has the merged graph.
    NoProgram,
    /// The budget of tries is spent.
    Spent,
    /// A file, a word of a state, a point or a command of a script is refused.
    Refused,
    /// A word names a file that was not handed in.
    Absent,
    /// The words are no call, or one that is not told as data.
    Words,
    /// There was no memory.
    Memory,
    /// A run did not end normally.
    NotEnded,
    /// An offered program hasn't the merged graph.
    Rejected,
    /// A word or a name has a zero byte in it.
    Form,
}

impl Status {
    const NUMBERS: [(u32, Status); 11] = [
        (0, Status::Done),
        (1, Status::Interference),
        (2, Status::NoProgram),
        (3, Status::Spent),
        (4, Status::Refused),
        (5, Status::Absent),
        (7, Status::Words),
        (8, Status::Memory),
        (9, Status::NotEnded),
        (10, Status::Rejected),
        (64, Status::Form),
    ];

    /// The exit status of the program, or 64.
    #[must_use]
    pub fn number(self) -> u32 {
        Self::NUMBERS
            .iter()
            .find(|pair| pair.1 == self)
            .map_or(64, |pair| pair.0)
    }

    // The library answers these numbers alone.
    fn of(number: u32) -> Status {
        Self::NUMBERS
            .iter()
            .find(|pair| pair.0 == number)
            .map_or(Status::Form, |pair| pair.1)
    }
}

/// What a call comes to: its status and its two texts, as the program ends and writes them.
#[derive(Clone, Debug, PartialEq, Eq)]
#[must_use]
pub struct Answer {
    pub status: Status,
    /// What the program writes to standard output.
    pub out: Vec<u8>,
    /// What it writes to standard error.
    pub err: Vec<u8>,
}

/// An answer as data.
#[derive(Clone, Debug, PartialEq, Eq)]
#[must_use]
pub struct Data {
    pub status: Status,
    /// JSON and a newline, whose members `docs/calling.md` names; empty where the status is `Form` or `Memory`.
    pub json: String,
}

/// The version of the library: 10,000 for 1.0.0.
#[must_use]
pub fn version() -> u32 {
    raw::version()
}

/// Integrates two variants with their base, which messages name `base`, `a` and `b`.
///
/// The status is `Done`, `Interference`, `NoProgram`, `Spent`, `Refused` or `Memory`.
pub fn integrate(base: &[u8], a: &[u8], b: &[u8]) -> Answer {
    answer(base.len() + a.len() + b.len(), |out, err| {
        raw::integrate(base, a, b, out, err)
    })
}

/// Makes the call of the program with these words, over these files by name. Of two files with one name the first counts.
pub fn call(words: &[&str], files: &[(&str, &[u8])]) -> Answer {
    let Some(given) = given(words, files) else {
        return Answer {
            status: Status::Form,
            out: Vec::new(),
            err: Vec::new(),
        };
    };
    answer(given.bytes.len(), |out, err| raw::call(&given, out, err))
}

/// The answer of `integrate`, `affected`, `graph`, `run` or `verify` as data: words and files are those of [`call`], and so is
/// the status. Other commands are `Words`.
///
/// ```
/// let base = b"program issued 1:1 1.1: x := 1; end(x)";
/// let a = b"program issued 1:1 1.1: x := 2; end(x)";
/// let b = b"program issued 1:1 1.1: x := 3; end(x)";
/// let told = hpr::data(
///     &["integrate", "base", "a", "b"],
///     &[("base", base), ("a", a), ("b", b)],
/// );
/// assert_eq!(told.status, hpr::Status::Interference);
/// assert!(told.json.contains(r#""point":{"kind":"final","name":"x"},"variant":1"#));
/// ```
pub fn data(words: &[&str], files: &[(&str, &[u8])]) -> Data {
    match given(words, files) {
        Some(given) => told(given.bytes.len(), |out| raw::data(&given, out)),
        None => Data {
            status: Status::Form,
            json: String::new(),
        },
    }
}

/// Where the parts of a program stand in its text, each from the first byte of its tag to the last byte of its `;`, `fi` or `od`:
/// an array of `{"byte":FIRST,"length":BYTES,"tag":"1.2"}`, in the order in which they begin. `Refused`: the text spells no
/// program, and the JSON is the object of [`data`] for a refused file, with the name `text`.
///
/// ```
/// let places = hpr::places(b"program 1.1: x := 1; end(x)");
/// assert_eq!(places.json, "[{\"byte\":8,\"length\":12,\"tag\":\"1.1\"}]\n");
/// ```
pub fn places(text: &[u8]) -> Data {
    told(text.len(), |out| raw::places(text, out))
}

// Words and files as the library takes them, which no zero byte stands in.
fn given(words: &[&str], files: &[(&str, &[u8])]) -> Option<raw::Given> {
    let names: Vec<&str> = files.iter().map(|file| file.0).collect();
    if words.iter().chain(&names).any(|text| text.contains('\0')) {
        return None;
    }
    Some(raw::Given {
        words: packed(words),
        names: packed(&names),
        lengths: files.iter().map(|file| file.1.len()).collect(),
        bytes: files.iter().map(|file| file.1).collect::<Vec<_>>().concat(),
    })
}

// The texts one after another, each with a zero byte behind it.
fn packed(texts: &[&str]) -> Vec<u8> {
    texts
        .iter()
        .flat_map(|text| text.bytes().chain([0]))
        .collect()
}

// Makes a call with about as much room as its texts take, and once more where that was too little.
fn answer(likely: usize, call: impl Fn(&mut [u8], &mut [u8]) -> (u32, raw::Sizes)) -> Answer {
    let (mut out, mut err) = (vec![0; likely + 1024], vec![0; 256]);
    let (mut number, mut sizes) = call(&mut out, &mut err);
    if sizes.out > out.len() || sizes.err > err.len() {
        out.resize(sizes.out, 0);
        err.resize(sizes.err, 0);
        (number, sizes) = call(&mut out, &mut err);
    }
    // a second call that finds no memory has shorter texts
    out.truncate(sizes.out);
    err.truncate(sizes.err);
    Answer {
        status: Status::of(number),
        out,
        err,
    }
}

// The same for a call that tells data, which is longer than what it is of.
fn told(likely: usize, call: impl Fn(&mut [u8]) -> (u32, usize)) -> Data {
    let mut out = vec![0; 2 * likely + 1024];
    let (mut number, mut size) = call(&mut out);
    if size > out.len() {
        out.resize(size, 0);
        (number, size) = call(&mut out);
    }
    out.truncate(size);
    Data {
        status: Status::of(number),
        json: String::from_utf8_lossy(&out).into_owned(),
    }
}
