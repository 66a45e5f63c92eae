//! Whether bytes are one Java object serialization stream that a filter admits, by the C library. No class is loaded.
//!
//! ```
//! let filter = serialcheck::Filter::new("maxbytes=1000000;java.util.*;java.lang.*;!*", &serialcheck::Options { anywhere: true, ..Default::default() }).unwrap();
//! let counts = filter.check(b"\xac\xed\x00\x05\x74\x00\x03abc").unwrap();
//! assert_eq!("yes 10 bytes, 1 contents, 1 refs, depth 1", counts.to_string());
//! let refused = filter.check(b"\xac\xed\x00\x05\x01").unwrap_err();
//! assert_eq!("no at 4 to 5: BadTag", refused.to_string());
//! ```
#[cfg(keyed)]
mod keyed;
mod raw;

use raw::{Answer, Handle};
use std::{error, fmt, io};

/// A bound for the texts of `show` and `list`: that of a small hostile stream can have gigabytes.
pub const MOST_TEXT: usize = 1 << 24;

/// The room in which a text is written first.
const FIRST_ROOM: usize = 1 << 16;
/// More bytes than a line, a name or a sentence of the library has.
const MOST_WORDS: usize = 255;
/// For a call that gets no bytes: the library wants an address.
static NOTHING: [u8; 1] = [0];

/// How a filter is asked.
#[derive(Clone, Debug, Default)]
pub struct Options<'a> {
    /// Refuse a class that no pattern matches.
    pub strict: bool,
    /// Ask about every class name that can be read at any place of the bytes.
    pub anywhere: bool,
    /// Take a filter without a pattern for a faulty one.
    pub need_pattern: bool,
    /// A table of modules: lines `package=module`.
    pub modules: &'a str,
}

impl Options<'_> {
    fn flags(&self) -> u32 {
        let flag = |is_set: bool, bit: u32| if is_set { bit } else { 0 };
        flag(self.strict, raw::STRICT) | flag(self.anywhere, raw::ANYWHERE) | flag(self.need_pattern, raw::NEED_PATTERN)
    }
}

/// The counts of a stream that is accepted. Its text is the line of the program.
#[derive(Clone, Debug, PartialEq, Eq)]
pub struct Counts {
    pub bytes: u64,
    /// How many contents are at the top.
    pub contents: u64,
    /// References, as the filter's `maxrefs` counts them.
    pub refs: u64,
    /// Depth, as the filter's `maxdepth` counts it.
    pub depth: u64,
    /// How many handles the stream assigns.
    pub handles: u64,
    answer: Answer,
}

/// Why bytes are no stream that the filter admits. Its text is the line of the program.
#[derive(Clone, Debug, PartialEq, Eq)]
pub struct Refused {
    /// A name of docs/REFUSALS.md, such as `ClassRejected`.
    pub reason: String,
    /// A sentence on the reason, of printable ASCII.
    pub meaning: String,
    /// The offset of the faulty token.
    pub from: u64,
    /// How many bytes decide: no admitted stream begins with these (of `Truncated`: all, which are none).
    pub to: u64,
    /// The length of the longest front of the bytes that is a stream which the filter admits, or 0: where to cut.
    pub whole: u64,
    /// The class that was refused, quoted, with letters other than printable ASCII escaped; none with another reason.
    pub class: Option<String>,
    line: String,
}

/// A faulty filter, table of modules, or file of a filter.
#[derive(Clone, Debug, PartialEq, Eq)]
pub struct Misuse {
    /// A name of SERIALCHECK_CAUSES in serialcheck.h.
    pub cause: String,
    /// The faulty piece or line, counted from 0.
    pub at: u64,
    line: String,
}

/// Why a call has no other answer.
#[derive(Clone, Debug, PartialEq, Eq)]
#[non_exhaustive]
pub enum Error {
    Refused(Box<Refused>),
    Misuse(Misuse),
    NoMemory,
}

impl fmt::Display for Counts {
    fn fmt(&self, to: &mut fmt::Formatter) -> fmt::Result {
        to.write_str(&line_of(&self.answer))
    }
}

impl fmt::Display for Error {
    fn fmt(&self, to: &mut fmt::Formatter) -> fmt::Result {
        to.write_str(match self {
            Error::Refused(why) => &why.line,
            Error::Misuse(why) => &why.line,
            Error::NoMemory => "out of memory",
        })
    }
}

impl error::Error for Error {}

/// The address of bytes. There is one byte at least.
fn at(bytes: &[u8]) -> *const u8 {
    if bytes.is_empty() {
        NOTHING.as_ptr()
    } else {
        bytes.as_ptr()
    }
}

/// The text that a call writes into a room of at most so many bytes, if there is one.
fn words(most: usize, write: impl FnOnce(*mut u8, usize, *mut Answer) -> u32) -> Option<String> {
    let mut room = vec![0; most];
    let mut told = Answer::default();
    let status = write(room.as_mut_ptr(), most, &mut told);
    room.truncate(usize::try_from(told.bytes).ok()?);
    (status == raw::YES).then(|| String::from_utf8(room).ok()).flatten()
}

fn line_of(answer: &Answer) -> String {
    // SAFETY: both answers and the room are there, and are different places.
    let line = words(MOST_WORDS, |room, len, told| unsafe { raw::serialcheck_line(answer, room, len, told) });
    line.unwrap_or_default().trim_end().to_string()
}

/// The class that an answer says was refused, if it says so, as a call writes it.
fn named(answer: &Answer, write: impl FnOnce(*mut u8, usize, *mut Answer) -> u32) -> Option<String> {
    if answer.status != raw::NO || answer.name_to == 0 {
        return None;
    }
    words(usize::try_from(6 * (answer.name_to - answer.name_from) + 2).ok()?, write)
}

/// The class that an answer to a check of these bytes names.
fn class_of(answer: &Answer, bytes: &[u8]) -> Option<String> {
    // SAFETY: the bytes, both answers and the room are there, and are different places.
    named(answer, |room, len, told| unsafe { raw::serialcheck_class(at(bytes), bytes.len(), answer, room, len, told) })
}

/// What an answer says, with the class that was refused, if one was.
fn settled(answer: &Answer, class: Option<String>) -> Result<Counts, Error> {
    // SAFETY: in each call the answer and the room are there, and are different places.
    let text = |call: unsafe extern "C" fn(u32, *mut u8, usize, *mut Answer) -> u32| {
        words(MOST_WORDS, |room, len, told| unsafe { call(answer.reason, room, len, told) }).unwrap_or_default()
    };
    match answer.status {
        raw::YES => Ok(Counts {
            bytes: answer.bytes,
            contents: answer.contents,
            refs: answer.refs,
            depth: answer.depth,
            handles: answer.handles,
            answer: answer.clone(),
        }),
        raw::NO => Err(Error::Refused(Box::new(Refused {
            reason: text(raw::serialcheck_reason_name),
            meaning: text(raw::serialcheck_reason_text),
            from: answer.from,
            to: answer.to,
            whole: answer.whole,
            class,
            line: line_of(answer),
        }))),
        raw::MISUSE => Err(Error::Misuse(Misuse { cause: text(raw::serialcheck_cause_name), at: answer.from, line: line_of(answer) })),
        // No other status comes back: handles are open as long as their owners are there.
        _ => Err(Error::NoMemory),
    }
}

/// Checks a whole stream under the filter of a text, which is read each time.
pub fn check(stream: &[u8], filter: &str, options: &Options) -> Result<Counts, Error> {
    Filter::new(filter, options)?.check(stream)
}

/// A filter that is read once, for many checks. Any number of threads may use it at once.
#[derive(Debug)]
pub struct Filter {
    handle: Box<Handle>,
}

// SAFETY: the library lets any number of threads read a filter's handle, and no call writes it before `drop`, which has it alone.
unsafe impl Send for Filter {}
unsafe impl Sync for Filter {}

impl Filter {
    /// Reads the text of a filter, as `ObjectInputFilter.Config.createFilter` takes it (docs/FILTERS.md).
    pub fn new(text: &str, options: &Options) -> Result<Filter, Error> {
        Filter::read_by(raw::serialcheck_filter_new, text.as_bytes(), options)
    }

    /// Reads the bytes of a filter's file: its lines are pieces, and those that begin with `#` are none.
    pub fn of_file(file: &[u8], options: &Options) -> Result<Filter, Error> {
        Filter::read_by(raw::serialcheck_filter_read, file, options)
    }

    fn read_by(call: raw::ReadFilter, text: &[u8], options: &Options) -> Result<Filter, Error> {
        let (mut answer, mut handle, modules) = (Answer::default(), Handle::none(), options.modules.as_bytes());
        // SAFETY: the bytes, the answer and the handle, which holds nothing, are there, and are different places.
        unsafe { call(at(text), text.len(), at(modules), modules.len(), options.flags(), &mut answer, &mut *handle) };
        settled(&answer, None)?;
        Ok(Filter { handle })
    }

    /// Checks a whole stream.
    pub fn check(&self, stream: &[u8]) -> Result<Counts, Error> {
        let mut answer = Answer::default();
        // SAFETY: the handle holds a filter; the bytes and the answer are there, and are different places.
        unsafe { raw::serialcheck_filter_check(&*self.handle, at(stream), stream.len(), &mut answer) };
        settled(&answer, class_of(&answer, stream))
    }

    /// Begins the check of one stream that comes in pieces. The filter may go before it.
    pub fn stream(&self) -> Result<Stream, Error> {
        let (mut answer, mut handle) = (Answer::default(), Handle::none());
        // SAFETY: the handle holds a filter; the answer and the new handle are there, and are different places.
        unsafe { raw::serialcheck_stream_new(&*self.handle, &mut answer, &mut *handle) };
        if answer.status == raw::MORE {
            Ok(Stream { handle, class: None })
        } else {
            Err(Error::NoMemory)
        }
    }
}

impl Drop for Filter {
    fn drop(&mut self) {
        // SAFETY: nobody else has the handle.
        unsafe { raw::serialcheck_filter_free(&mut *self.handle) }
    }
}

/// The check of one stream that comes in pieces of any sizes. Act on no byte before `end` has answered.
#[derive(Debug)]
pub struct Stream {
    handle: Box<Handle>,
    /// The one that was refused.
    class: Option<String>,
}

// SAFETY: any thread may use a stream's handle, one at a time; each call but the last has it by `&mut`.
unsafe impl Send for Stream {}
unsafe impl Sync for Stream {}

impl Stream {
    /// Takes the next bytes. An error means that a byte of these, or of some before them, decides, whatever comes next.
    pub fn feed(&mut self, piece: &[u8]) -> Result<(), Error> {
        let mut answer = Answer::default();
        // SAFETY: the handle holds a stream; the bytes and the answer are there, and are different places.
        unsafe { raw::serialcheck_stream_feed(&mut *self.handle, at(piece), piece.len(), &mut answer) };
        if answer.status == raw::MORE {
            Ok(())
        } else {
            // SAFETY: the handle holds a stream; the room and the answer are there, and are different places.
            self.class = named(&answer, |room, len, told| unsafe { raw::serialcheck_stream_class(&mut *self.handle, room, len, told) });
            settled(&answer, self.class.clone()).map(|_| ())
        }
    }

    /// Ends the stream: what a check of all its bytes at once answers.
    pub fn end(mut self) -> Result<Counts, Error> {
        let mut answer = Answer::default();
        // SAFETY: the handle holds a stream; the answer is there, and is another place.
        unsafe { raw::serialcheck_stream_end(&mut *self.handle, &mut answer) };
        settled(&answer, self.class.take())
    }
}

/// So `io::copy` feeds a reader; a refusal is an error of the kind `InvalidData`, which holds the `Error`.
impl io::Write for Stream {
    fn write(&mut self, piece: &[u8]) -> io::Result<usize> {
        self.feed(piece).map(|()| piece.len()).map_err(|fault| io::Error::new(io::ErrorKind::InvalidData, fault))
    }

    fn flush(&mut self) -> io::Result<()> {
        Ok(())
    }
}

impl Drop for Stream {
    fn drop(&mut self) {
        // SAFETY: nobody else has the handle. It holds nothing where the stream was ended.
        unsafe { raw::serialcheck_stream_free(&mut *self.handle) }
    }
}

/// A text of `show` or `list`: whole lines of printable ASCII.
#[derive(Clone, Debug, PartialEq, Eq)]
pub struct Text {
    pub lines: String,
    /// Whether the text goes on.
    pub is_cut: bool,
}

/// The text that a call writes, in a small room first.
fn text_of(most: usize, write: impl Fn(*mut u8, usize, *mut Answer) -> u32) -> Result<Text, Error> {
    let written = |len: usize| {
        let (mut room, mut answer) = (vec![0; len.max(1)], Answer::default());
        write(room.as_mut_ptr(), len, &mut answer);
        room.truncate(len);
        (room, answer)
    };
    let (mut room, mut answer) = written(most.min(FIRST_ROOM));
    if answer.status == raw::SMALL && room.len() < most {
        let whole = usize::try_from(answer.bytes).unwrap_or(0);
        (room, answer) = written(if whole == 0 { most } else { whole });
    }
    let is_cut = answer.status == raw::SMALL;
    if is_cut {
        room.truncate(room.iter().rposition(|it| *it == b'\n').map_or(0, |it| it + 1));
    } else {
        room.truncate(settled(&answer, None)?.bytes.try_into().unwrap_or(0));
    }
    Ok(Text { lines: String::from_utf8(room).unwrap_or_default(), is_cut })
}

/// The text of `serialcheck show`, of at most so many bytes (`MOST_TEXT`).
pub fn show(stream: &[u8], most: usize) -> Result<Text, Error> {
    // SAFETY: the bytes, the room and the answer are there, and are different places.
    text_of(most, |room, len, answer| unsafe { raw::serialcheck_show(at(stream), stream.len(), most, room, len, answer) })
}

/// The text of `serialcheck list`, of at most so many bytes: a line for each class name, with how often it occurs and what a filter
/// with a table of modules says of it, which refuses nothing here.
pub fn list(stream: &[u8], filter: &str, modules: &str, most: usize) -> Result<Text, Error> {
    // SAFETY: as in `show`.
    text_of(most, |room, len, answer| unsafe {
        raw::serialcheck_list(at(stream), stream.len(), at(filter.as_bytes()), filter.len(), at(modules.as_bytes()), modules.len(), most, room, len, answer)
    })
}

/// The version of the library.
pub fn version() -> String {
    // SAFETY: it takes nothing.
    let version = unsafe { raw::serialcheck_version() };
    format!("{}.{}.{}", version >> 16, version >> 8 & 255, version & 255)
}
