//! The answers of the crate beside those of the program, which PROGRAM names, or that of the clone.
use serialcheck::{check, list, show, version, Error, Filter, Options, Stream, MOST_TEXT};
use std::path::{Path, PathBuf};
use std::{env, fs, io, process::Command, thread};

fn top() -> PathBuf {
    Path::new(env!("CARGO_MANIFEST_DIR")).join("../..")
}

/// What the program prints, but that a filter has no pattern.
fn printed(words: &[&str], file: &Path) -> String {
    let program = env::var_os("PROGRAM").map_or_else(|| top().join("prebuilt/serialcheck"), PathBuf::from);
    let done = Command::new(program).args(words).arg(file).output().unwrap();
    let said = [done.stderr, done.stdout].concat();
    String::from_utf8(said).unwrap().replace("filter has no pattern\n", "")
}

/// All streams of the repository's tests.
fn streams() -> Vec<(PathBuf, Vec<u8>)> {
    let mut folders = vec![top().join("tests/streams"), top().join("tests/evasions")];
    let mut found = Vec::new();
    while let Some(folder) = folders.pop() {
        for entry in fs::read_dir(folder).unwrap() {
            let path = entry.unwrap().path();
            if path.is_dir() {
                folders.push(path);
            } else if path.extension().map_or(false, |it| it == "ser") {
                let bytes = fs::read(&path).unwrap();
                found.push((path, bytes));
            }
        }
    }
    assert!(found.len() > 100);
    found
}

fn told<T: ToString>(answer: Result<T, Error>) -> String {
    answer.map_or_else(|fault| fault.to_string(), |it| it.to_string())
}

fn in_pieces(mut stream: Stream, bytes: &[u8]) -> String {
    let decided = bytes.chunks(7).find_map(|piece| stream.feed(piece).err());
    let end = told(stream.end());
    match decided {
        Some(fault) if fault.to_string() != end => format!("{fault}, and then {end}"),
        _ => end,
    }
}

/// The class that a stream which comes by 7 bytes was refused for, behind a space; the end names the same as the piece.
fn class_in_pieces(mut stream: Stream, bytes: &[u8]) -> String {
    let named = |fault: &Error| match fault {
        Error::Refused(why) => why.class.as_ref().map_or(String::new(), |it| format!(" {it}")),
        other => panic!("{other:?}"),
    };
    let decided = bytes.chunks(7).find_map(|piece| stream.feed(piece).err());
    match (decided, stream.end()) {
        (None, Ok(_)) => String::new(),
        (Some(fault), Err(end)) => {
            assert_eq!(named(&fault), named(&end));
            named(&end)
        }
        (None, Err(end)) => named(&end),
        (Some(fault), Ok(_)) => panic!("{fault:?}, and then a yes"),
    }
}

#[test]
fn answers_are_those_of_the_program() {
    let strict = Options { strict: true, ..Options::default() };
    let anywhere = Options { anywhere: true, ..Options::default() };
    let rows: [(&str, &[&str], Options); 4] = [
        ("", &[], Options::default()),
        ("maxdepth=20;java.util.*;java.lang.*;!*", &[], Options::default()),
        ("java.util.*;java.lang.*", &["--strict"], strict),
        ("java.util.*;!*", &["--anywhere"], anywhere),
    ];
    for (text, words, options) in rows {
        let filter = Filter::new(text, &options).unwrap();
        let asked = format!("--filter={text}");
        for (file, bytes) in streams() {
            let scanned = printed(&[&["scan", &asked], words].concat(), &file);
            let wanted = scanned.lines().find_map(|it| it.strip_prefix(&format!("{}: ", file.display()))).unwrap();
            let answer = filter.check(&bytes);
            let class = match &answer {
                Err(Error::Refused(why)) => why.class.as_ref().map_or(String::new(), |it| format!(" {it}")),
                _ => String::new(),
            };
            let line = told(answer);
            assert_eq!(wanted, format!("{line}{class}"), "{}", file.display());
            assert_eq!(line, told(check(&bytes, text, &options)), "{}, in one call", file.display());
            assert_eq!(line, in_pieces(filter.stream().unwrap(), &bytes), "{}, in pieces", file.display());
            assert_eq!(class, class_in_pieces(filter.stream().unwrap(), &bytes), "{}, its class in pieces", file.display());
        }
    }
}

#[test]
fn texts_are_those_of_the_program() {
    for (file, bytes) in streams() {
        let shown = show(&bytes, 1 << 26).map_or_else(|why| format!("{why}\n"), |it| it.lines);
        assert_eq!(printed(&["show"], &file), shown, "{}", file.display());
        let listed = list(&bytes, "java.util.*;!*", "", MOST_TEXT).map_or_else(|why| format!("{why}\n"), |it| it.lines);
        assert_eq!(printed(&["list", "--filter=java.util.*;!*"], &file), listed, "{}", file.display());
    }
}

#[test]
fn a_text_has_the_whole_lines_that_there_is_room_for() {
    let nulls = [&[0xac, 0xed, 0, 5][..], &[0x70; 30_000]].concat();
    let whole = "stream version 5\n".to_string() + &"null\n".repeat(30_000);
    for most in [0, 16, 17, 65_535, 65_536, 65_537, 100_003, whole.len() - 1, whole.len(), 1 << 30] {
        let text = show(&nulls, most).unwrap();
        let wanted = if most >= whole.len() { &whole } else { &whole[..whole[..most].rfind('\n').map_or(0, |it| it + 1)] };
        assert!(text.lines == wanted && text.is_cut == (most < whole.len()), "at most {most} bytes");
    }
}

#[test]
fn a_refusal_says_why() {
    let bytes = fs::read(top().join("tests/streams/array-list.ser")).unwrap();
    match check(&bytes, "!java.**", &Options::default()) {
        Err(Error::Refused(why)) => {
            assert_eq!(("ClassRejected", "A pattern of the filter rejects this class.", 6, 27, 4), (&*why.reason, &*why.meaning, why.from, why.to, why.whole));
            assert_eq!(Some("\"java.util.ArrayList\""), why.class.as_deref());
        }
        other => panic!("{other:?}"),
    }
    let counts = check(&bytes, "", &Options::default()).unwrap();
    assert_eq!((62, 1, 3, 2, 3), (counts.bytes, counts.contents, counts.refs, counts.depth, counts.handles));
}

#[test]
fn a_fault_is_told() {
    let plain = Options::default();
    let rows = [
        ("filter pattern 1: BadLimit", Filter::new("a;maxdepth=x", &plain)),
        ("modules line 2: BadLine", Filter::new("a", &Options { modules: "a=b\n\nc", ..Options::default() })),
        ("filter has no pattern", Filter::new("maxdepth=1", &Options { need_pattern: true, ..Options::default() })),
        ("filter line 2: WhiteSpace", Filter::of_file(b"# mine\njava.util.*\n b\n", &plain)),
    ];
    for (wanted, filter) in rows {
        assert_eq!(wanted, filter.unwrap_err().to_string());
    }
    match list(&[], "maxdept=1", "", 9) {
        Err(Error::Misuse(why)) => assert_eq!(("UnknownLimit", 0), (&*why.cause, why.at)),
        other => panic!("{other:?}"),
    }
    assert_eq!(printed(&[], Path::new("--version")), format!("serialcheck {}\n", version()));
    assert_eq!(env!("CARGO_PKG_VERSION"), version());
}

#[test]
fn a_stream_outlives_its_filter_and_takes_what_a_reader_has() {
    let bytes = fs::read(top().join("tests/streams/array-list.ser")).unwrap();
    let begun = |text: &str| Filter::new(text, &Options::default()).unwrap().stream().unwrap();
    let mut stream = begun("java.**;!*");
    assert_eq!(62, io::copy(&mut &bytes[..], &mut stream).unwrap());
    assert_eq!("yes 62 bytes, 1 contents, 3 refs, depth 2", told(stream.end()));
    let mut stream = begun("!java.**");
    let fault = io::copy(&mut &bytes[..], &mut stream).unwrap_err();
    assert_eq!((io::ErrorKind::InvalidData, "no at 6 to 27: ClassRejected"), (fault.kind(), &*fault.to_string()));
}

#[test]
fn threads_share_a_filter() {
    let filter = Filter::new("java.util.*;java.lang.*;!*", &Options { anywhere: true, ..Options::default() }).unwrap();
    let all = streams();
    let wanted: Vec<_> = all.iter().map(|(_, bytes)| told(filter.check(bytes))).collect();
    thread::scope(|scope| {
        for _ in 0..8 {
            scope.spawn(|| assert_eq!(wanted, all.iter().map(|(_, bytes)| told(filter.check(bytes))).collect::<Vec<_>>()));
        }
    });
}
