//! Says of each file whether it is handed on: `first FILE..`
use serialcheck::{check, Options};
use std::{env, fs};

const FILTER: &str = "maxbytes=1000000;maxdepth=20;java.util.*;java.lang.*;!*";

fn admitted(stream: &[u8]) -> bool {
    check(stream, FILTER, &Options { anywhere: true, ..Options::default() }).is_ok()
}

fn main() {
    for file in env::args().skip(1) {
        let is_admitted = fs::read(file).map_or(false, |stream| admitted(&stream));
        println!("{}", if is_admitted { "handed on" } else { "refused" });
    }
}
