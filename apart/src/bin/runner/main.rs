//! Runs an image on the proved library and on the plain machine, and shows what came of it.

mod both;
mod climbs;
mod halts;
mod names;
mod options;
mod out;
mod sends;
// `compare` uses another part of it.
#[allow(dead_code)]
#[path = "../../sides.rs"]
mod sides;
mod trace;

use both::{Both, End};
use out::Out;
use std::ffi::{OsStr, OsString};
use std::io::{Read, Write};
use std::process::exit;

const HELP: &str = include_str!("help.txt");

fn wrong(what: &str) -> ! {
    let _ = writeln!(std::io::stderr(), "runner: {what}");
    exit(2)
}

fn read(name: &OsStr) -> Vec<u8> {
    let read = if name == "-" {
        let mut bytes = vec![];
        std::io::stdin().read_to_end(&mut bytes).map(|_| bytes)
    } else {
        std::fs::read(name)
    };
    read.unwrap_or_else(|error| wrong(&format!("{}: {error}", name.to_string_lossy())))
}

fn main() {
    let given: Vec<OsString> = std::env::args_os().skip(1).collect();
    let mut out = Out::new();
    if given.is_empty() {
        let _ = std::io::stderr().write_all(HELP.as_bytes());
        exit(2);
    }
    if given[0] == "-h" || given.iter().any(|word| word == "--help") {
        out.text(HELP);
        out.end();
        exit(0);
    }
    let options = options::options(given).unwrap_or_else(|what| wrong(&format!("{what} (--help says more)")));
    let image = read(&options.image);
    let names = options.names.as_ref().map_or(String::new(), |file| String::from_utf8_lossy(&read(file)).into_owned());
    let ended = Both::new(&options, &mut out).all(image, &names);
    // What was found comes before what is wrong.
    if let Some(error) = out.end() {
        wrong(&format!("standard output: {error}"));
    }
    match ended {
        Ok(status) => exit(status),
        Err(End::Differs) => exit(3),
        Err(End::Wrong(what)) => wrong(&what),
    }
}
