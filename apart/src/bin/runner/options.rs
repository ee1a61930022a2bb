//! The arguments.

use std::ffi::{OsStr, OsString};

/// Longer buffers are of no use, and could not be had.
const MOST_WORDS: u32 = 1_000_000;
const MOST_RUNS: u32 = 10_000;
/// Sends that climb, where it is not said how many are listed.
const CLIMBS: usize = 10;

pub enum Message {
    Start(Vec<String>),
    Send { receiver: String, selector: String, arguments: Vec<String> },
}

pub struct Options {
    pub image: OsString,
    pub messages: Vec<Message>,
    pub grant: u32,
    pub runs: u32,
    /// Of contents, bodies and stack.
    pub lengths: [usize; 3],
    pub trace: bool,
    /// How many of the sends that climb are listed; none where it was not asked.
    pub climbs: Option<usize>,
    /// None where it was not said.
    pub frames: Option<usize>,
    pub show: Vec<String>,
    pub names: Option<OsString>,
    pub save: Option<OsString>,
}

fn begins_option(word: &OsStr) -> bool {
    word.to_string_lossy().starts_with("--")
}

fn number(option: &str, text: &str, most: u32) -> Result<u32, String> {
    let number = if text.bytes().all(|byte| byte.is_ascii_digit()) { text.parse().ok() } else { None };
    number.filter(|number| *number <= most).ok_or(format!("{option} takes a number from 0 to {most}, not '{text}'"))
}

/// The options, or what is wrong with the arguments.
pub fn options(given: Vec<OsString>) -> Result<Options, String> {
    let mut options = Options {
        image: OsString::new(),
        messages: vec![],
        grant: 1_000,
        runs: 1,
        lengths: [8_188, 24_000, 1_024],
        trace: false,
        climbs: None,
        frames: None,
        show: vec![],
        names: None,
        save: None,
    };
    let (mut image, mut given) = (None, given.into_iter().peekable());
    while let Some(word) = given.next() {
        if !begins_option(&word) {
            if image.is_some() {
                return Err(format!("'{}': only one image is run", word.to_string_lossy()));
            }
            image = Some(word);
            continue;
        }
        let option = word.to_string_lossy().into_owned();
        let option = option.as_str();
        if option == "--start" || option == "--send" {
            let mut words = vec![];
            while let Some(word) = given.next_if(|word| !begins_option(word)) {
                words.push(word.to_string_lossy().into_owned());
            }
            options.messages.push(message(option, words)?);
            continue;
        }
        if option == "--trace" {
            options.trace = true;
            continue;
        }
        if option == "--climbs" {
            let value = given.next_if(|word| !begins_option(word)).map(|word| word.to_string_lossy().into_owned());
            options.climbs = Some(match value.as_deref() {
                None => CLIMBS,
                Some("all") => usize::MAX,
                Some(text) => number(option, text, u32::MAX).map_err(|what| format!("{what}, or all; the image comes before it"))? as usize,
            });
            continue;
        }
        const WITH_VALUE: [&str; 9] = ["--grant", "--runs", "--stack", "--contents", "--bodies", "--frames", "--show", "--names", "--save"];
        if !WITH_VALUE.contains(&option) {
            return Err(format!("there is no option '{option}'"));
        }
        let value = given.next().ok_or(format!("{option} needs a value"))?;
        let text = value.to_string_lossy().into_owned();
        match option {
            "--grant" => options.grant = number(option, &text, u32::MAX)?,
            "--runs" if text == "all" => options.runs = MOST_RUNS,
            "--runs" => options.runs = number(option, &text, u32::MAX)?,
            "--contents" => options.lengths[0] = number(option, &text, MOST_WORDS)? as usize,
            "--bodies" => options.lengths[1] = number(option, &text, MOST_WORDS)? as usize,
            "--stack" => options.lengths[2] = number(option, &text, MOST_WORDS)? as usize,
            "--frames" if text == "all" => options.frames = Some(usize::MAX),
            "--frames" => options.frames = Some(number(option, &text, u32::MAX)? as usize),
            "--show" => options.show.push(text),
            "--names" => options.names = Some(value),
            _ => options.save = Some(value),
        }
    }
    options.image = image.ok_or("no image is named; it comes before --start and --send")?;
    if options.messages.is_empty() {
        options.messages.push(Message::Start(vec![]));
    }
    Ok(options)
}

fn message(option: &str, mut words: Vec<String>) -> Result<Message, String> {
    if option == "--start" {
        return Ok(Message::Start(words));
    }
    if words.len() < 2 {
        return Err("--send needs a receiver and a selector".to_string());
    }
    let arguments = words.split_off(2);
    let selector = words.pop().unwrap_or_default();
    let receiver = words.pop().unwrap_or_default();
    Ok(Message::Send { receiver, selector, arguments })
}
