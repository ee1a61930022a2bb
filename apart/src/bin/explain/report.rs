//! What is said of an image.

use crate::{hints, selectors};
use apart::code::decode;
use apart::image::{Image, FORMS, KINDS};
use apart::listing::{listing, sent, walk};
use apart::objects::*;
use apart::refusal::{Faults, Place, Refusal};
use apart::rules::{self, Header, World};
use apart::words::*;

/// By their numbers, in load's order.
const RULES: [(u32, &str); 9] = [
    (1, "the length is 10 + 8N + 2B bytes"),
    (2, "the edition is 1 or 2, N is 5 to 2047 (from 8 in edition 2), B is at most 24000"),
    (3, "the lent buffers are long enough"),
    (4, "the layout: kinds are 0 to 4, each body starts where the one before ends, a class has 4 words, padding is zero, the last body ends at B"),
    (5, "the classes of entries and the words of fields, classes and lists are valid: odd, or twice the number of an object"),
    (14, "the chain of each class, itself counted, has at most 24 classes"),
    (6, "entries' classes, class bodies, dictionaries and objects 1 to 5; in edition 2 also objects 6 (bytes), 7 (a class of form 0 with F 2) and 8 (a class of form 1 with F 0)"),
    (7, "methods: header, home, literals, counts of arguments (one under object 6 in edition 2), and code with a depth table"),
    (8, "the start receiver is a valid word, the start selector has kind 1"),
];

/// How many classes are said that have a method under object 6.
const MOST_UNDER_6: usize = 8;
/// How many faults are said after the first.
const MOST_OTHERS: usize = 10;
/// How many classes of a chain are said: where it is too long, and in the line of another fault.
const CHAIN: usize = 32;
const OTHER_CHAIN: usize = 6;

/// The number that load gives, 0 where the image is right, and the text.
pub fn explain(bytes: &[u8]) -> (u32, String) {
    let header = match rules::header(bytes) {
        Ok(header) => header,
        Err(refusal) => return (refusal.number, refused(&refusal.into(), bytes, &Image::default())),
    };
    let image = Image::new(header.edition, header.n, &bytes[10..]);
    match judge(&header, &image) {
        Ok(world) => (0, right(&header, &image, &world)),
        Err(faults) => {
            let mut text = refused(&faults, bytes, &image);
            // Where rule 4 does not hold it is not known where bodies are.
            if ![1, 2, 3, 4].contains(&faults.list[0].number) {
                text += &selectors::warnings(&header, &image);
            }
            (faults.list[0].number, text)
        }
    }
}

pub fn judge(header: &Header, image: &Image) -> Result<World, Faults> {
    rules::ranges(header.edition, header.n, header.b)?;
    let world = rules::judge(header.edition, &image.contents, &image.bodies)?;
    rules::start_words(&world.objects, header.receiver, header.selector)?;
    Ok(world)
}

/// The first fault in full, then a line for each of the others.
fn refused(faults: &Faults, bytes: &[u8], image: &Image) -> String {
    let first = &faults.list[0];
    let rule = RULES.iter().find(|(number, _)| *number == first.number).map_or("", |(_, rule)| rule);
    let mut out = format!("refused {}\nrule: {rule}\nbroken: {}\n", first.number, first.why);
    if first.place != Place::Image {
        out += &format!("at: {}\n", at(first, image));
    }
    out += &format!("found: {}\n", found(first, bytes, image, CHAIN));
    out += &match first.place {
        Place::Image if first.number == 1 => String::new(),
        Place::Image => format!("object: {}\n", image.shown(image.contents.len() / 4)),
        Place::Entry(number, _) => format!("object: {}\n", image.shown(number)),
        Place::Body(number, index) if image.of_kind(number, LIST) && first.number == 7 => {
            format!("object: {}\n{}", image.shown(number), under(image, image.word(number, index & !1).unwrap_or(0)))
        }
        Place::Body(number, _) => format!("object: {}\n", image.shown(number)),
        Place::Code(number, position) => code_refused(image, number, position),
        _ => String::new(),
    };
    if let Some(hint) = hints::byte_order(first, bytes, image) {
        out += &format!("hint: {hint}\n");
    }
    for other in faults.list.iter().skip(1).take(MOST_OTHERS) {
        out += &format!("also: {}: {}; found {}\n", at(other, image), other.why, found(other, bytes, image, OTHER_CHAIN));
    }
    if faults.list.len() > 1 + MOST_OTHERS {
        out += &format!("and {} more\n", faults.list.len() - 1 - MOST_OTHERS);
    }
    out
}

/// The place of a fault.
fn at(fault: &Refusal, image: &Image) -> String {
    match fault.place {
        Place::Image => "the end of the bodies".to_string(),
        Place::HeaderWord(index) => format!("header word {index} ({})", ["edition", "N", "B", "start receiver", "start selector"][index]),
        Place::Entry(number, _) if fault.why == rules::DOES_NOT_FIT => format!("kind and size of object {number}"),
        Place::Entry(number, index) => format!("{} of object {number}", ["class", "kind", "start", "size"][index]),
        Place::Body(number, index) => format!("body word {index} of object {number} ({})", image.role(number, index)),
        Place::Code(number, position) => format!("code position {position} of method {number} ({})", image.method_name(number)),
        place => place.to_string(),
    }
}

/// What stands there; of a chain so many classes.
fn found(fault: &Refusal, bytes: &[u8], image: &Image, most: usize) -> String {
    let header = |index: usize| bytes.get(2 * index..2 * index + 2).map_or(0, |pair| u16::from_be_bytes([pair[0], pair[1]]));
    let (n, b) = (header(1) as usize, header(2) as usize);
    match fault.place {
        Place::Image if bytes.len() < 10 => format!("{} bytes", bytes.len()),
        Place::Image if fault.number == 1 => format!("{} bytes; N {n} and B {b} make {}", bytes.len(), 10 + 8 * n + 2 * b),
        Place::Image => format!("the last body ends at {}, B is {b}", body_end(image, n)),
        Place::HeaderWord(index) if index < 3 => header(index).to_string(),
        Place::HeaderWord(index) => image.found(header(index)),
        Place::Entry(number, index) => {
            let entry = image.entry(number).unwrap_or([0; 4]);
            let (word, kind) = (entry[index], KINDS.get(entry[1] as usize).unwrap_or(&"no kind"));
            match index {
                0 => image.found(word),
                1 => format!("{word}, {kind}"),
                2 => format!("{word}; the body before ends at {}", body_end(image, number - 1)),
                _ if fault.why == rules::DOES_NOT_FIT => format!("kind {} ({kind}), size {word}; {}", entry[1], instances(image, entry[0])),
                _ => format!("{word}, of kind {} ({kind})", entry[1]),
            }
        }
        Place::Body(number, _) if fault.number == 14 => image.chain_shown(number, most),
        Place::Body(number, index) => {
            let word = image.word(number, index).unwrap_or(0);
            if image.of_kind(number, METHOD) && index == 0 {
                let (flag, temporaries, large, literals, tag) = (word >> 13, word >> 8 & 31, word >> 7 & 1, word >> 1 & 63, word & 1);
                return format!("word {word}: flag {flag}, T {temporaries}, large {large}, L {literals}, tag {tag}");
            }
            // A word with padding is two bytes.
            if fault.number == 4 {
                return format!("bytes {} {}", word >> 8, word & 255);
            }
            image.found(word)
        }
        Place::Code(number, position) => reached(image, number, position),
        place => place.to_string(),
    }
}

/// A class, and what its instances have to be.
fn instances(image: &Image, class: u16) -> String {
    let number = class as usize / 2;
    let (fields, form) = (image.word(number, 2).unwrap_or(0), image.word(number, 3).unwrap_or(0));
    let words = if integer(fields) == 1 { "1 word".to_string() } else { format!("{} words", integer(fields)) };
    let asked = match integer(form) {
        0 => format!("kind 0 (fields) with exactly {words}"),
        1 => format!("kind 0 (fields) with at least {words}"),
        2 => "kind 1 (bytes)".to_string(),
        _ => "kind 2, 3 or 4 (class, list or method)".to_string(),
    };
    format!("class {number} has form {} and F {}: {asked}", integer(form), integer(fields))
}

/// The bytecode at a position, its depths and where it is reached from.
fn reached(image: &Image, number: usize, position: usize) -> String {
    let code = image.method(number).map_or(vec![], |method| method.code);
    let mut out = code.get(position).map_or("no bytecode".to_string(), |byte| format!("bytecode {byte}"));
    if let Some(here) = walk(&code).get(&(position as i64)) {
        let list = |numbers: &[usize]| numbers.iter().map(usize::to_string).collect::<Vec<_>>().join(" and ");
        out += &format!(", depth {}", list(&here.depths));
        if !here.from.is_empty() {
            out += &format!(", reached from {}", list(&here.from));
        }
    }
    out
}

/// Where a body ends, as its entry tells; 0 before the first.
fn body_end(image: &Image, number: usize) -> usize {
    image.entry(number).map_or(0, |entry| entry[2] as usize + image.length(number))
}

/// The methods under a selector, with what they take.
fn under(image: &Image, selector: u16) -> String {
    let mut found: Vec<(usize, usize)> = vec![];
    for (method, places) in &image.places {
        found.extend(places.iter().filter(|(_, under)| pointer(*under) == selector).map(|(class, _)| (*class, *method)));
    }
    found.sort();
    let mut out = String::new();
    for (class, method) in found {
        let arguments = image.method(method).map_or(0, |method| method.arguments);
        out += &format!("under {}: method {method} of class {class} takes {arguments}\n", image.name(selector));
    }
    out
}

/// The method's head, what it sends there, and the lines around.
fn code_refused(image: &Image, number: usize, position: usize) -> String {
    let method = match image.method(number) {
        Some(method) => method,
        None => return String::new(),
    };
    let mut out = format!("object: {}\n", method_head(image, &method));
    if let Some((selector, count)) = decode(&method.code, position).and_then(|(instruction, _)| sent(image, &method, instruction)) {
        out += &format!("sent: {} with {count}\n{}", image.name(selector), under(image, selector));
    }
    let mut lines = listing(image, &method);
    let at = lines.iter().position(|(start, _)| *start >= position).unwrap_or(lines.len());
    if at == lines.len() {
        lines.push((position, format!("{position:>5}  outside: the code has {} bytes", method.code.len())));
    }
    for (index, (_, line)) in lines.iter().enumerate().take(at + 4).skip(at.saturating_sub(4)) {
        out += &format!("{}{line}\n", if index == at { ">" } else { " " });
    }
    out
}

fn method_head(image: &Image, method: &Method) -> String {
    let kind = match method.flag {
        5 => "flag 5 (answers self)".to_string(),
        6 => format!("flag 6 (answers field {})", method.temporaries),
        7 => format!("flag 7 (primitive {})", method.primitive),
        flag => format!("flag {flag}"),
    };
    let temporaries = if method.flag == 6 { 0 } else { method.temporaries.saturating_sub(method.arguments) };
    let (arguments, room, home) = (method.arguments, method.room(), image.name(method.home));
    let (literals, code) = (method.literals.len(), method.code.len());
    format!("{kind}, arguments {arguments}, other temporaries {temporaries}, frame {room} words, home {home}, literals {literals}, code {code} bytes")
}

fn right(header: &Header, image: &Image, world: &World) -> String {
    let mut out = format!("right: edition {}, objects {}, body words {}\n", header.edition, header.n, header.b);
    out += &format!("start: {} is sent {}\n", image.name(header.receiver), image.name(header.selector));
    let found = world.objects.lookup(world.objects.class_of(header.receiver), header.selector);
    out += &match found.map(|found| (found.method, world.method(found.method).arguments)) {
        None => "begin without arguments: refused 9, no method is found\n".to_string(),
        Some((word, 0)) => format!("begin without arguments: {}\n", image.name(word)),
        Some((word, count)) => format!("begin without arguments: refused 10, {} takes {count}\n", image.name(word)),
    };
    if header.edition >= WITH_MESSAGES {
        out += &failed_sends(image);
    }
    let length = |number: &usize| world.objects.chain(pointer(*number)).take(MOST_CHAIN).count();
    // Of several the first.
    if let Some(longest) = (1..=header.n).rev().max_by_key(length) {
        out += &format!("longest chain: {}, of at most {MOST_CHAIN}\n", image.chain_shown(longest, MOST_CHAIN));
    }
    let classes = (1..=header.n).filter(|number| image.of_kind(*number, CLASS));
    if let Some(most) = classes.rev().max_by_key(|number| world.objects.pairs_along(pointer(*number))) {
        out += &format!("most pairs along a chain: {}, that of {}\n", world.objects.pairs_along(pointer(most)), image.object_name(most));
    }
    out += &selectors::warnings(header, image);
    for number in 1..=header.n {
        out += &match image.entry(number).map_or(FIELDS, |entry| entry[1]) {
            CLASS => class_shown(image, world, number),
            METHOD => method_shown(image, world, number),
            _ => format!("\n{}\n", image.shown(number)),
        };
    }
    out
}

/// The classes that have a method under object 6, which gets the message of a failed send.
fn failed_sends(image: &Image) -> String {
    let mut classes: Vec<usize> =
        image.places.values().flatten().filter(|(_, selector)| pointer(*selector) == DOES_NOT_UNDERSTAND).map(|place| place.0).collect();
    classes.sort_unstable();
    let names: Vec<String> = classes.iter().take(MOST_UNDER_6).map(|class| image.object_name(*class)).collect();
    let more = if classes.len() > names.len() { format!(", and {} more", classes.len() - names.len()) } else { String::new() };
    let by = if classes.is_empty() { "no class, so they halt".to_string() } else { names.join(", ") + &more };
    format!("failed sends: {} is sent with a message; a method under it has {by}\n", image.name(DOES_NOT_UNDERSTAND))
}

fn class_shown(image: &Image, world: &World, number: usize) -> String {
    let class = world.objects.class(pointer(number)).unwrap();
    let form = FORMS[class.form as usize];
    let (above, of) = (image.name(class.superclass), image.name(world.objects.class_of(pointer(number))));
    let name = image.object_name(number);
    let mut out = format!("\n{name}: superclass {above}, fields {}, form {} ({form}), itself of {of}\n", class.fields, class.form);
    let pairs = world.objects.get(class.dictionary).unwrap().body.chunks(2);
    let names: Vec<String> = pairs.map(|pair| image.text(pair[0] as usize / 2)).collect();
    out += &format!("  understands: {}", if names.is_empty() { "nothing of its own".to_string() } else { names.join(" ") });
    out += &if class.superclass == NIL { "\n".to_string() } else { format!(", and what {above} understands\n") };
    let pairs = world.objects.pairs_along(pointer(number));
    out + &format!("  chain: {}, {pairs} pair{}\n", image.chain_shown(number, MOST_CHAIN), if pairs == 1 { "" } else { "s" })
}

fn method_shown(image: &Image, world: &World, number: usize) -> String {
    let method = world.method(pointer(number));
    let mut out = format!("\nmethod {number} ({}): {}\n", image.method_name(number), method_head(image, method));
    for (index, literal) in method.literals.iter().enumerate() {
        let extension = method.flag == 7 && index + 2 == method.literals.len();
        out += &format!("  literal {index}: {}{}\n", image.name(*literal), if extension { " (arguments and primitive)" } else { "" });
    }
    for (_, line) in listing(image, method) {
        out += &format!(" {line}\n");
    }
    out
}
