//! Says what an image holds, or why load refuses it and where.

mod hints;
mod report;
mod selectors;

use std::io::{Read, Write};

const HELP: &str = "\
usage: explain FILE...      (- is standard input)

For each image: its classes, methods, other objects and start words; or, where load refuses it, the number, the rule, the first place that breaks it and
what was found there, then up to ten other places that break rules of this number. Selectors with equal bytes get a warning, since lookup compares objects;
words that look byte-swapped a hint. Code is in the words of examples/assemble, with jump targets as positions and the depth of the operands at each reached position.
The line of a chain ends with the number of its classes, each of which has a dictionary, and of the pairs in all of these: no lookup from the class reads more.
An object whose elements come behind named fields is shown with both, the elements counted as at: counts them.
From edition 2 on object 6 is the selector that is sent with a message where a send fails; a line has the classes with a method under it.
Nothing in an image has a name but selectors, so a class is known by its object number.
The status is 0 if all images are right, 1 if one is refused, 2 if one cannot be read.
";

fn read(name: &str) -> std::io::Result<Vec<u8>> {
    if name != "-" {
        return std::fs::read(name);
    }
    let mut bytes = vec![];
    std::io::stdin().read_to_end(&mut bytes)?;
    Ok(bytes)
}

/// A reader that has seen enough closes the pipe; that is no error.
fn print(text: &str) {
    let _ = std::io::stdout().write_all(text.as_bytes());
}

fn main() {
    let names: Vec<String> = std::env::args_os().skip(1).map(|name| name.to_string_lossy().into_owned()).collect();
    if names.iter().any(|name| name == "--help" || name == "-h") {
        return print(HELP);
    }
    if names.is_empty() {
        let _ = std::io::stderr().write_all(HELP.as_bytes());
        std::process::exit(2);
    }
    let mut status = 0;
    for (index, name) in names.iter().enumerate() {
        match read(name) {
            Ok(bytes) => {
                let (number, text) = report::explain(&bytes);
                status = status.max((number != 0) as i32);
                let parted = if index > 0 { "\n" } else { "" };
                print(&format!("{parted}{name}: {text}"));
            }
            Err(error) => {
                status = 2;
                let _ = writeln!(std::io::stderr(), "explain: {name}: {error}");
            }
        }
    }
    std::process::exit(status);
}

#[cfg(test)]
mod tests {
    use crate::report;
    use apart::calls::{self, Lent, CACHE_WORDS};
    use apart::{image::Image, listing, rules};

    const ADDER: &[u8] = include_bytes!("../../../../examples/adder.image");

    struct Random(u64);

    impl Random {
        fn below(&mut self, limit: usize) -> usize {
            self.0 ^= self.0 << 13;
            self.0 ^= self.0 >> 7;
            self.0 ^= self.0 << 17;
            (self.0 >> 11) as usize % limit
        }
    }

    /// The images that are damaged: the adder, and every 10th that EXPLAIN_IMAGES names.
    fn seeds() -> Vec<Vec<u8>> {
        let mut seeds = vec![ADDER.to_vec()];
        if let Ok(directory) = std::env::var("EXPLAIN_IMAGES") {
            let mut paths: Vec<_> = std::fs::read_dir(directory).unwrap().map(|entry| entry.unwrap().path()).collect();
            paths.retain(|path| path.extension().map_or(false, |extension| extension == "image"));
            paths.sort();
            seeds.extend(paths.iter().step_by(10).map(|path| std::fs::read(path).unwrap()).filter(|bytes| bytes.len() < 4_000));
        }
        seeds
    }

    /// The number that the machine's load gives, 0 where it accepts.
    fn loaded(bytes: &[u8]) -> u32 {
        let (mut contents, mut bodies, mut cache) = (vec![0; 4 * 65_535], vec![0; 65_535], vec![0; CACHE_WORDS]);
        let mut lent = Lent { contents: &mut contents, bodies: &mut bodies, stack: &mut [], cache: &mut cache, registers: &mut [0; 8] };
        calls::load(bytes, &mut lent).map_or_else(|refusal| refusal.number, |_| 0)
    }

    /// The number, which is load's, and the text, which has it too.
    fn explained(bytes: &[u8]) -> (u32, String) {
        let (number, text) = report::explain(bytes);
        assert_eq!(number, loaded(bytes));
        assert!(text.starts_with(&if number == 0 { "right: ".to_string() } else { format!("refused {number}\n") }));
        (number, text)
    }

    #[test]
    fn any_bytes_get_an_answer() {
        let (seeds, mut random, mut numbers) = (seeds(), Random(80), [0; 15]);
        for round in 0..20_000 {
            let mut bytes = seeds[round % seeds.len()].clone();
            for _ in 0..random.below(4) + 1 {
                if bytes.is_empty() {
                    break;
                }
                let at = if random.below(8) == 0 { random.below(bytes.len()) } else { bytes.len() - 1 - random.below(bytes.len()) / 2 };
                match random.below(3) {
                    0 => bytes[at] = random.below(256) as u8,
                    1 => bytes[at] ^= 1 << random.below(8),
                    _ => bytes[at] = bytes[random.below(bytes.len())],
                }
            }
            if random.below(50) == 0 {
                bytes.truncate(random.below(bytes.len() + 1));
            }
            numbers[explained(&bytes).0 as usize] += 1;
        }
        for _ in 0..2_000 {
            let n = random.below(12);
            let mut bytes = vec![0, 1 + random.below(2) as u8, 0, n as u8, 0, random.below(60) as u8];
            let rest = 4 + 8 * n + 2 * bytes[5] as usize;
            bytes.extend((0..rest).map(|_| if random.below(2) == 0 { 0 } else { random.below(256) as u8 }));
            explained(&bytes);
        }
        println!("by number, 0 for right: {numbers:?}");
    }

    #[test]
    fn walks_are_depth_tables() {
        for bytes in seeds() {
            let header = match rules::header(&bytes) {
                Ok(header) => header,
                Err(_) => continue,
            };
            let image = Image::new(header.edition, header.n, &bytes[10..]);
            let world = match report::judge(&header, &image) {
                Ok(world) => world,
                Err(_) => continue,
            };
            for method in world.methods.iter().flatten() {
                let (table, reached) = match (&method.table, listing::walk(&method.code)) {
                    (Some(table), reached) => (table, reached),
                    _ => continue,
                };
                for (position, depth) in table.iter().enumerate() {
                    let walked = reached.get(&(position as i64)).map(|here| here.depths.clone());
                    assert_eq!(walked, depth.map(|depth| vec![depth]));
                }
            }
        }
    }
}
