//! Cases: random lists of calls, made on both machines and compared after each.

use crate::climbs::{self, Climbing};
use crate::damage::*;
use crate::draft::*;
use crate::elements;
use crate::generate;
use crate::laws::*;
use crate::lookups;
use crate::messages;
use crate::random::Random;
use crate::report::Report;
use crate::sides::*;
use apart::calls::{CACHE_WORDS, EDITION, PHASE, TOP};
use apart::machine::{MOST_STACK, RUNNING};
use apart::objects::*;
use apart::play::ANSWER_WORDS;
use apart::rules::{judge, World};
use apart::words::*;

/// Words of a frame.
const SMALL: usize = 18;
const LARGE: usize = 38;

/// Both machines with the calls made so far.
pub struct Pair<'a> {
    pub first: Buffers,
    ours: Buffers,
    theirs: Buffers,
    pub calls: Vec<Call>,
    report: &'a mut Report,
}

type Compared<T> = Result<T, String>;

impl<'a> Pair<'a> {
    pub fn new(buffers: Buffers, report: &'a mut Report) -> Pair<'a> {
        Pair { first: buffers.clone(), ours: buffers.clone(), theirs: buffers, calls: vec![], report }
    }

    /// Makes a call on both; what it gave, or what differs.
    pub fn make(&mut self, call: Call) -> Compared<Outcome> {
        self.calls.push(call);
        let call = self.calls.last().unwrap();
        let before = matches!(call, Call::Run(_) | Call::Play { .. }).then(|| self.theirs.clone());
        let ours = plain(call, &mut self.ours, &mut self.report.counts);
        let theirs = library(call, &mut self.theirs);
        self.report.note(call, &ours, &self.ours);
        if let Call::Lookups(all) = call {
            if let Some(what) = lookups::difference(all, &mut self.ours, &self.theirs, &mut self.report.counts) {
                return Err(what);
            }
        }
        if let Some(what) = difference(&ours, &theirs, &self.ours, &self.theirs) {
            return Err(what);
        }
        let before = match before {
            Some(before) => before,
            None => return Ok(ours),
        };
        let counts = &mut self.report.counts;
        let others = [
            (library_singly(call, &before), "play agrees, but not the library's single calls"),
            (library_cut(call, &before, counts), "the run agrees, but not in parts"),
            (library_tight(call, &ours, &before), "the run agrees, but not on a stack of reach words"),
        ];
        for (other, agrees) in others {
            if let Some(what) = other.and_then(|(theirs, buffers)| difference(&ours, &theirs, &self.ours, &buffers)) {
                return Err(format!("{agrees}: {what}"));
            }
        }
        if less_is_enough(call, &ours, &before, counts) {
            return Err(format!("the run agrees, but a word less of stack than its reach, {}, is enough", ours.reach));
        }
        Ok(ours)
    }

    /// The objects as they are, if they keep the rules.
    fn world(&self) -> Option<World> {
        let (n, b) = (self.ours.registers[0] as usize, self.ours.registers[1] as usize);
        let [contents, bodies, ..] = &self.ours.words;
        if n < 5 || 4 * n > contents.len() || b > bodies.len() {
            None
        } else {
            judge(self.ours.registers[EDITION], &contents[..4 * n], &bodies[..b]).ok()
        }
    }
}

/// Buffers with so much room beyond an image, filled with anything.
fn buffers(random: &mut Random, image: &[u8]) -> Buffers {
    let word = |index: usize| image.get(2 * index..2 * index + 2).map_or(5, |pair| u16::from_be_bytes([pair[0], pair[1]]) as usize);
    let (n, b) = (word(1).min(MOST_OBJECTS), word(2).min(MOST_BODY_WORDS));
    let contents = 4 * n + random.pick(&[0, 0, 3, 4, 8, 40, 400, 400]);
    let bodies = b + random.pick(&[0, 0, 1, 2, 5, 30, 400, 2000, 2000]);
    let stack = random.pick(&[0, 17, 18, 37, 38, 56, 74, 100, 150, 200, 300, 300, 300, 300, 600, 600, 600, 600, 1024, 1024, 1024, 1024, 1024, 1024]);
    let stack = if random.below(400) == 0 { random.from(65_530, 65_560) } else { stack };
    let lengths = [contents, bodies, stack, CACHE_WORDS];
    let words = lengths.map(|length| (0..length + GUARD).map(|_| random.word()).collect());
    let mut registers = [0; 8];
    registers.fill_with(|| random.word());
    Buffers { words, lengths, registers }
}

/// The kind of a case whose dictionaries are long, and of one on objects with elements.
const WIDE: usize = 94;
const ELEMENTS: usize = 90;
/// Of one whose sends fail.
const MESSAGES: usize = 76;
/// Of one whose sends climb.
const CLIMBS: usize = 72;

/// One case; what differs, with the pair that shows it.
pub fn case(random: &mut Random, report: &mut Report) -> Result<(), (Buffers, Vec<Call>, String)> {
    let kind = random.below(100);
    let fails = (MESSAGES..ELEMENTS).contains(&kind);
    let climbs = (CLIMBS..MESSAGES).contains(&kind);
    let mut draft = match kind {
        0..=9 => noisy(random),
        _ if fails || climbs => {
            let edition = random.pick(&[1, 2, 2, 2, 2, 2]);
            generate::of_edition(random, edition, true)
        }
        _ => generate::draft(random),
    };
    if fails || random.percent(8) && messages::is_able(&draft) {
        messages::add(random, &mut draft);
    }
    if (ELEMENTS..WIDE).contains(&kind) || random.percent(12) {
        let large = kind >= ELEMENTS && random.percent(25);
        elements::add(random, &mut draft, large);
    }
    match kind {
        96.. => fill(random, &mut draft),
        WIDE => lookups::widen(random, &mut draft),
        _ if fails && random.percent(20) => fill(random, &mut draft),
        _ => {}
    }
    let climbing = climbs.then(|| climbs::add(random, &mut draft));
    let tall = kind == 95 && random.percent(40) || fails && random.percent(3);
    let deep = kind == 95 && !tall && random.percent(50) && recurse(random, &mut draft);
    let image = draft.image();
    let mut buffers = buffers(random, &image);
    // Damage can make an image longer, and handlers make objects.
    if (10..40).contains(&kind) && random.percent(80) || fails || climbs {
        let more = random.pick(&[600, 600, 600, 8_000]);
        for buffer in 0..2 {
            buffers.lengths[buffer] += more;
            buffers.words[buffer].extend((0..more).map(|_| random.word()));
        }
    }
    if fails {
        buffers.lengths[2] = buffers.lengths[2].max(1_024);
        buffers.words[2].resize(buffers.lengths[2] + GUARD, NIL);
    }
    if tall || deep {
        buffers.lengths[2] = if tall { random.from(MOST_STACK, 65_600) } else { random.from(65_500, 65_600) };
        buffers.words[2] = vec![NIL; buffers.lengths[2] + GUARD];
    }
    let mut pair = Pair::new(buffers, report);
    let compared = match kind {
        _ if fails => messages_case(random, &mut pair, image),
        _ if climbing.is_some() => climbs_case(random, &mut pair, image, &climbing.unwrap()),
        _ if tall => tall_case(random, &mut pair, image),
        _ if deep => deep_case(random, &mut pair, &draft),
        0..=9 => noisy_case(random, &mut pair, image),
        10..=39 => damaged_case(random, &mut pair, &draft),
        WIDE => wide_case(random, &mut pair, image),
        ELEMENTS..=93 => elements_case(random, &mut pair, image),
        40..=49 | 97.. => primitive_case(random, &mut pair, image),
        _ => list_case(random, &mut pair, image),
    };
    compared.map_err(|what| (pair.first, pair.calls, what))
}

/// Lets every method under the start selector send it again to self; false where the selector takes arguments or has no methods.
fn recurse(random: &mut Random, draft: &mut Draft) -> bool {
    let selector = draft.selector;
    let classes = draft.objects.iter().filter(|made| made.kind == CLASS);
    let pairs: Vec<u16> = classes.flat_map(|class| draft.objects[class.body[1] as usize / 2 - 1].body.clone()).collect();
    let methods: Vec<u16> = pairs.chunks(2).filter(|pair| pair[0] == selector).map(|pair| pair[1]).collect();
    let large = if random.percent(50) { 128 } else { 0 };
    let flags = methods.iter().map(|method| draft.objects[*method as usize / 2 - 1].body[0] >> 13);
    if methods.is_empty() || !flags.clone().any(|flag| [0, 5, 6].contains(&flag)) {
        return false;
    }
    for method in methods {
        let made = draft.objects[method as usize / 2 - 1].clone();
        draft.put_method(method, made.class, vec![large | 3, made.body[1], selector], &[112, 208, 124]);
    }
    true
}

/// Recursion up to the last frame that a stack can have.
fn deep_case(random: &mut Random, pair: &mut Pair, draft: &Draft) -> Compared<()> {
    pair.make(Call::Load(draft.image()))?;
    for receiver in [NIL, draft.receiver, 3] {
        let begin = Call::Begin { receiver, selector: draft.selector, arguments: vec![] };
        let calls = [begin, Call::Run(random.from(3_000, 7_000) as u32), Call::Run(10_000), Call::Drop];
        if random.percent(50) {
            pair.make(play(random, &calls))?;
            continue;
        }
        for call in calls {
            pair.make(call)?;
        }
    }
    Ok(())
}

/// Frames that no send made, up to the last words that a stack can have; runs go up and down there.
fn tall_case(random: &mut Random, pair: &mut Pair, image: Vec<u8>) -> Compared<()> {
    pair.make(Call::Load(image))?;
    for _ in 0..random.from(1, 4) {
        let frames = match pair.world().and_then(|world| tall(random, &world)) {
            Some(frames) => frames,
            None => return Ok(()),
        };
        stand(pair, frames, RUNNING)?;
        for _ in 0..random.from(1, 5) {
            let calls: Vec<Call> = (0..random.from(1, 4)).map(|_| run(random)).collect();
            let call = if random.percent(25) { play(random, &calls) } else { calls[0].clone() };
            pair.make(call)?;
        }
        pair.make(Call::Drop)?;
    }
    Ok(())
}

fn right_frames(random: &mut Random, world: &World, is_top: bool) -> Vec<Vec<u16>> {
    (0..100).map(|_| made_up_frame(random, world, is_top)).filter(|frame| right(world, frame, is_top)).collect()
}

/// Right frames of both sizes, of which the last ends at 65,536 or a little below.
fn tall(random: &mut Random, world: &World) -> Option<Vec<Vec<u16>>> {
    let tops = right_frames(random, world, true);
    if tops.is_empty() {
        return None;
    }
    let top = tops[random.below(tops.len())].clone();
    let less = 2 * random.below(100);
    let end = MOST_STACK - random.pick(&[0, 0, SMALL, LARGE, less]);
    tall_below(random, world, top, end)
}

/// Right frames of both sizes with this one on top, which ends there.
fn tall_below(random: &mut Random, world: &World, top: Vec<u16>, end: usize) -> Option<Vec<Vec<u16>>> {
    let (small, large): (Vec<Vec<u16>>, Vec<Vec<u16>>) = right_frames(random, world, false).into_iter().partition(|frame| frame.len() == SMALL);
    if small.is_empty() || large.is_empty() {
        return None;
    }
    let room = end - top.len();
    let fitting: Vec<usize> = (0..=room / LARGE).filter(|count| (room - LARGE * count) % SMALL == 0).collect();
    let count = random.pick(&fitting);
    let mut frames = vec![];
    for (count, from) in [(count, large), ((room - LARGE * count) / SMALL, small)] {
        frames.extend((0..count).map(|_| from[random.below(from.len())].clone()));
    }
    random.shuffle(&mut frames);
    frames.push(top);
    Some(frames)
}

/// An image in which some methods have random code, sound or not.
fn noisy(random: &mut Random) -> Draft {
    let mut draft = generate::draft(random);
    for made in draft.objects.iter_mut().filter(|made| made.kind == METHOD) {
        let flag = made.body[0] >> 13;
        if flag == 7 || random.percent(60) {
            continue;
        }
        let words = 2 + ((made.body[0] >> 1) & 63) as usize;
        let code: Vec<u8> = (0..random.from(1, 6)).map(|_| likely_byte(random)).collect();
        made.body.truncate(words);
        made.body.extend(packed(&code));
        made.size = 2 * words + code.len();
        if random.percent(60) {
            break;
        }
    }
    draft
}

/// Bytes of short code that has a chance to be sound.
fn likely_byte(random: &mut Random) -> u8 {
    match random.below(8) {
        0 => random.byte(),
        1 => random.from(112, 119) as u8,
        2 => random.from(120, 124) as u8,
        3 => random.from(128, 136) as u8,
        4 => random.from(144, 175) as u8,
        5 => random.from(176, 207) as u8,
        6 => random.below(20) as u8,
        _ => random.pick(&[112, 135, 136, 124, 120, 163, 254, 164, 0, 1, 198, 199]),
    }
}

fn noisy_case(random: &mut Random, pair: &mut Pair, image: Vec<u8>) -> Compared<()> {
    if pair.make(Call::Load(image))?.number == 0 {
        look_up(random, pair)?;
        calls(random, pair, 6)?;
    }
    Ok(())
}

fn damaged_case(random: &mut Random, pair: &mut Pair, draft: &Draft) -> Compared<()> {
    if random.percent(30) {
        pair.make(Call::Load(draft.image()))?;
    }
    for _ in 0..random.from(4, 12) {
        if random.percent(5) {
            let lengths = short_lengths(random, pair);
            pair.make(Call::Lengths(lengths))?;
        }
        let image = damaged(random, draft);
        if pair.make(Call::Load(image))?.number == 0 && random.percent(50) {
            look_up(random, pair)?;
            calls(random, pair, 3)?;
        }
        if random.percent(5) {
            moved_fields(random, pair, draft)?;
        }
        if random.percent(5) {
            let call = some_call(random, pair);
            pair.make(call)?;
        }
    }
    Ok(())
}

/// A right image but for the F of a class, which may suit its objects and methods too.
fn moved_fields(random: &mut Random, pair: &mut Pair, draft: &Draft) -> Compared<()> {
    if let Some((class, image)) = elements::moved_image(random, draft) {
        if pair.make(Call::Load(image))?.number == 0 {
            let most = random.from(1, 4);
            accesses(random, pair, Some(class), most, Some(elements::MOVED[0]))?;
        }
    }
    Ok(())
}

/// Begins of methods that use elements, of objects of a class or of any, with runs. Where one of the primitives is called, that counts as an event.
fn accesses(random: &mut Random, pair: &mut Pair, class: Option<u16>, most: usize, event: Option<&'static str>) -> Compared<()> {
    let called = |pair: &Pair| (60..=62).map(|number| pair.report.counts.answered[number] + pair.report.counts.failed[number]).sum::<u64>();
    let before = called(pair);
    for _ in 0..most {
        let world = match pair.world() {
            Some(world) => world,
            None => return Ok(()),
        };
        if random.percent(8) {
            let messages = (0..random.from(1, 6)).flat_map(|_| [elements::message(random, &world, class), run_or_drop(random)]);
            let calls: Vec<Call> = messages.collect();
            pair.make(play(random, &calls))?;
            continue;
        }
        if pair.ours.registers[4] == RUNNING {
            let call = run_or_drop(random);
            pair.make(call)?;
        }
        let call = elements::message(random, &world, class);
        pair.make(call)?;
        if pair.ours.registers[4] == RUNNING {
            let call = run(random);
            pair.make(call)?;
        }
    }
    if let (Some(event), true) = (event, called(pair) > before) {
        pair.report.counts.event(event);
    }
    Ok(())
}

/// Drops a handler that is not done, so that another can be begun, in some cases on an empty cache.
fn settle(random: &mut Random, pair: &mut Pair) -> Compared<()> {
    if pair.ours.registers[PHASE] == RUNNING {
        pair.make(Call::Drop)?;
    }
    if random.percent(30) {
        pair.make(Call::Forget)?;
    }
    Ok(())
}

/// Handlers whose sends fail, on buffers that just have room for what is made, or just not.
fn messages_case(random: &mut Random, pair: &mut Pair, image: Vec<u8>) -> Compared<()> {
    pair.make(Call::Load(image))?;
    let most = pair.ours.lengths;
    for _ in 0..random.from(5, 12) {
        settle(random, pair)?;
        let world = match pair.world() {
            Some(world) => world,
            None => return Ok(()),
        };
        let handler = match messages::handler(random, &world) {
            Some(handler) => handler,
            None => return Ok(()),
        };
        let end = messages::tall_end(random);
        let tall = if most[2] >= MOST_STACK { tall_below(random, &world, handler.frame(&world), end) } else { None };
        match tall {
            Some(frames) => stand(pair, frames, RUNNING)?,
            None if random.percent(10) => {
                let calls: Vec<Call> = (0..random.from(1, 6)).flat_map(|_| [handler.begin(), run(random), Call::Drop]).collect();
                pair.make(play(random, &calls))?;
                continue;
            }
            None => {
                pair.make(handler.begin())?;
            }
        }
        if random.percent(12) {
            other_edition(random, pair)?;
        }
        if most[2] < MOST_STACK {
            let registers = pair.ours.registers.map(|register| register as usize);
            let end = registers[TOP] + 6 + world.method(handler.method).room();
            let lengths = messages::lengths(random, [registers[0], registers[1], end], handler.count, most);
            pair.make(Call::Lengths(lengths))?;
        }
        let call = run(random);
        pair.make(call)?;
        pair.make(Call::Lengths(most))?;
        match random.below(12) {
            0 => saved_and_loaded(random, pair)?,
            1 => spoiled_messages(random, pair)?,
            2 => look_up(random, pair)?,
            3 | 4 => {
                let call = to_last(random, pair);
                pair.make(call)?;
            }
            5 => {
                let call = any_call(random, pair);
                pair.make(call)?;
            }
            _ => {}
        }
    }
    pair.make(Call::Check)?;
    Ok(())
}

/// Handlers whose sends climb, on a cache with what the others left, and on stacks that lack the room for some of their frames.
fn climbs_case(random: &mut Random, pair: &mut Pair, image: Vec<u8>, climbing: &Climbing) -> Compared<()> {
    pair.make(Call::Load(image))?;
    let most = pair.ours.lengths;
    for _ in 0..random.from(5, 10) {
        settle(random, pair)?;
        if random.percent(20) {
            let mut lengths = most;
            lengths[2] = most[2].min(random.pick(&[18, 35, 36, 54]));
            pair.make(Call::Lengths(lengths))?;
        }
        let begin = climbing.begin(random);
        if random.percent(20) {
            let calls: Vec<Call> = (0..random.from(1, 4)).flat_map(|_| [climbing.begin(random), run(random), run(random), Call::Drop]).collect();
            pair.make(play(random, &calls))?;
        } else if pair.make(begin)?.number == 0 {
            for _ in 0..random.from(1, 3) {
                let call = run(random);
                pair.make(call)?;
            }
        }
        pair.make(Call::Lengths(most))?;
        match random.below(6) {
            0 | 1 => written_cache(random, pair)?,
            2 => look_up(random, pair)?,
            3 => shortened(random, pair)?,
            _ => {}
        }
    }
    pair.make(Call::Check)?;
    Ok(())
}

/// An entry of the cache written from outside, check, a call or two, and the old words again.
fn written_cache(random: &mut Random, pair: &mut Pair) -> Compared<()> {
    let found = pair.world().and_then(|world| climbs::written(random, &world.objects, &pair.ours.words[3][..CACHE_WORDS]));
    let (at, words, event) = match found {
        Some(found) if pair.ours.lengths[3] == CACHE_WORDS => found,
        _ => return Ok(()),
    };
    let was_right = pair.make(Call::Check)?.number == 0;
    let old = pair.ours.words[3][at..][..words.len()].to_vec();
    pair.make(Call::Write { buffer: 3, index: at, words: words.to_vec() })?;
    let number = pair.make(Call::Check)?.number;
    if let (true, Some(event), 0 | 11) = (was_right, event, number) {
        if (number == 0) == (event == 0) {
            pair.report.counts.event(climbs::WRITTEN[event]);
        }
    }
    pair.make(Call::Write { buffer: 3, index: at, words: old })?;
    spoiled_words(random, pair, 3, at, words.to_vec())
}

/// A begin of the object that was made last.
fn to_last(random: &mut Random, pair: &Pair) -> Call {
    let receiver = pointer(pair.ours.registers[0].clamp(1, 2_047) as usize);
    let world = match pair.world() {
        Some(world) => world,
        None => return Call::Check,
    };
    let class = world.objects.class(world.objects.class_of(receiver));
    let pairs = class.and_then(|class| world.objects.get(class.dictionary)).map_or(vec![], |list| list.body.clone());
    if pairs.is_empty() {
        return Call::Check;
    }
    let at = 2 * random.below(pairs.len() / 2);
    let arguments = (0..world.method(pairs[at + 1]).arguments).map(|_| argument(random, world.objects.list.len())).collect();
    Call::Begin { receiver, selector: pairs[at], arguments }
}

/// The state as one of another edition, for a run, and then again as it was.
fn other_edition(random: &mut Random, pair: &mut Pair) -> Compared<()> {
    let old = pair.ours.registers[EDITION];
    let new = random.pick(&[1, 2, 1, 2, 1, 2, 0, 3, 4, 256, 65_535]);
    pair.make(Call::Write { buffer: 4, index: EDITION, words: vec![new] })?;
    let number = pair.make(Call::Check)?.number;
    let call = run(random);
    let ran = pair.make(call)?.number == 0;
    let shown = [
        old == 2 && new == 1 && number == 0,
        old == 1 && new == 2 && number == 0,
        !(1..3).contains(&new) && number == 11,
        old == 2 && new == 1 && ran,
    ];
    pair.report.counts.events_met(messages::STATES, shown);
    pair.make(Call::Write { buffer: 4, index: EDITION, words: vec![old] })?;
    Ok(())
}

/// Objects 6 to 8 changed in a state, a call or two, and the old words again.
fn spoiled_messages(random: &mut Random, pair: &mut Pair) -> Compared<()> {
    match pair.world().and_then(|world| messages::spoiled_words(random, &world.objects)) {
        Some((buffer, index, words)) => spoiled_words(random, pair, buffer, index, words),
        None => Ok(()),
    }
}

fn elements_case(random: &mut Random, pair: &mut Pair, image: Vec<u8>) -> Compared<()> {
    pair.make(Call::Load(image))?;
    for _ in 0..3 {
        let most = random.from(4, 10);
        accesses(random, pair, None, most, None)?;
        match random.below(3) {
            0 => saved_and_loaded(random, pair)?,
            1 => spoiled_fields(random, pair)?,
            _ => {}
        }
    }
    Ok(())
}

/// Another F of a class in a state, with which it may be right, messages to objects of the class, and the old F again.
fn spoiled_fields(random: &mut Random, pair: &mut Pair) -> Compared<()> {
    let (class, index, word) = match pair.world().and_then(|world| elements::moved_word(random, &world.objects)) {
        Some(found) => found,
        None => return Ok(()),
    };
    let old = word_at(pair, 1, index);
    pair.make(Call::Write { buffer: 1, index, words: vec![word] })?;
    let most = random.from(1, 4);
    accesses(random, pair, Some(class), most, Some(elements::MOVED[1]))?;
    pair.make(Call::Write { buffer: 1, index, words: vec![old] })?;
    Ok(())
}

fn list_case(random: &mut Random, pair: &mut Pair, image: Vec<u8>) -> Compared<()> {
    pair.make(Call::Load(image))?;
    look_up(random, pair)?;
    let most = random.from(3, 24);
    calls(random, pair, most)
}

fn wide_case(random: &mut Random, pair: &mut Pair, image: Vec<u8>) -> Compared<()> {
    pair.make(Call::Load(image))?;
    for most in [2, 3, 0] {
        look_up(random, pair)?;
        calls(random, pair, most)?;
    }
    Ok(())
}

/// Lookups on the state as it is.
fn look_up(random: &mut Random, pair: &mut Pair) -> Compared<()> {
    let call = some_lookups(random, pair);
    pair.make(call)?;
    Ok(())
}

fn some_lookups(random: &mut Random, pair: &Pair) -> Call {
    let n = pair.ours.registers[0].clamp(1, 2_047) as usize;
    lookups::some(random, pair.world().as_ref().map(|world| &world.objects), n)
}

/// Begins of methods with primitives, most on receivers and arguments that they can take.
fn primitive_case(random: &mut Random, pair: &mut Pair, image: Vec<u8>) -> Compared<()> {
    pair.make(Call::Load(image))?;
    for _ in 0..40 {
        let world = match pair.world() {
            Some(world) => world,
            None => return Ok(()),
        };
        let left = pair.ours.lengths[1].min(MOST_BODY_WORDS) as i64 - pair.ours.registers[1] as i64;
        if random.percent(5) {
            let calls: Vec<Call> = (0..random.from(1, 8)).flat_map(|_| [primitive_message(random, &world, left), run_or_drop(random)]).collect();
            pair.make(play(random, &calls))?;
            continue;
        }
        let call = primitive_message(random, &world, left);
        pair.make(call)?;
        if pair.ours.registers[4] == RUNNING {
            let call = run_or_drop(random);
            pair.make(call)?;
        }
    }
    Ok(())
}

fn run_or_drop(random: &mut Random) -> Call {
    if random.percent(50) {
        run(random)
    } else {
        Call::Drop
    }
}

/// Pairs of a selector and a method with a primitive, in all dictionaries.
fn primitive_methods(world: &World) -> Vec<(u16, u16)> {
    let objects = &world.objects;
    let classes = objects.list.iter().filter(|object| object.kind == CLASS);
    let pairs = classes.flat_map(|class| objects.get(class.body[1]).unwrap().body.chunks(2).map(|pair| (pair[0], pair[1])));
    pairs.filter(|(_, method)| world.method(*method).flag == 7).collect()
}

/// `left` are the words that bodies can still take.
fn primitive_message(random: &mut Random, world: &World, left: i64) -> Call {
    let objects = &world.objects;
    let n = objects.list.len();
    let methods = primitive_methods(world);
    if methods.is_empty() {
        return Call::Check;
    }
    let (selector, method) = random.pick(&methods);
    let method = world.method(method);
    let form_of = |word: u16| objects.class(objects.class_of(word)).map_or(3, |class| class.form);
    let suits = |word: u16| match method.primitive {
        1..=17 => is_integer(word),
        60..=62 => [1, 2].contains(&form_of(word)),
        70 => objects.class(word).map_or(false, |class| class.form == 0),
        71 => objects.class(word).map_or(false, |class| [1, 2].contains(&class.form)),
        _ => true,
    };
    let mut receiver = argument(random, n);
    for _ in 0..200 {
        if suits(receiver) && objects.in_chain(receiver, method.home) {
            break;
        }
        receiver = argument(random, n);
    }
    let mut arguments: Vec<u16> = (0..method.arguments).map(|_| argument(random, n)).collect();
    if [60, 61].contains(&method.primitive) && !arguments.is_empty() && random.percent(80) {
        arguments[0] = elements::index(random, objects, receiver);
    }
    if method.primitive == 71 && !arguments.is_empty() && random.percent(50) {
        let fields = objects.class(receiver).map_or(0, |class| class.fields as i64);
        let sizes = [left - fields, left - fields + 1, 2 * left, 2 * left - 1, 2 * left + 1];
        arguments[0] = word(random.pick(&sizes).clamp(-1, 16_383)).unwrap();
    }
    Call::Begin { receiver, selector, arguments }
}

/// So many calls on a state that is right, with spoiled states in between.
fn calls(random: &mut Random, pair: &mut Pair, most: usize) -> Compared<()> {
    for _ in 0..most {
        match random.below(20) {
            0 | 1 => spoiled(random, pair)?,
            2 if random.percent(30) => shortened(random, pair)?,
            4 | 5 if random.percent(50) => made_up(random, pair)?,
            3 if random.percent(30) => saved_and_loaded(random, pair)?,
            6 => look_up(random, pair)?,
            _ => {
                let call = some_call(random, pair);
                pair.make(call)?;
            }
        }
    }
    pair.make(Call::Check)?;
    Ok(())
}

fn some_call(random: &mut Random, pair: &Pair) -> Call {
    let running = pair.ours.registers[4] == RUNNING;
    match random.below(40) {
        0 => Call::Check,
        1 => Call::Forget,
        2 => Call::Drop,
        3 => Call::Save(image_length(pair) + random.pick(&[0, 0, 1, 100]) - random.pick(&[0, 0, 0, 1])),
        4..=7 => list(random, pair),
        8..=11 => message(random, pair.world().as_ref()),
        12..=16 => run(random),
        _ if running => run(random),
        _ => message(random, pair.world().as_ref()),
    }
}

/// Calls of all kinds for play, refused ones among them.
fn list(random: &mut Random, pair: &Pair) -> Call {
    let world = pair.world();
    let mut calls: Vec<Call> = vec![];
    for _ in 0..random.pick(&[0, 1, 2, 3, 5, 8, 12, 20]) {
        let begun = matches!(calls.last(), Some(Call::Begin { .. }));
        calls.push(match random.below(20) {
            0 => Call::Forget,
            1 | 2 => Call::Drop,
            3..=5 => message(random, world.as_ref()),
            6..=8 => run(random),
            _ if begun => run(random),
            _ => message(random, world.as_ref()),
        });
    }
    play(random, &calls)
}

/// A list of these calls, cut in some cases or with another first word in between, and with too little room for answers in some.
fn play(random: &mut Random, calls: &[Call]) -> Call {
    let mut words: Vec<Vec<u16>> = calls.iter().map(Call::words).collect();
    match random.below(8) {
        0 => {
            if let Some(last) = words.last_mut() {
                last.truncate(1 + random.below(last.len()));
            }
        }
        // A begin whose arguments are not there.
        1 => words.push(vec![0, NIL, NIL, random.pick(&[1, 2, 32_768, 65_535])]),
        2 => words.insert(random.below(calls.len() + 1), vec![random.pick(&[4, 5, 256, 65_535])]),
        _ => {}
    }
    let most = ANSWER_WORDS * calls.len();
    let room = if random.percent(20) { random.below(most + 1) } else { most + random.below(2 * ANSWER_WORDS + 1) };
    Call::Play { words: words.concat(), room }
}

fn image_length(pair: &Pair) -> usize {
    10 + 8 * pair.ours.registers[0] as usize + 2 * pair.ours.registers[1] as usize
}

fn run(random: &mut Random) -> Call {
    Call::Run(match random.below(12) {
        0 => 0,
        1 | 2 => random.from(1, 3) as u32,
        3..=6 => random.from(1, 40) as u32,
        7..=9 => random.from(1, 400) as u32,
        10 => random.from(1, 2_000) as u32,
        _ if random.percent(5) => random.from(1, 60_000) as u32,
        // In a list two words, the low one small.
        _ if random.percent(25) => (65_536 * random.from(1, 2) + random.below(4)) as u32,
        _ => 500,
    })
}

pub fn argument(random: &mut Random, n: usize) -> u16 {
    match random.below(8) {
        0..=2 => word(random.from(0, 12) as i64 - 3).unwrap(),
        3 => word(random.from(0, 32_767) as i64 - 16_384).unwrap(),
        4 => word(random.pick(&[-16_384, 16_383, 255, 256, 16_382, 128, 127, -128, 1000])).unwrap(),
        // The last objects are those that were made, or are large.
        5 => pointer(n - random.below(3)),
        _ => pointer(random.from(1, n)),
    }
}

/// A begin, most often of a method that is there.
fn message(random: &mut Random, world: Option<&World>) -> Call {
    let world = match world {
        Some(world) => world,
        None => return Call::Begin { receiver: NIL, selector: NIL, arguments: vec![] },
    };
    let objects = &world.objects;
    let n = objects.list.len();
    let classes: Vec<u16> = (1..=n).map(pointer).filter(|word| objects.has_kind(*word, CLASS)).collect();
    let pairs = |class: u16| &objects.get(objects.class(class).unwrap().dictionary).unwrap().body;
    let homes: Vec<u16> = classes.iter().copied().filter(|class| !pairs(*class).is_empty()).collect();
    // A class without methods now and then.
    let homes = if homes.is_empty() || random.percent(5) { &classes } else { &homes };
    let mut home = random.pick(homes);
    for _ in 0..3 {
        // Classes whose objects have fields or elements, more often than the others.
        let class = objects.class(home).unwrap();
        if class.fields > 0 || class.form == 1 {
            break;
        }
        home = random.pick(homes);
    }
    let pairs = pairs(home);
    let is_low = |word: &u16| objects.chain(objects.class_of(*word)).nth(MOST_CHAIN - 1).is_some();
    let low: Vec<u16> = (1..=n).map(pointer).filter(is_low).collect();
    let first = match random.below(10) {
        0..=2 => random.pick(&classes),
        3..=7 if !low.is_empty() => random.pick(&low),
        _ => argument(random, n),
    };
    let (mut receiver, mut selector, mut count) = (first, pointer(random.from(1, n)), random.below(3));
    if !pairs.is_empty() {
        let at = 2 * random.below(pairs.len() / 2);
        selector = pairs[at];
        count = world.method(pairs[at + 1]).arguments;
        for _ in 0..60 {
            if objects.in_chain(receiver, home) {
                break;
            }
            receiver = argument(random, n);
        }
    }
    let mut arguments: Vec<u16> = (0..count).map(|_| argument(random, n)).collect();
    match random.below(40) {
        0 => receiver = random.pick(&[0, pointer(n + 1), 65_534]),
        1 => selector = random.pick(&[0, 1, NIL, pointer(n + 1), home]),
        2 => arguments.push(argument(random, n)),
        3 => arguments.push(random.pick(&[0, pointer(n + 1)])),
        4 => {
            arguments.pop();
        }
        5 => receiver = argument(random, n),
        // Up to as many as a list can say.
        6 if random.percent(5) => arguments.resize(random.pick(&[256, 65_535]), NIL),
        _ => {}
    }
    Call::Begin { receiver, selector, arguments }
}

fn short_lengths(random: &mut Random, pair: &Pair) -> [usize; 4] {
    let mut lengths = pair.ours.lengths;
    let (n, b) = (pair.ours.registers[0] as usize, pair.ours.registers[1] as usize);
    match random.below(5) {
        0 => lengths[0] = (4 * n).saturating_sub(random.from(1, 3)).min(lengths[0]),
        1 => lengths[1] = b.saturating_sub(1).min(lengths[1]),
        2 => lengths[2] = random.below(lengths[2].min(200) + 1),
        3 => lengths[3] = random.pick(&[[0, 0, 0], climbs::OTHER_CACHES, climbs::OTHER_CACHES, climbs::OTHER_CACHES].concat()),
        _ => lengths = lengths.map(|length| random.below(length + 1)),
    }
    lengths
}

/// Shorter buffers for one or two calls, then the old ones again.
fn shortened(random: &mut Random, pair: &mut Pair) -> Compared<()> {
    let old = pair.ours.lengths;
    let lengths = short_lengths(random, pair);
    pair.make(Call::Lengths(lengths))?;
    for _ in 0..random.from(1, 2) {
        let call = any_call(random, pair);
        pair.make(call)?;
    }
    pair.make(Call::Lengths(old))?;
    Ok(())
}

/// Each of the calls but load, and lookups, as often as the others.
fn any_call(random: &mut Random, pair: &Pair) -> Call {
    match random.below(8) {
        0 => Call::Drop,
        1 => Call::Forget,
        2 => Call::Save(image_length(pair).min(600_000)),
        3 => message(random, pair.world().as_ref()),
        4 => run(random),
        5 => list(random, pair),
        6 => some_lookups(random, pair),
        _ => Call::Check,
    }
}

fn saved_and_loaded(random: &mut Random, pair: &mut Pair) -> Compared<()> {
    let length = image_length(pair);
    let saved = pair.make(Call::Save(length + random.below(3)))?;
    if saved.number == 0 {
        pair.make(Call::Load(saved.output[..length].to_vec()))?;
    }
    Ok(())
}

/// One word changed from outside, one or two calls, and the old word again.
fn spoiled(random: &mut Random, pair: &mut Pair) -> Compared<()> {
    match random.below(20) {
        0 | 1 => return spoiled_fields(random, pair),
        2 => return spoiled_messages(random, pair),
        3 => return other_edition(random, pair),
        4 | 5 => return written_cache(random, pair),
        _ => {}
    }
    if random.percent(40) {
        if let Some((index, word)) = pair.world().and_then(|world| spoiled_chain(random, &world)) {
            return spoiled_word(random, pair, 1, index, word);
        }
    }
    let (buffer, index) = match place_to_spoil(random, pair) {
        Some(place) => place,
        None => return Ok(()),
    };
    let old = word_at(pair, buffer, index);
    let n = pair.ours.registers[0].clamp(1, 2_047) as usize;
    let word = if random.percent(20) && buffer < 4 { neighbour(random, pair, buffer, index) } else { other_word(random, old, n) };
    spoiled_word(random, pair, buffer, index, word)
}

fn word_at(pair: &Pair, buffer: usize, index: usize) -> u16 {
    if buffer == 4 {
        pair.ours.registers[index]
    } else {
        pair.ours.words[buffer][index]
    }
}

fn spoiled_word(random: &mut Random, pair: &mut Pair, buffer: usize, index: usize, word: u16) -> Compared<()> {
    spoiled_words(random, pair, buffer, index, vec![word])
}

fn spoiled_words(random: &mut Random, pair: &mut Pair, buffer: usize, index: usize, words: Vec<u16>) -> Compared<()> {
    let old = (index..index + words.len()).map(|index| word_at(pair, buffer, index)).collect();
    pair.make(Call::Write { buffer, index, words })?;
    for _ in 0..random.from(1, 2) {
        let call = any_call(random, pair);
        pair.make(call)?;
    }
    pair.make(Call::Write { buffer, index, words: old })?;
    Ok(())
}

/// The index of a superclass word in the bodies, and a class for it: the lowest of the longest chain, for a class outside of it, which makes a chain of one
/// more; or any class. The class has fields enough, so the other rules of images hold.
fn spoiled_chain(random: &mut Random, world: &World) -> Option<(usize, u16)> {
    let objects = &world.objects;
    let classes: Vec<u16> = (1..=objects.list.len()).map(pointer).filter(|word| objects.has_kind(*word, CLASS)).collect();
    let chain = |word: u16| objects.chain(word).take(MOST_CHAIN);
    let longest = *classes.iter().max_by_key(|word| chain(**word).count())?;
    // Where no chain is long, only a circle is too long.
    if chain(longest).count() < MOST_CHAIN && random.percent(60) {
        return None;
    }
    let outside = random.percent(60);
    let above = if outside { longest } else { random.pick(&classes) };
    let fields = |word: u16| objects.class(word).map_or(0, |class| class.fields);
    let able = |word: &u16| fields(*word) >= fields(above) && !(outside && chain(longest).any(|other| other == *word));
    let below: Vec<u16> = classes.iter().copied().filter(able).collect();
    if below.is_empty() {
        return None;
    }
    Some((objects.get(random.pick(&below))?.start as usize, above))
}

/// Frames that no send made, written into the stack: any method at any position of its table, flags 5 and 6 too, most of them right.
fn made_up(random: &mut Random, pair: &mut Pair) -> Compared<()> {
    let world = match pair.world() {
        Some(world) => world,
        None => return Ok(()),
    };
    let count = random.pick(&[1, 1, 2, 3]);
    let mut frames: Vec<Vec<u16>> = (1..=count).map(|index| made_up_frame(random, &world, index == count)).collect();
    for frame in frames.iter_mut().filter(|_| random.percent(5)) {
        frame[1] += 1;
    }
    if frames.concat().len() > pair.ours.lengths[2] {
        return Ok(());
    }
    stand(pair, frames, random.pick(&[1, 1, 1, 3, 4, 5]))?;
    for _ in 0..random.from(1, 3) {
        let call = any_call(random, pair);
        pair.make(call)?;
    }
    if pair.make(Call::Check)?.number != 0 {
        set_registers(pair, [0, 0, 0])?;
    }
    Ok(())
}

/// Phase, top and value.
fn set_registers(pair: &mut Pair, words: [u16; 3]) -> Compared<()> {
    pair.make(Call::Write { buffer: 4, index: 4, words: words.to_vec() })?;
    Ok(())
}

/// Writes frames, the bottom one first, each with the sender that it has there.
fn stand(pair: &mut Pair, frames: Vec<Vec<u16>>, phase: u16) -> Compared<()> {
    let (mut words, mut top): (Vec<u16>, u16) = (vec![], 0);
    for mut frame in frames {
        frame[0] = top;
        top = words.len() as u16;
        words.extend(frame);
    }
    pair.make(Call::Write { buffer: 2, index: 0, words })?;
    set_registers(pair, [phase, top, 0])?;
    pair.make(Call::Check)?;
    Ok(())
}

/// Whether a made-up frame has a position of its method's table, its depth, and a receiver that can run it.
fn right(world: &World, frame: &[u16], is_top: bool) -> bool {
    let method = world.method(frame[3]);
    let reached = method.table.as_ref().and_then(|table| table.get(frame[1] as usize).copied().flatten());
    reached == Some(frame[2] as usize + if is_top { 0 } else { 1 }) && world.objects.in_chain(frame[5], method.home)
}

fn made_up_frame(random: &mut Random, world: &World, is_top: bool) -> Vec<u16> {
    let objects = &world.objects;
    let n = objects.list.len();
    let methods: Vec<u16> = (1..=n).map(pointer).filter(|word| objects.has_kind(*word, METHOD)).collect();
    let mut chosen = random.pick(&methods);
    for _ in 0..if random.percent(40) { 10 } else { 0 } {
        if [5, 6].contains(&world.method(chosen).flag) {
            break;
        }
        chosen = random.pick(&methods);
    }
    let method = world.method(chosen);
    let mut receiver = argument(random, n);
    for _ in 0..60 {
        if objects.in_chain(receiver, method.home) {
            break;
        }
        receiver = argument(random, n);
    }
    let table = method.table.clone().unwrap_or_default();
    let wanted = |depth: &Option<usize>| depth.map_or(false, |depth| is_top || depth > 0);
    let reached: Vec<usize> = (0..table.len()).filter(|position| wanted(&table[*position])).collect();
    let (mut position, mut depth) = (0, 0);
    if !reached.is_empty() {
        position = random.pick(&reached);
        depth = table[position].unwrap() - if is_top { 0 } else { 1 };
    }
    let mut frame = vec![0, position as u16, depth as u16, chosen, 0, receiver];
    frame.extend((0..method.room()).map(|_| argument(random, n)));
    frame
}

/// A word of the same buffer in place of another.
fn neighbour(random: &mut Random, pair: &Pair, buffer: usize, index: usize) -> u16 {
    let words = &pair.ours.words[buffer];
    let near = (index + random.from(1, 40)) % words.len();
    words[near]
}

fn place_to_spoil(random: &mut Random, pair: &Pair) -> Option<(usize, usize)> {
    let [n, b, _, _, phase, top, _, _] = pair.ours.registers.map(|register| register as usize);
    let lengths = pair.ours.lengths;
    let spoil_frames = ![0, 2].contains(&phase) && lengths[2] > 0;
    let (buffer, limit) = match random.below(12) {
        0 | 1 => (4, 8),
        2 | 3 => (3, lengths[3]),
        4 => (0, (4 * n).min(lengths[0])),
        5 | 6 => (1, b.min(lengths[1])),
        _ if spoil_frames => (2, (top + 38).min(lengths[2])),
        _ => (0, (4 * n).min(lengths[0])),
    };
    if limit == 0 {
        return None;
    }
    // The six words of the top frame are worth more than those below.
    if buffer == 2 && random.percent(50) && top + 12 < limit {
        return Some((2, top + random.below(12)));
    }
    Some((buffer, random.below(limit)))
}
