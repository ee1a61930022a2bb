//! Random images that load accepts: classes in chains, dictionaries, methods with sound code of every kind.

use crate::draft::Draft;
use crate::random::Random;
use apart::code::special_arguments;
use apart::objects::*;
use apart::words::*;

struct PlannedClass {
    pointer: u16,
    dictionary: u16,
    superclass: u16,
    fields: usize,
    form: u16,
}

/// What there is to speak of when code is written.
struct Plan {
    /// From the root down, so many of the classes make a chain, each below the one before. 0 where there is no long chain.
    deep: usize,
    classes: Vec<PlannedClass>,
    /// Selectors with their counts of arguments.
    selectors: Vec<(u16, usize)>,
    /// Selectors without methods, which can be sent with any count.
    unknown: Vec<u16>,
    specials: Vec<u16>,
    /// Objects of forms 0 to 2, with class and size.
    instances: Vec<(u16, usize, usize)>,
    /// Those that can be literal variables.
    variables: Vec<u16>,
}

impl Plan {
    /// The last class of the long chain.
    fn lowest(&self) -> usize {
        ROOT + self.deep - 1
    }
}

const INTEGERS: usize = 0;
const METACLASS: usize = 1;
const STRINGS: usize = 2;
const ROOT: usize = 3;

fn number(n: i64) -> u16 {
    word(n).unwrap()
}

/// Which of the selectors is object 6 where objects 6 to 8 are those for messages.
const UNDER_6: usize = 2;

/// Hands out object numbers after the first ones, in random order.
struct Numbers {
    free: Vec<u16>,
}

impl Numbers {
    fn take(&mut self) -> u16 {
        self.free.pop().unwrap()
    }
}

/// A valid image; in some a chain has as many classes as it can have, or one less. About half are of edition 2; of the others some have objects 6 to 8 as
/// these have.
pub fn draft(random: &mut Random) -> Draft {
    let with_messages = random.percent(62);
    let edition = if with_messages && random.percent(82) { 2 } else { 1 };
    of_edition(random, edition, with_messages)
}

/// `with_messages`: objects 6 to 8 are those for messages.
pub fn of_edition(random: &mut Random, edition: u16, with_messages: bool) -> Draft {
    let deep = if random.percent(8) { random.pick(&[MOST_CHAIN, MOST_CHAIN, MOST_CHAIN - 1]) } else { 0 };
    let class_count = if deep > 0 { ROOT + deep + random.below(3) } else { random.from(5, 11) };
    let class_count = class_count + if with_messages { 2 } else { 0 };
    let selector_count = random.from(8, 15);
    let instance_count = random.from(5, 14);
    let (plan, dictionaries, loose, count, mut numbers) = plan(random, deep, class_count, selector_count, instance_count, with_messages);
    let mut draft = Draft { edition, objects: vec![Default::default(); count], receiver: 0, selector: 0 };
    put_instances(random, &plan, &mut draft);
    put_classes(random, &plan, &mut draft, &dictionaries);
    for (class, pairs) in dictionaries.iter().enumerate() {
        for (selector, method) in pairs {
            let arguments = plan.selectors.iter().find(|known| known.0 == *selector).unwrap().1;
            put_method(random, &plan, &mut draft, class, *method, arguments);
        }
    }
    for method in loose {
        let class = random.below(plan.classes.len());
        let arguments = random.from(0, 4);
        put_method(random, &plan, &mut draft, class, method, arguments);
    }
    // Numbers that were left over are empty lists.
    while !numbers.free.is_empty() {
        let pointer = numbers.take();
        draft.put(pointer, plan.classes[METACLASS].pointer, LIST, vec![number(7); random.below(3)]);
    }
    draft.receiver = if deep > 0 { plan.instances[3].0 } else { any_word(random, &plan) };
    draft.selector = random.pick(&plan.selectors).0;
    draft
}

type Dictionaries = Vec<Vec<(u16, u16)>>;

fn plan(
    random: &mut Random,
    deep: usize,
    class_count: usize,
    selector_count: usize,
    instance_count: usize,
    with_messages: bool,
) -> (Plan, Dictionaries, Vec<u16>, usize, Numbers) {
    // Which class has methods under which selectors: the root under most, so that sends find something.
    let mut has: Vec<Vec<bool>> = (0..class_count).map(|class| (0..selector_count).map(|_| random.percent(chance(deep, class))).collect()).collect();
    if with_messages {
        // None, some below the root, all, or as they came.
        let (column, which) = (UNDER_6, random.below(10));
        for (class, row) in has.iter_mut().enumerate() {
            row[column] = which >= 8 || which > 1 && row[column] && !(which < 4 && class == ROOT);
        }
    }
    let method_count: usize = has.iter().flatten().filter(|has| **has).count();
    let (loose_count, unknown_count) = (random.below(3), if with_messages { 2 } else { 0 });
    let others = instance_count + method_count + loose_count + unknown_count + random.below(3);
    let count = 5 + (class_count - 1) + class_count + selector_count + others;
    let first = if with_messages { 9 } else { 6 };
    let mut free: Vec<u16> = (first..=count).map(pointer).collect();
    random.shuffle(&mut free);
    let mut numbers = Numbers { free };
    let classes = plan_classes(random, deep, class_count, with_messages, &mut numbers);
    const COUNTS: [usize; 15] = [0, 0, 1, 1, 2, 1, 0, 1, 2, 3, 4, 1, 5, 9, 0];
    let selector = |index: usize| if with_messages && index == UNDER_6 { DOES_NOT_UNDERSTAND } else { numbers.take() };
    let selectors: Vec<(u16, usize)> = (0..selector_count).map(selector).zip(COUNTS).collect();
    let unknown = (0..unknown_count).map(|_| numbers.take()).collect();
    let dictionaries = has
        .iter()
        .map(|row| {
            let mut pairs: Vec<(u16, u16)> = (0..selector_count).filter(|at| row[*at]).map(|at| (selectors[at].0, numbers.take())).collect();
            pairs.sort();
            pairs
        })
        .collect();
    let loose = (0..loose_count).map(|_| numbers.take()).collect();
    let mut plan = Plan { deep, classes, selectors, unknown, specials: vec![], instances: vec![], variables: vec![] };
    plan_instances(random, &mut plan, instance_count, &mut numbers);
    plan.specials = specials(random, &plan);
    (plan, dictionaries, loose, count, numbers)
}

/// How often a class has a method under a selector, in percent: seldom between the ends of a long chain, so that lookups go through it.
fn chance(deep: usize, class: usize) -> usize {
    match class {
        ROOT => 85,
        METACLASS | INTEGERS | STRINGS => 60,
        _ if class + 1 < ROOT + deep => 3,
        _ if class + 1 == ROOT + deep => 70,
        _ => 45,
    }
}

/// Fields of a class that is planned already.
fn fields_of(classes: &[PlannedClass], pointer: u16) -> usize {
    classes.iter().find(|class| class.pointer == pointer).map_or(0, |class| class.fields)
}

fn plan_classes(random: &mut Random, deep: usize, count: usize, with_messages: bool, numbers: &mut Numbers) -> Vec<PlannedClass> {
    let root_fields = if random.percent(88) { 0 } else { 2 };
    let mut pointers = vec![INTEGER_CLASS];
    let numbered = if with_messages { count - 2 } else { count };
    pointers.extend((1..numbered).map(|_| numbers.take()));
    if with_messages {
        pointers.extend([MESSAGE_CLASS, ARRAY_CLASS]);
    }
    let mut classes: Vec<PlannedClass> = vec![];
    for (index, &own) in pointers.iter().enumerate() {
        let (superclass, form) = match index {
            INTEGERS | METACLASS | STRINGS => {
                let above = if root_fields == 0 && random.percent(85) { pointers[ROOT] } else { NIL };
                (above, if index == STRINGS { 2 } else { 3 })
            }
            ROOT => (NIL, random.pick(&[0, 0, 1])),
            _ if index >= numbered => {
                let above = if own == MESSAGE_CLASS || root_fields == 0 { random.pick(&[NIL, pointers[ROOT], pointers[ROOT]]) } else { NIL };
                (above, if own == MESSAGE_CLASS { 0 } else { 1 })
            }
            _ if index < ROOT + deep => (pointers[index - 1], random.pick(&[0, 0, 1])),
            _ => {
                // The lowest class of a long chain is the superclass of none.
                let last = if deep > 0 { ROOT + deep - 2 } else { index - 1 };
                let above = pointers[random.from(ROOT, last)];
                let forms: &[u16] = if fields_of(&classes, above) == 0 { &[0, 0, 1, 1, 2, 3] } else { &[0, 1] };
                (above, random.pick(forms))
            }
        };
        let fields = match index {
            ROOT => root_fields,
            _ if index >= numbered => {
                if own == MESSAGE_CLASS {
                    2
                } else {
                    0
                }
            }
            _ if form >= 2 => 0,
            _ if deep > 0 => fields_of(&classes, superclass) + random.pick(&[0, 0, 0, 0, 0, 0, 0, 0, 1, 2]),
            _ => fields_of(&classes, superclass) + random.pick(&[0, 1, 2, 3, 1, 2, 9, 20]),
        };
        classes.push(PlannedClass { pointer: own, dictionary: numbers.take(), superclass, fields, form });
    }
    classes
}

fn plan_instances(random: &mut Random, plan: &mut Plan, count: usize, numbers: &mut Numbers) {
    let able: Vec<usize> = (0..plan.classes.len()).filter(|class| plan.classes[*class].form < 3).collect();
    let mut pointers: Vec<u16> = vec![NIL, FALSE, TRUE];
    pointers.extend((0..count).map(|_| numbers.take()));
    for (index, &own) in pointers.iter().enumerate() {
        let mut class = match index {
            0..=2 => ROOT,
            3..=5 if plan.deep > 0 => plan.lowest(),
            _ => random.pick(&able),
        };
        if index < 3 && random.percent(20) {
            // nil, false or true of a class of their own.
            class = random.pick(&able);
            if plan.classes[class].form == 2 {
                class = ROOT;
            }
        }
        let size = match plan.classes[class].form {
            0 => plan.classes[class].fields,
            1 => plan.classes[class].fields + random.below(5),
            _ => random.below(7),
        };
        plan.instances.push((own, class, size));
        if plan.classes[class].form < 2 && size >= 2 {
            plan.variables.push(own);
        }
    }
}

/// Selectors of the special sends: nil, or one with the count that the bytecode has.
fn specials(random: &mut Random, plan: &Plan) -> Vec<u16> {
    (0..32)
        .map(|special| {
            let able: Vec<u16> = plan.selectors.iter().filter(|known| known.1 == special_arguments(special)).map(|known| known.0).collect();
            if able.is_empty() || random.percent(12) {
                NIL
            } else if !plan.unknown.is_empty() && random.percent(8) {
                random.pick(&plan.unknown)
            } else {
                random.pick(&able)
            }
        })
        .collect()
}

/// A valid word, more often one that code can do something with.
fn any_word(random: &mut Random, plan: &Plan) -> u16 {
    match random.below(10) {
        0..=3 => number(random.from(0, 12) as i64 - 3),
        4 => number(random.pick(&[-16_384, 16_383, 255, 256, -1, 8_192, 100])),
        5 => random.pick(&plan.classes.iter().map(|class| class.pointer).collect::<Vec<u16>>()),
        6 => random.pick(&plan.selectors).0,
        _ => random.pick(&plan.instances).0,
    }
}

fn put_instances(random: &mut Random, plan: &Plan, draft: &mut Draft) {
    for &(own, class, size) in &plan.instances {
        let class = &plan.classes[class];
        if class.form == 2 {
            let bytes: Vec<u8> = (0..size).map(|_| random.byte()).collect();
            draft.put_bytes(own, class.pointer, &bytes);
        } else {
            let words = (0..size).map(|_| any_word(random, plan)).collect();
            draft.put(own, class.pointer, FIELDS, words);
        }
    }
    for own in plan.selectors.iter().map(|known| known.0).chain(plan.unknown.iter().copied()) {
        let bytes: Vec<u8> = (0..random.below(5)).map(|_| random.byte()).collect();
        draft.put_bytes(own, plan.classes[STRINGS].pointer, &bytes);
    }
}

fn put_classes(random: &mut Random, plan: &Plan, draft: &mut Draft, dictionaries: &Dictionaries) {
    let meta = plan.classes[METACLASS].pointer;
    for (class, pairs) in plan.classes.iter().zip(dictionaries) {
        let body = vec![class.superclass, class.dictionary, number(class.fields as i64), number(class.form as i64)];
        draft.put(class.pointer, meta, CLASS, body);
        let list_class = if random.percent(80) { meta } else { INTEGER_CLASS };
        draft.put(class.dictionary, list_class, LIST, pairs.iter().flat_map(|pair| [pair.0, pair.1]).collect());
    }
    draft.put(SPECIALS, meta, LIST, plan.specials.clone());
}

/// A primitive that suits a class and a count; now and then one that does not.
fn primitive_for(random: &mut Random, plan: &Plan, class: usize, arguments: usize) -> usize {
    if random.percent(10) {
        return random.pick(&[0, 1, 12, 18, 60, 61, 62, 70, 71, 110, 111, 255]);
    }
    let indexed = matches!(plan.classes[class].form, 1 | 2);
    match arguments {
        0 if class == METACLASS => random.pick(&[70, 70, 70, 111]),
        0 if indexed => random.pick(&[62, 62, 111]),
        0 => random.pick(&[62, 70, 111]),
        1 if class == METACLASS => random.pick(&[71, 71, 71, 110]),
        1 if class == INTEGERS => random.from(1, 17),
        1 if indexed => random.pick(&[60, 60, 110]),
        1 => random.pick(&[60, 71, 110, 1, 3, 10, 13, 16, 17]),
        _ => 61,
    }
}

fn put_method(random: &mut Random, plan: &Plan, draft: &mut Draft, class: usize, method: u16, arguments: usize) {
    let home = &plan.classes[class];
    let mut flags = vec![7];
    if arguments <= 4 {
        flags.extend([arguments as u16; 4]);
    }
    if arguments == 0 {
        flags.push(5);
        if home.fields > 0 {
            flags.extend([6, 6]);
        }
    }
    if [INTEGERS, METACLASS].contains(&class) || home.form == 1 || home.form == 2 {
        flags.extend([7; 4]);
    }
    let flag = random.pick(&flags);
    let large = random.percent(20);
    let most = if large { 31 } else { 11 };
    let temporaries = match flag {
        6 => random.below(home.fields.min(32)),
        5 => random.below(32),
        _ => (arguments + random.pick(&[0, 1, 2, 3, 8, 20])).min(most).max(arguments),
    };
    let room = if large { 32 } else { 12 };
    let super_sends = match home.superclass {
        NIL => 3,
        _ if plan.deep > 0 && class == plan.lowest() => 60,
        _ => 25,
    };
    let mut coder = Coder { random, plan, fields: home.fields, super_sends, temporaries, room, literals: vec![] };
    let free = (flag == 5 || flag == 6) && coder.random.percent(70);
    let code = if free || temporaries > coder.room { coder.noise(12) } else { coder.method_code() };
    let mut literals = coder.literals;
    if flag == 7 {
        let primitive = primitive_for(random, plan, class, arguments);
        literals.push((arguments << 9 | primitive << 1 | 1) as u16);
        literals.push(any_word(random, plan));
    }
    let header = flag << 13 | (temporaries as u16) << 8 | (large as u16) << 7 | (literals.len() as u16) << 1 | 1;
    let mut words = vec![header, home.pointer];
    words.extend(literals);
    draft.put_method(method, plan.classes[METACLASS].pointer, words, &code);
}

/// Writes code piece by piece. All jumps are relative, so a piece can stand anywhere; each says at which depth it starts.
struct Coder<'a> {
    random: &'a mut Random,
    plan: &'a Plan,
    fields: usize,
    /// How many of the sends, in percent. Where there is no superclass they find nothing.
    super_sends: usize,
    temporaries: usize,
    room: usize,
    literals: Vec<u16>,
}

impl Coder<'_> {
    fn noise(&mut self, most: usize) -> Vec<u8> {
        (0..self.random.below(most + 1)).map(|_| self.random.byte()).collect()
    }

    fn has_room(&self, depth: usize, more: usize) -> bool {
        self.temporaries + depth + more <= self.room
    }

    /// The index of a literal; two stay free for an extension.
    fn literal(&mut self, word: u16) -> Option<usize> {
        let fresh = self.random.percent(10);
        if let Some(index) = self.literals.iter().position(|known| *known == word).filter(|_| !fresh) {
            return Some(index);
        }
        if self.literals.len() >= 61 {
            return None;
        }
        self.literals.push(word);
        Some(self.literals.len() - 1)
    }

    fn method_code(&mut self) -> Vec<u8> {
        let mut code = vec![];
        if self.random.percent(25) {
            // Literals in front, so that the code needs the higher indices.
            let count = self.random.from(1, 40);
            self.literals = (0..count).map(|_| any_word(self.random, self.plan)).collect();
        }
        if self.random.percent(1) {
            return vec![163, 254];
        }
        for _ in 0..self.random.from(1, 5) {
            code.extend(self.statement(0, 3));
        }
        code.extend(self.returning(0));
        if self.random.percent(20) {
            code.extend(self.noise(6));
        }
        code
    }

    /// A return, which nothing follows.
    fn returning(&mut self, depth: usize) -> Vec<u8> {
        if self.random.percent(40) || !self.has_room(depth, 1) {
            return vec![self.random.from(120, 123) as u8];
        }
        let mut code = self.expression(depth, 2);
        code.push(124);
        code
    }

    /// Code that leaves the depth as it was.
    fn statement(&mut self, depth: usize, fuel: usize) -> Vec<u8> {
        if fuel == 0 || !self.has_room(depth, 2) {
            return vec![];
        }
        match self.random.below(12) {
            0..=4 => self.assignment(depth, fuel),
            5 | 6 => self.branch(depth, fuel),
            7 | 8 => self.counting_loop(depth, fuel),
            9 => self.far_jump(depth),
            10 => self.leave_early(depth, fuel),
            _ => {
                let mut code = self.expression(depth, fuel);
                code.push(135);
                code
            }
        }
    }

    fn assignment(&mut self, depth: usize, fuel: usize) -> Vec<u8> {
        let mut code = self.expression(depth, fuel);
        let place = self.place_to_store();
        match place {
            None => code.push(135),
            Some(place) => code.extend(self.pop_into(place)),
        }
        code
    }

    /// The byte jjkkkkkk of a field, temporary or literal variable.
    fn place_to_store(&mut self) -> Option<u8> {
        match self.random.below(4) {
            0 if self.fields > 0 => Some(self.random.below(self.fields.min(64)) as u8),
            1 if !self.plan.variables.is_empty() => {
                let variable = self.random.pick(&self.plan.variables);
                self.literal(variable).map(|index| 192 + index as u8)
            }
            _ if self.temporaries > 0 => Some(64 + self.random.below(self.temporaries) as u8),
            _ => None,
        }
    }

    fn pop_into(&mut self, place: u8) -> Vec<u8> {
        match place {
            0..=7 if self.random.percent(80) => vec![96 + place],
            64..=71 if self.random.percent(80) => vec![104 + place - 64],
            _ => vec![130, place],
        }
    }

    /// A word that is most often a boolean.
    fn condition(&mut self, depth: usize, fuel: usize) -> Vec<u8> {
        match self.random.below(20) {
            0 => self.expression(depth, 1),
            1..=6 => vec![self.random.pick(&[113, 114])],
            7..=12 if self.has_room(depth, 2) => {
                let mut code = self.expression(depth, fuel.min(1));
                code.extend(self.expression(depth + 1, 0));
                code.push(198);
                code
            }
            _ if self.has_room(depth, 2) => {
                let mut code = vec![self.random.from(116, 119) as u8, self.random.from(116, 119) as u8];
                code.push(self.random.from(178, 183) as u8);
                code
            }
            _ => vec![113],
        }
    }

    fn jump(&mut self, distance: usize) -> Vec<u8> {
        if (1..=8).contains(&distance) && self.random.percent(70) {
            return vec![143 + distance as u8];
        }
        vec![164 + (distance / 256) as u8, (distance % 256) as u8]
    }

    /// Pops and jumps over so many bytes where false, or where true.
    fn jump_if(&mut self, truth: bool, distance: usize) -> Vec<u8> {
        if !truth && (1..=8).contains(&distance) && self.random.percent(70) {
            return vec![151 + distance as u8];
        }
        vec![if truth { 168 } else { 172 } + (distance / 256) as u8, (distance % 256) as u8]
    }

    /// Two ways that meet again.
    fn fork(&mut self, depth: usize, one: Vec<u8>, other: Vec<u8>) -> Vec<u8> {
        if one.len() > 900 || other.len() > 900 {
            return vec![];
        }
        let mut code = self.condition(depth, 1);
        let over = if other.is_empty() && self.random.percent(60) { vec![] } else { self.jump(other.len()) };
        let truth = self.random.percent(40);
        code.extend(self.jump_if(truth, one.len() + over.len()));
        code.extend(one);
        code.extend(over);
        code.extend(other);
        code
    }

    fn branch(&mut self, depth: usize, fuel: usize) -> Vec<u8> {
        let one = self.statement(depth, fuel - 1);
        let other = self.statement(depth, fuel - 1);
        self.fork(depth, one, other)
    }

    fn leave_early(&mut self, depth: usize, fuel: usize) -> Vec<u8> {
        let away = self.returning(depth);
        if away.len() > 900 {
            return vec![];
        }
        let mut code = self.condition(depth, fuel.min(1));
        let truth = self.random.percent(50);
        code.extend(self.jump_if(truth, away.len()));
        code.extend(away);
        code
    }

    fn counting_loop(&mut self, depth: usize, fuel: usize) -> Vec<u8> {
        if self.temporaries == 0 {
            return vec![];
        }
        let counter = self.random.below(self.temporaries) as u8;
        let most = match self.literal(number(3)) {
            Some(most) => most,
            None => return vec![],
        };
        let mut head = vec![128, 64 + counter, 128, 128 + most as u8, 178];
        let mut body = self.statement(depth, fuel - 1);
        body.extend([128, 64 + counter, 118, 176, 130, 64 + counter]);
        if body.len() > 900 {
            return vec![];
        }
        head.extend(self.jump_if(false, body.len() + 2));
        head.extend(body);
        let back = 1024 - (head.len() + 2);
        head.extend([160 + (back / 256) as u8, (back % 256) as u8]);
        let mut code = vec![117, 130, 64 + counter];
        code.extend(head);
        code
    }

    /// A jump over bytes that nothing reaches.
    fn far_jump(&mut self, depth: usize) -> Vec<u8> {
        let far = if self.random.percent(5) { self.random.from(200, 1000) } else { self.random.from(1, 12) };
        let unreached: Vec<u8> = (0..far).map(|_| self.random.byte()).collect();
        if self.random.percent(50) {
            let mut code = self.jump(far);
            code.extend(unreached);
            return code;
        }
        let mut code = self.condition(depth, 1);
        let truth = self.random.percent(50);
        code.extend(self.jump_if(truth, far));
        code.push(self.random.from(120, 123) as u8);
        code.extend(&unreached[1..]);
        code
    }

    /// Code that pushes one word. There is room for it.
    fn expression(&mut self, depth: usize, fuel: usize) -> Vec<u8> {
        if fuel == 0 || !self.has_room(depth, 3) {
            return self.simple(depth);
        }
        match self.random.below(12) {
            0..=3 => self.sending(depth, fuel),
            4 | 5 => self.calculation(depth, fuel),
            6 => self.special_sending(depth, fuel),
            7 => {
                let mut code = self.expression(depth, fuel - 1);
                if let Some(place) = self.place_to_store() {
                    code.extend([129, place]);
                }
                code
            }
            8 => {
                let one = self.expression(depth, fuel - 1);
                let other = self.expression(depth, fuel - 1);
                let code = self.fork(depth, one, other);
                if code.is_empty() {
                    vec![115]
                } else {
                    code
                }
            }
            9 => {
                let mut code = self.expression(depth, fuel - 1);
                code.push(199);
                code
            }
            _ => self.simple(depth),
        }
    }

    fn simple(&mut self, depth: usize) -> Vec<u8> {
        match self.random.below(12) {
            0 | 1 => vec![112],
            2 => vec![self.random.from(113, 119) as u8],
            3 if depth > 0 => vec![136],
            4 | 5 if self.fields > 0 => {
                let field = self.random.below(self.fields.min(64)) as u8;
                if field < 16 && self.random.percent(80) {
                    vec![field]
                } else {
                    vec![128, field]
                }
            }
            6 | 7 if self.temporaries > 0 => {
                let temporary = self.random.below(self.temporaries) as u8;
                if temporary < 16 && self.random.percent(80) {
                    vec![16 + temporary]
                } else {
                    vec![128, 64 + temporary]
                }
            }
            8 if !self.plan.variables.is_empty() => {
                let variable = self.random.pick(&self.plan.variables);
                self.push_literal(variable, 64, 192)
            }
            _ => {
                let word = any_word(self.random, self.plan);
                self.push_literal(word, 32, 128)
            }
        }
    }

    fn push_literal(&mut self, word: u16, short: u8, extended: u8) -> Vec<u8> {
        match self.literal(word) {
            None => vec![118],
            Some(index) if index < 32 && self.random.percent(85) => vec![short + index as u8],
            Some(index) => vec![128, extended + index as u8],
        }
    }

    /// A receiver that may understand something.
    fn receiver(&mut self, depth: usize, fuel: usize) -> Vec<u8> {
        match self.random.below(10) {
            0..=3 => vec![112],
            4 => {
                let class = self.random.below(self.plan.classes.len());
                self.push_literal(self.plan.classes[class].pointer, 32, 128)
            }
            _ => self.expression(depth, fuel),
        }
    }

    /// A selector and a count: one that is known, or, where there is room, any count under one that nobody has.
    fn sent(&mut self, depth: usize) -> (u16, usize) {
        let (selector, arguments) = self.random.pick(&self.plan.selectors);
        let (nothing, left) = (self.plan.unknown.is_empty(), (self.room - self.temporaries).saturating_sub(depth + 1));
        if nothing {
            return (if self.random.percent(2) { NIL } else { selector }, arguments);
        }
        match self.random.below(20) {
            0 => (NIL, arguments),
            1 => (self.random.pick(&self.plan.unknown), self.random.from(0, 3)),
            2 => (self.random.pick(&[NIL, self.plan.unknown[0]]), self.random.from(0, left)),
            _ => (selector, arguments),
        }
    }

    fn sending(&mut self, depth: usize, fuel: usize) -> Vec<u8> {
        let (selector, arguments) = self.sent(depth);
        if !self.has_room(depth, arguments + 1) {
            return self.simple(depth);
        }
        let mut code = self.receiver(depth, fuel - 1);
        for index in 0..arguments {
            code.extend(self.expression(depth + 1 + index, fuel - 1));
        }
        let literal = match self.literal(selector) {
            Some(literal) => literal,
            None => return vec![118],
        };
        let above = self.random.percent(self.super_sends);
        let short = literal < 32 && arguments < 8;
        if !above && literal < 16 && arguments < 3 && self.random.percent(80) {
            code.push(208 + 16 * arguments as u8 + literal as u8);
        } else if short && self.random.percent(80) {
            code.extend([if above { 133 } else { 131 }, (arguments * 32 + literal) as u8]);
        } else {
            code.extend([if above { 134 } else { 132 }, arguments as u8, literal as u8]);
        }
        code
    }

    fn calculation(&mut self, depth: usize, fuel: usize) -> Vec<u8> {
        let mut code = self.expression(depth, fuel - 1);
        code.extend(self.expression(depth + 1, fuel - 1));
        code.push(self.random.from(176, 191) as u8);
        code
    }

    fn special_sending(&mut self, depth: usize, fuel: usize) -> Vec<u8> {
        let special = self.random.from(16, 31);
        let arguments = special_arguments(special);
        let mut code = self.receiver(depth, fuel - 1);
        for index in 0..arguments {
            code.extend(self.expression(depth + 1 + index, fuel - 1));
        }
        code.push(176 + special as u8);
        code
    }
}
