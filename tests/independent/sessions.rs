//! Makes session files of many sorts from a seed, to try `cabinet FILE` with.
//!
//! While a session is written, an independent cabinet answers it, so that the next command can speak of grants that are
//! on record and of persons who have been reached.

use crate::cabinet::{read_command, spells_a_condition, Cabinet, Grant, HOOKS, LOOKED_AT, MOST_GRANTS};

// --------------------------------------------------------------------------------------------------------- chance

/// A small generator of numbers (xorshift, with a multiplication of what it gives out).
pub struct Chance {
    inner: u64,
}

impl Chance {
    pub fn new(seed: u64) -> Chance {
        // The inner number must never be 0; neighbouring seeds are driven apart.
        let mut chance = Chance { inner: seed.wrapping_mul(0x9E37_79B9_7F4A_7C15) | 1 };
        for _ in 0..8 {
            chance.next();
        }
        chance
    }

    fn next(&mut self) -> u64 {
        self.inner ^= self.inner >> 12;
        self.inner ^= self.inner << 25;
        self.inner ^= self.inner >> 27;
        self.inner.wrapping_mul(0x2545_F491_4F6C_DD1D)
    }

    /// A number below `end`, which is not 0.
    pub fn below(&mut self, end: usize) -> usize {
        ((self.next() >> 33) % end as u64) as usize
    }

    /// A number from `low` to `high`, both included.
    pub fn from_to(&mut self, low: usize, high: usize) -> usize {
        low + self.below(high - low + 1)
    }

    /// True in so many of a hundred cases.
    pub fn percent(&mut self, cases: usize) -> bool {
        self.below(100) < cases
    }

    pub fn pick<T: Copy>(&mut self, all: &[T]) -> T {
        all[self.below(all.len())]
    }

    fn byte(&mut self) -> u8 {
        self.below(256) as u8
    }
}

// ---------------------------------------------------------------------------------------------------- fields, files

/// A field: its tag and its value.
type Field = (u8, Vec<u8>);

fn two_bytes(number: u16) -> [u8; 2] {
    number.to_be_bytes()
}

fn add_field(bytes: &mut Vec<u8>, tag: u8, value: &[u8]) {
    bytes.push(tag);
    bytes.extend(two_bytes(value.len() as u16));
    bytes.extend(value);
}

fn bytes_of(fields: &[Field]) -> Vec<u8> {
    let mut bytes = Vec::new();
    for (tag, value) in fields {
        add_field(&mut bytes, *tag, value);
    }
    bytes
}

/// The offsets at which the fields of a file begin, as far as they are whole.
fn starts_of_fields(file: &[u8]) -> Vec<usize> {
    let mut starts = Vec::new();
    let mut start = 0;
    while start + 3 <= file.len() {
        starts.push(start);
        start += 3 + usize::from(u16::from_be_bytes([file[start + 1], file[start + 2]]));
    }
    starts
}

// ------------------------------------------------------------------------------------------------------ conditions

/// A value of a variable, most often one next to a bound of the tests below.
fn some_value(chance: &mut Chance, variable: u8) -> u16 {
    match variable {
        2 => chance.pick(&[0, 479, 480, 600, 600, 700, 1080, 1081, 1439]),
        3 => chance.below(7) as u16,
        4 => chance.pick(&[0, 1, 3, 3, 7, 0x8001, 0xFFFE, 0xFFFF]),
        5 => chance.pick(&[0, 1, 1, 1]),
        6 => chance.pick(&[0, 49, 50, 90, 90, 99, 100]),
        _ => chance.pick(&[0, 0, 1]),
    }
}

fn add_test(chance: &mut Chance, people: &[u8], bytes: &mut Vec<u8>) {
    if chance.percent(15) {
        bytes.extend([0xB2, chance.pick(&[0, 0, 1, 2, 15])]);
        return;
    }
    let person = u16::from(chance.pick(people));
    let (variable, low, high) = match chance.below(20) {
        0..=3 => (2, 480, 1080),
        4 => (2, 600, 600),
        5 => (2, 1081, 480),
        6 => (2, 1, 65_535),
        7 => (3, 0, 4),
        8 => (3, 5, 6),
        9 => (4, 1, 65_534),
        10 | 11 => (5, 1, 1),
        12 | 13 => (6, 50, 100),
        14 => (7, 0, 0),
        15 => (1, 1, person),
        16 => (1, person, 200),
        17 => (0, 1, person),
        18 => (0, person, 200),
        _ => (chance.below(8) as u8, chance.below(1500) as u16, chance.below(1500) as u16),
    };
    bytes.extend([0xB1, variable]);
    bytes.extend(two_bytes(low));
    bytes.extend(two_bytes(high));
}

/// Adds an expression with so many tests.
fn add_expression(chance: &mut Chance, people: &[u8], tests: usize, bytes: &mut Vec<u8>) {
    if tests == 1 {
        add_test(chance, people, bytes);
    } else {
        let left = chance.from_to(1, tests - 1);
        add_expression(chance, people, left, bytes);
        add_expression(chance, people, tests - left, bytes);
        bytes.push(chance.pick(&[0xB3, 0xB4, 0xB4]));
    }
    if chance.percent(12) {
        bytes.push(0xB5);
    }
}

fn some_condition(chance: &mut Chance, people: &[u8]) -> Vec<u8> {
    loop {
        let mut bytes = Vec::new();
        let tests = chance.pick(&[1, 1, 1, 2, 2, 3, 4, 6, 8]);
        add_expression(chance, people, tests, &mut bytes);
        if bytes.len() <= 64 {
            return bytes;
        }
    }
}

/// As many values wait as asked for, and then are joined; 3 bytes for each.
fn condition_with_waiting(waiting: usize) -> Vec<u8> {
    let mut bytes = Vec::new();
    for _ in 0..waiting {
        bytes.extend([0xB2, 0]);
    }
    bytes.extend(vec![0xB4; waiting - 1]);
    bytes
}

/// A condition of just so many bytes, 6 or more.
fn condition_of_length(length: usize) -> Vec<u8> {
    let mut bytes = vec![0xB1, 2, 0, 0, 0x05, 0x9F];
    bytes.resize(length, 0xB5);
    bytes
}

/// Bytes that spell no condition, or have a bad length.
fn bad_condition(chance: &mut Chance) -> Vec<u8> {
    match chance.below(14) {
        0 => vec![],
        1 => condition_of_length(65),
        2 => condition_with_waiting(9),
        3 => vec![0xB1, 8, 0, 0, 0, 1],
        4 => vec![0xB2, 16],
        5 => vec![0xB2, 0, 0xB3],
        6 => vec![0xB2, 0, 0xB4],
        7 => vec![0xB5],
        8 => vec![0xB2, 0, 0xB2, 1],
        9 => vec![0xB1, 2, 0, 0, 0],
        10 => vec![0xB2],
        11 => vec![chance.pick(&[0x00, 0xB0, 0xB6, 0xC1, 0xFF])],
        12 => vec![0xB2, 0, 0xB2, 0, 0xB3, 0xB3],
        _ => condition_of_length(300),
    }
}

// ----------------------------------------------------------------------------------------------------- the session

/// A session while it is written.
struct Draft<'c> {
    chance: &'c mut Chance,
    cabinet: Cabinet,
    owners: Vec<u8>,
    kept_set: u8,
    book: Vec<Vec<u8>>,
    records: Vec<Vec<u8>>,
    /// The persons who appear, and the hooks that are used.
    people: Vec<u8>,
    hooks: Vec<u8>,
    /// In how many of a hundred cases a variable is known, a field has a wrong value, a record is ill formed, and a
    /// condition is one of the book's.
    known: usize,
    wrong: usize,
    broken: usize,
    own_conditions: usize,
}

impl<'c> Draft<'c> {
    fn new(chance: &'c mut Chance, people_count: usize, hook_count: usize, book_count: usize) -> Draft<'c> {
        let first = chance.pick(&[1, 1, 2, 100, 201 - people_count]);
        let people: Vec<u8> = (first..first + people_count).map(|person| person as u8).collect();
        let mut owners = vec![0; HOOKS];
        let mut hooks = Vec::new();
        for _ in 0..hook_count {
            let hook = chance.pick(&[0, 1, 2, 7, 30, 31]);
            // The owner is not always the person with the lowest number.
            owners[usize::from(hook)] = if chance.percent(60) { people[0] } else { chance.pick(&people) };
            hooks.push(hook);
        }
        let kept_set = match chance.below(10) {
            0 => 0x00,
            1 => 0x04,
            2 => 0x24,
            3 | 4 => chance.byte() & 0xFC,
            _ => 0xFC,
        };
        let book: Vec<Vec<u8>> = (0..book_count).map(|_| some_condition(chance, &people)).collect();
        let mut cabinet = Cabinet::fit(&owners, kept_set).expect("the fitting is well formed");
        cabinet.conditions = book.clone();
        let known = chance.pick(&[20, 70, 95, 100, 100]);
        let own_conditions = chance.pick(&[5, 25, 50]);
        Draft {
            chance,
            cabinet,
            owners,
            kept_set,
            book,
            records: Vec::new(),
            people,
            hooks,
            known,
            wrong: 0,
            broken: 0,
            own_conditions,
        }
    }

    fn file(&self) -> Vec<u8> {
        let mut file = Vec::new();
        add_field(&mut file, 0xF0, &self.owners);
        add_field(&mut file, 0xF1, &[self.kept_set]);
        for condition in &self.book {
            add_field(&mut file, 0xC1, condition);
        }
        for record in &self.records {
            add_field(&mut file, 0xF3, record);
        }
        file
    }

    fn owner(&self, hook: u8) -> u8 {
        self.owners[usize::from(hook)]
    }

    // -------------------------------------------------------------------------------------------- parts of commands

    /// A report of the variables that the caller tells.
    fn report(&mut self) -> Field {
        let mut value = Vec::new();
        for variable in 2..8 {
            if self.chance.percent(self.known) {
                value.push(variable);
                value.extend(two_bytes(some_value(self.chance, variable)));
            }
        }
        (8, value)
    }

    /// A condition of the book, or the given one if there is none or chance has it so.
    fn condition_or(&mut self, usual: u16) -> u16 {
        if self.book.is_empty() || !self.chance.percent(self.own_conditions) {
            return usual;
        }
        2 + self.chance.below(self.book.len()) as u16
    }

    /// Execute condition, grant condition and mode; some of those that may be missing are.
    fn terms(&mut self, usual_execute: u16, usual_grant: u16) -> Vec<Field> {
        let execute = self.condition_or(usual_execute);
        let grant = self.condition_or(usual_grant);
        let mode = self.chance.pick(&[b'E', b'R']);
        let mut fields = vec![(5, two_bytes(execute).to_vec()), (6, two_bytes(grant).to_vec()), (7, vec![mode])];
        for (tag, default) in [(5, vec![0, 0]), (6, vec![0, 1]), (7, vec![b'E'])] {
            if self.chance.percent(50) {
                fields.retain(|(other, value)| *other != tag || *value != default);
            }
        }
        fields
    }

    /// A person who was reached on the hook, or the owner; now and then anybody.
    fn holder(&mut self, hook: u8) -> u8 {
        let mut holders = vec![self.owner(hook)];
        holders.extend(self.cabinet.record.iter().filter(|grant| grant.hook == hook).map(|grant| grant.grantee));
        if self.chance.percent(85) {
            self.chance.pick(&holders)
        } else {
            self.chance.pick(&self.people)
        }
    }

    /// Somebody to give to; now and then a receiver who cannot be one.
    fn receiver(&mut self, caller: u8, hook: u8) -> u8 {
        let mut receiver = self.chance.pick(&self.people);
        for _ in 0..20 {
            if (receiver != caller && receiver != self.owner(hook)) || self.chance.percent(3) {
                break;
            }
            receiver = self.chance.pick(&self.people);
        }
        receiver
    }

    fn some_grant(&mut self) -> Option<Grant> {
        if self.cabinet.record.is_empty() {
            return None;
        }
        let index = self.chance.below(self.cabinet.record.len());
        Some(self.cabinet.record[index])
    }

    /// The grant's grantor, or now and then somebody else.
    fn grantor_or_other(&mut self, grant: &Grant) -> u8 {
        if self.chance.percent(92) {
            grant.grantor
        } else {
            self.chance.pick(&self.people)
        }
    }

    // ----------------------------------------------------------------------------------------------------- commands

    /// Writes the command down, muddled and broken as often as asked for, and lets the cabinet answer it.
    fn put(&mut self, mut fields: Vec<Field>) -> bool {
        for (tag, value) in &mut fields {
            if self.chance.percent(self.wrong) {
                make_wrong(self.chance, &self.cabinet, *tag, value);
            }
        }
        let record =
            if self.chance.percent(self.broken) { broken_record(self.chance, fields) } else { bytes_of(&fields) };
        let accepted = match read_command(&record) {
            Ok(command) => self.cabinet.answer(&command).is_ok(),
            Err(_) => false,
        };
        self.records.push(record);
        accepted
    }

    fn issue(&mut self, caller: u8, hook: u8, grantee: u8, usual_execute: u16, usual_grant: u16) -> bool {
        let mut fields = vec![(1, vec![b'I']), (2, vec![caller]), (3, vec![hook]), (4, vec![grantee])];
        fields.extend(self.terms(usual_execute, usual_grant));
        fields.push(self.report());
        self.put(fields)
    }

    fn amend(&mut self, grant: &Grant, usual_execute: u16, usual_grant: u16) -> bool {
        let caller = self.grantor_or_other(grant);
        let mut fields = vec![(1, vec![b'A']), (2, vec![caller])];
        fields.extend(self.terms(usual_execute, usual_grant));
        fields.push(self.report());
        fields.push((10, grant.number.to_be_bytes().to_vec()));
        self.put(fields)
    }

    fn withdraw(&mut self, grant: &Grant) -> bool {
        let caller = self.grantor_or_other(grant);
        self.put(vec![(1, vec![b'W']), (2, vec![caller]), (10, grant.number.to_be_bytes().to_vec())])
    }

    fn draw(&mut self, caller: u8, hook: u8) -> bool {
        let outcome = self.chance.pick(&[b'T', b'L', b'L']);
        let report = self.report();
        self.put(vec![(1, vec![b'D']), (2, vec![caller]), (3, vec![hook]), report, (9, vec![outcome])])
    }

    fn give_back(&mut self, caller: u8, hook: u8) -> bool {
        self.put(vec![(1, vec![b'R']), (2, vec![caller]), (3, vec![hook])])
    }

    // ----------------------------------------------------------------------------------------------- runs of commands

    /// Commands of all sorts by people of all sorts.
    fn roam(&mut self, steps: usize, issues: usize, most_on_record: usize) {
        for _ in 0..steps {
            let hook = self.chance.pick(&self.hooks);
            let caller = self.holder(hook);
            if self.chance.percent(issues) && self.cabinet.record.len() < most_on_record {
                let grantee = self.receiver(caller, hook);
                let usual_grant = self.chance.pick(&[0, 0, 0, 1]);
                let usual_execute = self.chance.pick(&[0, 0, 0, 0, 0, 1]);
                self.issue(caller, hook, grantee, usual_execute, usual_grant);
                continue;
            }
            match self.chance.below(10) {
                0..=3 => {
                    self.draw(caller, hook);
                }
                4 | 5 => {
                    self.give_back(caller, hook);
                }
                6 | 7 => {
                    if let Some(grant) = self.some_grant() {
                        self.withdraw(&grant);
                    }
                }
                _ => {
                    if let Some(grant) = self.some_grant() {
                        let usual_grant = self.chance.pick(&[0, 0, 0, 1]);
                        self.amend(&grant, 0, usual_grant);
                    }
                }
            }
        }
    }

    /// A line of grants from the owner through so many other persons; where one is refused the same person tries once
    /// more.
    fn grant_along(&mut self, hook: u8, persons: usize) -> Vec<u8> {
        let owner = self.owner(hook);
        let mut others: Vec<u8> = self.people.iter().copied().filter(|person| *person != owner).collect();
        let mut line = vec![owner];
        let mut giver = owner;
        while line.len() <= persons && !others.is_empty() {
            let receiver = others.remove(self.chance.below(others.len()));
            let accepted = self.issue(giver, hook, receiver, 0, 0) || self.issue(giver, hook, receiver, 0, 0);
            if accepted {
                giver = receiver;
                line.push(receiver);
            }
        }
        line
    }

    fn draws_by(&mut self, line: &[u8], hook: u8) {
        for person in line {
            self.draw(*person, hook);
            if self.chance.percent(80) {
                self.give_back(*person, hook);
            }
        }
    }

    /// Deep chains, with ways beside them, that are cut at the top and mended.
    fn deep(&mut self) {
        let hook = self.hooks[0];
        let persons = self.chance.from_to(5, 10);
        let line = self.grant_along(hook, persons);
        self.draws_by(&line, hook);
        for _ in 0..self.chance.below(8) {
            // A way beside the line, a shortcut, a second grant beside the first, or a loop.
            let giver = self.chance.pick(&line);
            let receiver = self.receiver(giver, hook);
            self.issue(giver, hook, receiver, 0, 0);
        }
        for _ in 0..self.chance.from_to(1, 3) {
            let top = self.chance.below(self.cabinet.record.len().clamp(1, 4));
            if let Some(grant) = self.cabinet.record.get(top).copied() {
                if self.chance.percent(70) {
                    self.withdraw(&grant);
                } else {
                    self.amend(&grant, 0, 0);
                }
                self.draws_by(&line[line.len().saturating_sub(3)..], hook);
                if self.chance.percent(70) {
                    self.issue(grant.grantor, hook, grant.grantee, 0, 0);
                    self.draws_by(&line[line.len().saturating_sub(3)..], hook);
                }
            }
        }
        let steps = self.chance.below(15);
        self.roam(steps, 40, 30);
    }

    /// A long way and a short way to one person, who grants on to others. The short way lets grant but most often not
    /// draw, so that draws behind it hang on the long way, of which the ninth grant is one too many.
    fn two_ways(&mut self) {
        let hook = self.hooks[0];
        let persons = self.chance.pick(&[4, 6, 7, 8, 8, 8]);
        let line = self.grant_along(hook, persons);
        let middle = if self.chance.percent(70) { line[line.len() - 1] } else { self.chance.pick(&line) };
        let giver = self.chance.pick(&line[..line.len().min(2)]);
        self.issue(giver, hook, middle, 1, 0);
        let mut ends = vec![middle];
        for person in self.people.clone() {
            if !line.contains(&person) {
                self.issue(ends[ends.len() - 1], hook, person, 0, 0);
                ends.push(person);
            }
        }
        self.draws_by(&ends, hook);
        let steps = self.chance.below(20);
        self.roam(steps, 40, 30);
        self.draws_by(&ends, hook);
    }

    /// A record that is filled to its end on several hooks, loosened, and filled again.
    fn full(&mut self) {
        for _ in 0..self.chance.below(4) {
            let hook = self.chance.pick(&self.hooks);
            let persons = self.chance.from_to(2, 8);
            self.grant_along(hook, persons);
        }
        for _ in 0..self.chance.from_to(1, 3) {
            let mut tries = 0;
            while self.cabinet.record.len() < MOST_GRANTS && tries < 150 {
                let hook = self.chance.pick(&self.hooks);
                // Most are by the owner and cannot be granted on, so that there are few ways.
                let caller = if self.chance.percent(75) { self.owner(hook) } else { self.holder(hook) };
                let grantee = self.receiver(caller, hook);
                let usual_grant = if self.chance.percent(6) { 0 } else { 1 };
                self.issue(caller, hook, grantee, 0, usual_grant);
                tries += 1;
            }
            // The lines stand first on record: without its top a line rests, and still counts.
            let top = self.chance.below(self.cabinet.record.len().clamp(1, 8));
            if let Some(grant) = self.cabinet.record.get(top).copied() {
                self.withdraw(&grant);
            }
            for _ in 0..self.chance.from_to(1, 12) {
                self.roam(1, 0, 0);
                let hook = self.chance.pick(&self.hooks);
                // Somebody without a chain too: a full record is found before that.
                let caller = if self.chance.percent(50) { self.owner(hook) } else { self.chance.pick(&self.people) };
                let grantee = self.receiver(caller, hook);
                self.issue(caller, hook, grantee, 0, 1);
            }
        }
    }
}

/// Gives a field of a command a value that reads well but is wrong, or next to wrong.
fn make_wrong(chance: &mut Chance, cabinet: &Cabinet, tag: u8, value: &mut Vec<u8>) {
    match tag {
        2 | 4 => *value = vec![chance.pick(&[0, 0, 1, 200, 201, 202, 255])],
        3 => *value = vec![chance.pick(&[0, 3, 15, 31, 32, 33, 200, 255])],
        5 | 6 => {
            let count = cabinet.condition_count() as u16;
            let number = chance.pick(&[count - 1, count, count, count + 1, 1023, 1024, 65_535]);
            *value = two_bytes(number).to_vec();
        }
        8 => {
            for entry in value.chunks_mut(3) {
                if chance.percent(40) {
                    let (last, beyond) = match entry[0] {
                        2 => (1439, 1440),
                        3 => (6, 7),
                        4 => (65_535, 65_535),
                        6 => (100, 101),
                        _ => (1, 2),
                    };
                    let number = chance.pick(&[last, beyond, beyond, 65_535]);
                    entry[1..].copy_from_slice(&two_bytes(number));
                }
            }
        }
        10 => {
            let last = cabinet.last_number;
            let lower = chance.below(last as usize + 1) as u32;
            let number = chance.pick(&[0, last, last + 1, lower, lower, lower + 256, lower + 65_536, u32::MAX]);
            *value = number.to_be_bytes().to_vec();
        }
        _ => {}
    }
}

/// A record that most often breaks a rule of reading.
fn broken_record(chance: &mut Chance, mut fields: Vec<Field>) -> Vec<u8> {
    let index = chance.below(fields.len());
    match chance.below(14) {
        0 | 1 => {
            fields.remove(index);
        }
        2 => {
            let again = fields[index].clone();
            fields.insert(index, again);
        }
        3 => {
            let other = chance.below(fields.len());
            fields.swap(index, other);
        }
        4 => {
            // A field that the verb may not have, in its place by the tag.
            let tag = chance.pick(&[0, 3, 4, 5, 6, 7, 8, 9, 10, 11, 255]);
            let value = match tag {
                5 | 6 => vec![0, 0],
                7 => vec![b'E'],
                8 => vec![],
                9 => vec![b'T'],
                10 => vec![0, 0, 0, 1],
                _ => vec![1],
            };
            let place = fields.iter().position(|field| field.0 >= tag).unwrap_or(fields.len());
            fields.insert(place, (tag, value));
        }
        5 => {
            // A value of another length.
            if chance.percent(50) {
                fields[index].1.push(0);
            } else {
                fields[index].1.pop();
            }
        }
        6 => {
            let letter = chance.pick(&[b'I', b'A', b'W', b'D', b'R', b'E', b'T', b'L', b'X', b'i', b'e', 0]);
            for (tag, value) in &mut fields {
                let other_letter = matches!(*tag, 1 | 7 | 9) && chance.percent(60);
                if other_letter {
                    *value = vec![letter];
                }
            }
        }
        7 | 8 => {
            // A state with a wrong entry.
            for (tag, value) in &mut fields {
                if *tag == 8 {
                    match chance.below(4) {
                        0 => value.extend([chance.pick(&[0, 1, 2, 7, 8, 255]), 0, 1]),
                        1 => value.splice(0..0, [chance.pick(&[0, 1, 2, 7, 8, 255]), 0, 1]).for_each(drop),
                        2 => value.truncate(value.len().saturating_sub(chance.from_to(1, 2))),
                        _ => value.extend_from_within(..),
                    }
                }
            }
        }
        _ => {}
    }
    let mut record = bytes_of(&fields);
    match chance.below(14) {
        0 | 1 => record.truncate(chance.below(record.len() + 1)),
        2 => record.push(chance.pick(&[0, 1, 8, 9, 10, 11])),
        3 => {
            let place = chance.below(record.len().max(1));
            if let Some(byte) = record.get_mut(place) {
                *byte = chance.byte();
            }
        }
        4 => record.extend([0xFF, 0xFF]),
        5 => {
            let length = chance.below(30);
            record = (0..length).map(|_| chance.pick(&[0, 0, 0, 1, 1, 2, 3, 8, 10, b'R', b'W', 0xFF])).collect();
        }
        6 => record.clear(),
        _ => {}
    }
    record
}

// -------------------------------------------------------------------------------------------------- sorts of files

/// A file with a well-formed set-up. With `muddled` some values are wrong and some records ill formed.
fn session(chance: &mut Chance, muddled: bool) -> Vec<u8> {
    let sort = chance.below(22);
    let (people_count, hook_count) = match sort {
        0..=4 => (chance.from_to(3, 6), chance.from_to(1, 3)),
        5..=12 => (chance.from_to(9, 13), chance.from_to(1, 2)),
        13..=15 => (chance.from_to(6, 40), chance.from_to(1, 4)),
        16..=18 => (chance.from_to(4, 5), 1),
        _ => (chance.from_to(5, 8), 1),
    };
    let book_count = if chance.percent(3) { chance.from_to(900, 1_022) } else { chance.below(14) };
    let mut draft = Draft::new(chance, people_count, hook_count, book_count);
    if muddled {
        draft.wrong = draft.chance.pick(&[2, 4, 8, 25]);
        draft.broken = draft.chance.pick(&[0, 6, 12]);
    }
    match sort {
        0..=4 => {
            let steps = draft.chance.from_to(10, 60);
            draft.roam(steps, 50, 30);
        }
        5..=12 => {
            // A line grows long only if most of its conditions are true.
            draft.own_conditions = draft.chance.pick(&[0, 5, 10, 40]);
            draft.known = draft.chance.pick(&[80, 100]);
            if sort <= 9 {
                draft.deep();
            } else {
                draft.two_ways();
            }
        }
        13..=15 => draft.full(),
        16..=18 => {
            // Few people with many grants: loops, and grants beside grants.
            let steps = draft.chance.from_to(10, 40);
            draft.roam(steps, 85, 28);
            draft.roam(20, 30, 28);
        }
        _ => {
            // Some more people, and most grants under conditions: what one chain does not justify another may.
            draft.own_conditions = draft.chance.pick(&[50, 80, 100]);
            draft.known = draft.chance.pick(&[80, 100]);
            let steps = draft.chance.from_to(40, 90);
            draft.roam(steps, 85, 40);
            draft.roam(25, 40, 40);
        }
    }
    draft.file()
}

/// Bytes changed, cut off, put in; wrong tags and lengths.
fn tangle(chance: &mut Chance, mut file: Vec<u8>) -> Vec<u8> {
    for _ in 0..chance.from_to(1, 3) {
        let starts = starts_of_fields(&file);
        if starts.is_empty() {
            return file;
        }
        // Most often behind the set-up, which is fragile.
        let from = if chance.percent(15) { 0 } else { file.len().min(39) };
        let place = if from < file.len() { chance.from_to(from, file.len() - 1) } else { from - 1 };
        let start = chance.pick(&starts);
        match chance.below(10) {
            0..=3 => file[place] = chance.pick(&[0, 1, 2, 3, 8, 0xC1, 0xF3, 0xFF, file[place] ^ 1, file[place] ^ 0x80]),
            4 => file.insert(place, chance.pick(&[0, 1, 0xB5, 0xC1, 0xF3])),
            5 => {
                file.remove(place);
            }
            6 => file.truncate(place),
            7 => {
                let tag = chance.pick(&[0, 1, 0xC1, 0xF0, 0xF1, 0xF2, 0xF3, 0xF4]);
                if start > 0 || chance.percent(20) {
                    file[start] = tag;
                }
            }
            8 => file[start + 2] = file[start + 2].wrapping_add(chance.pick(&[1, 255, 3, 100])),
            _ => {
                // A piece of the file once more.
                let end = (place + chance.from_to(1, 60)).min(file.len());
                let piece = file[place..end].to_vec();
                file.splice(place..place, piece).for_each(drop);
            }
        }
    }
    file
}

/// A file whose set-up is refused, or only just is not.
fn set_up_fault(chance: &mut Chance) -> Vec<u8> {
    let book_count = chance.below(6);
    let mut draft = Draft::new(chance, 4, 2, book_count);
    draft.roam(4, 60, 10);
    let kinds = draft.chance.pick(&[1, 1, 1, 2]);
    let mut cut_to = None;
    let mut tag_of_owners = 0xF0;
    let mut length_of_kept_set = 1;
    for _ in 0..kinds {
        match draft.chance.below(24) {
            0 => draft.owners.truncate(draft.chance.below(32)),
            1 => draft.owners.resize(draft.chance.from_to(33, 40), 0),
            2 | 3 => {
                let index = draft.chance.below(draft.owners.len().max(1));
                let owner = draft.chance.pick(&[200, 201, 202, 255]);
                if let Some(place) = draft.owners.get_mut(index) {
                    *place = owner;
                }
            }
            4 => draft.kept_set |= draft.chance.pick(&[1, 2, 3]),
            22 | 23 => {
                // Two faults of the fitting, or two owners that are none.
                let index = draft.chance.below(draft.owners.len().max(1));
                for owner in draft.owners.iter_mut().skip(index).step_by(3) {
                    *owner = 201;
                }
                if draft.chance.percent(60) {
                    draft.kept_set |= draft.chance.pick(&[1, 2, 3]);
                }
                if draft.chance.percent(30) {
                    draft.owners.resize(draft.chance.pick(&[31, 33]), 0);
                }
            }
            5 => tag_of_owners = draft.chance.pick(&[0xF1, 0xF3, 0xC1, 0]),
            6 => length_of_kept_set = draft.chance.pick(&[0, 2, 256]),
            7 => cut_to = Some(draft.chance.below(60)),
            8 => draft.book.insert(0, condition_of_length(64)),
            9 => draft.book.push(condition_with_waiting(8)),
            10 => {
                // As many conditions as a book may have, or some more.
                let count = draft.chance.pick(&[1_021, 1_022, 1_022, 1_023, 1_024, 1_100]);
                draft.book.resize_with(count, || vec![0xB2, 0]);
                if draft.chance.percent(30) {
                    draft.book.truncate(1_022);
                    let last = bad_condition(draft.chance);
                    draft.book.push(last);
                }
            }
            11 => {
                // A book that runs into the end of what is looked at.
                let count = draft.chance.from_to(970, 990);
                let length = draft.chance.from_to(62, 64);
                draft.book.resize_with(count, || condition_of_length(length));
            }
            12 => {
                // A book that is cut in its last field.
                let bytes = draft.file().len();
                let commands: usize = draft.records.iter().map(|record| record.len() + 3).sum();
                let back = draft.chance.from_to(1, 5);
                cut_to = Some(bytes - commands - back);
            }
            13 => {
                let index = draft.chance.below(draft.book.len() + 1);
                let mut bytes = some_condition(draft.chance, &draft.people);
                let place = draft.chance.below(bytes.len());
                bytes[place] = draft.chance.byte();
                draft.book.insert(index, bytes);
            }
            _ => {
                let index = draft.chance.below(draft.book.len() + 1);
                let bad = bad_condition(draft.chance);
                draft.book.insert(index, bad);
            }
        }
    }
    let mut file = draft.file();
    file[0] = tag_of_owners;
    if length_of_kept_set != 1 {
        let start = 3 + draft.owners.len();
        let mut field = Vec::new();
        add_field(&mut field, 0xF1, &vec![4; length_of_kept_set]);
        file.splice(start..start + 4, field).for_each(drop);
    }
    if let Some(length) = cut_to {
        file.truncate(length);
    }
    file
}

/// A file longer than what is looked at.
fn long_file(chance: &mut Chance) -> Vec<u8> {
    if chance.percent(25) {
        // Long by its commands alone.
        let mut draft = Draft::new(chance, 5, 2, 5);
        while draft.file_is_short() {
            draft.roam(100, 40, 12);
        }
        return draft.file();
    }
    // One long record that is ill formed is put in, such that the end of a field falls near the end of what is looked
    // at.
    let mut file = session(chance, false);
    let starts = starts_of_fields(&file);
    let first_command = starts.iter().position(|start| file[*start] == 0xF3);
    let Some(first_command) = first_command else {
        return file;
    };
    let near = chance.pick(&starts[first_command..]);
    let before = chance.pick(&starts[first_command..]).min(near);
    let wanted = LOOKED_AT - 4 + chance.below(9);
    if wanted < near + 3 {
        return file;
    }
    let mut piece = Vec::new();
    let length = wanted - near - 3;
    let mut record = if chance.percent(50) { vec![1, 0, 1, b'R', 2, 0, 1, 1, 3, 0, 1, 0] } else { vec![] };
    record.resize(length, chance.pick(&[0, 1, 0xF3]));
    add_field(&mut piece, 0xF3, &record);
    file.splice(before..before, piece).for_each(drop);
    file
}

impl Draft<'_> {
    fn file_is_short(&self) -> bool {
        self.records.iter().map(|record| record.len() + 3).sum::<usize>() <= LOOKED_AT
    }
}

/// The sorts of files, by the numbers that `make_file` answers.
pub const SORTS: [&str; 5] = ["well formed", "muddled", "tangled", "set-up faults", "long"];

/// One session file, with the number of its sort.
pub fn make_file(chance: &mut Chance) -> (usize, Vec<u8>) {
    match chance.below(100) {
        0..=41 => (0, session(chance, false)),
        42..=66 => (1, session(chance, true)),
        67..=81 => {
            let muddled = chance.percent(40);
            let file = session(chance, muddled);
            (2, tangle(chance, file))
        }
        82..=97 => (3, set_up_fault(chance)),
        _ => (4, long_file(chance)),
    }
}

/// The generator's own tools must make what they say.
pub fn check_tools() {
    assert!(spells_a_condition(&condition_with_waiting(8)), "eight may wait");
    assert!(!spells_a_condition(&condition_with_waiting(9)), "nine may not");
    assert!(spells_a_condition(&condition_of_length(64)), "a long condition");
    let mut chance = Chance::new(1);
    for _ in 0..1_000 {
        assert!(spells_a_condition(&some_condition(&mut chance, &[1, 2, 3])), "made as a condition");
        let bad = bad_condition(&mut chance);
        assert!(bad.len() > 64 || !spells_a_condition(&bad), "made as no condition");
    }
}
