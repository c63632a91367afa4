//! The program `cabinet FILE` a second time, written from docs/RULES.md and docs/COMMANDS.md alone, so that it can be
//! compared with the first (see compare.rs).
//!
//! It is naive wherever one could be clever. The record is a plain list, chains are found by trying every one, whether
//! a grant stands is asked of the definition each time, and whole states are written down, of which the kept part is
//! taken whenever a grant is judged.

/// Only so many bytes of a file are looked at.
pub const LOOKED_AT: usize = 65_535;
/// A book has at most so many conditions.
pub const MOST_CONDITIONS: usize = 1_022;
/// A condition has at most so many bytes.
pub const LONGEST_CONDITION: usize = 64;
/// At most so many values wait while a condition is read.
pub const MOST_WAITING: usize = 8;
/// There are so many hooks.
pub const HOOKS: usize = 32;
/// The persons are 1 to this number.
pub const LAST_PERSON: u8 = 200;
/// A record holds at most so many grants.
pub const MOST_GRANTS: usize = 96;
/// At most so many numbers are given.
pub const MOST_NUMBERS: u32 = 1_000_000;
/// A chain that justifies a draw has at most so many grants.
pub const LONGEST_CHAIN: usize = 8;
/// A chain that justifies a grant has at most so many grants.
pub const LONGEST_CHAIN_OF_A_GRANT: usize = 7;

const USER: usize = 0;
const GRANTEE: usize = 1;
const GROUPS: usize = 4;

/// The lowest and highest value of each variable, by its number.
const RANGES: [(u16, u16); 8] = [(1, 200), (1, 200), (0, 1439), (0, 6), (0, 65_535), (0, 1), (0, 100), (0, 1)];

/// What is known of the eight variables.
pub type State = [Option<u16>; 8];

/// Why something was refused. The layer is never printed, so it is not told here.
#[derive(Clone, Copy, PartialEq, Eq, Debug)]
pub struct Refusal {
    pub number: u32,
    pub place: u32,
}

fn refuse<T>(number: u32, place: usize) -> Result<T, Refusal> {
    Err(Refusal { number, place: place as u32 })
}

// ---------------------------------------------------------------------------------------------------------- fields

/// A field that is not cut: its tag, its value, and the offset behind it.
struct Field<'a> {
    tag: u8,
    value: &'a [u8],
    end: usize,
}

/// The field that begins at `start`, or nothing if it is cut or no byte is there.
fn whole_field(bytes: &[u8], start: usize) -> Option<Field<'_>> {
    let tag = *bytes.get(start)?;
    let high = *bytes.get(start + 1)?;
    let low = *bytes.get(start + 2)?;
    let end = start + 3 + number_of_two(high, low) as usize;
    let value = bytes.get(start + 3..end)?;
    Some(Field { tag, value, end })
}

fn number_of_two(high: u8, low: u8) -> u16 {
    256 * u16::from(high) + u16::from(low)
}

// ------------------------------------------------------------------------------------------------------ conditions

#[derive(Clone, Copy, PartialEq, Eq, Debug)]
pub enum Truth {
    True,
    False,
    Unknown,
}

fn and(one: Truth, other: Truth) -> Truth {
    match (one, other) {
        (Truth::False, _) | (_, Truth::False) => Truth::False,
        (Truth::True, Truth::True) => Truth::True,
        _ => Truth::Unknown,
    }
}

fn or(one: Truth, other: Truth) -> Truth {
    match (one, other) {
        (Truth::True, _) | (_, Truth::True) => Truth::True,
        (Truth::False, Truth::False) => Truth::False,
        _ => Truth::Unknown,
    }
}

fn not(one: Truth) -> Truth {
    match one {
        Truth::True => Truth::False,
        Truth::False => Truth::True,
        Truth::Unknown => Truth::Unknown,
    }
}

fn test(value: Option<u16>, holds: impl Fn(u16) -> bool) -> Truth {
    match value {
        None => Truth::Unknown,
        Some(known) if holds(known) => Truth::True,
        Some(_) => Truth::False,
    }
}

/// The truth that the bytes of a condition spell of a state, or nothing if they spell no condition.
pub fn truth_of_bytes(condition: &[u8], state: &State) -> Option<Truth> {
    let mut waiting = [Truth::Unknown; MOST_WAITING];
    let mut count = 0;
    let mut rest = condition;
    while !rest.is_empty() {
        let added;
        match *rest {
            [0xB1, variable, lo1, lo2, hi1, hi2, ref behind @ ..] => {
                let lo = number_of_two(lo1, lo2);
                let hi = number_of_two(hi1, hi2);
                let value = *state.get(usize::from(variable))?;
                added = test(value, |known| lo <= known && known <= hi);
                rest = behind;
            }
            [0xB2, bit, ref behind @ ..] => {
                if bit > 15 {
                    return None;
                }
                added = test(state[GROUPS], |known| (known >> bit) % 2 == 1);
                rest = behind;
            }
            [0xB3 | 0xB4, ref behind @ ..] => {
                if count < 2 {
                    return None;
                }
                let (one, other) = (waiting[count - 2], waiting[count - 1]);
                added = if rest[0] == 0xB3 { and(one, other) } else { or(one, other) };
                count -= 2;
                rest = behind;
            }
            [0xB5, ref behind @ ..] => {
                if count < 1 {
                    return None;
                }
                added = not(waiting[count - 1]);
                count -= 1;
                rest = behind;
            }
            _ => return None,
        }
        if count == MOST_WAITING {
            return None;
        }
        waiting[count] = added;
        count += 1;
    }
    if count == 1 {
        Some(waiting[0])
    } else {
        None
    }
}

/// Whether the bytes spell a condition. That does not hang on the state.
pub fn spells_a_condition(bytes: &[u8]) -> bool {
    truth_of_bytes(bytes, &[None; 8]).is_some()
}

/// The conditions of a book in their order, or refusal 17.
fn read_book(book: &[u8]) -> Result<Vec<Vec<u8>>, Refusal> {
    let mut conditions = Vec::new();
    let mut offset = 0;
    while offset < book.len() {
        let field = match whole_field(book, offset) {
            Some(field) => field,
            None => return refuse(17, offset),
        };
        let good = field.tag == 0xC1
            && !field.value.is_empty()
            && field.value.len() <= LONGEST_CONDITION
            && spells_a_condition(field.value);
        let excess = conditions.len() == MOST_CONDITIONS || field.end > LOOKED_AT;
        if !good || excess {
            return refuse(17, offset);
        }
        conditions.push(field.value.to_vec());
        offset = field.end;
    }
    Ok(conditions)
}

// -------------------------------------------------------------------------------------------------------- commands

#[derive(Clone, Copy, PartialEq, Eq, Debug)]
pub enum Mode {
    Expires,
    Rests,
}

#[derive(Clone, Copy, PartialEq, Eq, Debug)]
pub enum Outcome {
    Taken,
    Left,
}

/// What a grant says beside who gave what to whom.
#[derive(Clone, Copy, PartialEq, Eq, Debug)]
pub struct Terms {
    pub execute_condition: u16,
    pub grant_condition: u16,
    pub mode: Mode,
}

#[derive(Clone, Copy, PartialEq, Eq, Debug)]
pub enum Command {
    Issue { caller: u8, hook: u8, grantee: u8, terms: Terms, report: State },
    Amend { caller: u8, grant: u32, terms: Terms, report: State },
    Withdraw { caller: u8, grant: u32 },
    Draw { caller: u8, hook: u8, report: State, outcome: Outcome },
    Return { caller: u8, hook: u8 },
}

impl Command {
    fn letter(&self) -> char {
        match self {
            Command::Issue { .. } => 'I',
            Command::Amend { .. } => 'A',
            Command::Withdraw { .. } => 'W',
            Command::Draw { .. } => 'D',
            Command::Return { .. } => 'R',
        }
    }
}

/// The tags of a verb's fields, or nothing if the letter is no verb.
fn tags_of(verb: u8) -> Option<&'static [u8]> {
    match verb {
        b'I' => Some(&[1, 2, 3, 4, 5, 6, 7, 8]),
        b'A' => Some(&[1, 2, 5, 6, 7, 8, 10]),
        b'W' => Some(&[1, 2, 10]),
        b'D' => Some(&[1, 2, 3, 8, 9]),
        b'R' => Some(&[1, 2, 3]),
        _ => None,
    }
}

/// What a field 08 reports, or nothing if its value is no state.
fn read_report(value: &[u8]) -> Option<State> {
    if value.len() % 3 != 0 {
        return None;
    }
    let mut report = [None; 8];
    let mut lowest_allowed = 2;
    for entry in value.chunks(3) {
        let variable = entry[0];
        if variable < lowest_allowed || variable > 7 {
            return None;
        }
        report[usize::from(variable)] = Some(number_of_two(entry[1], entry[2]));
        lowest_allowed = variable + 1;
    }
    Some(report)
}

/// Whether the value has the length of its tag, and is a letter that the tag knows or a state where one is asked for.
fn value_fits(tag: u8, value: &[u8]) -> bool {
    match tag {
        1 => value.len() == 1 && tags_of(value[0]).is_some(),
        2 | 3 | 4 => value.len() == 1,
        5 | 6 => value.len() == 2,
        7 => value == b"E" || value == b"R",
        8 => read_report(value).is_some(),
        9 => value == b"T" || value == b"L",
        10 => value.len() == 4,
        _ => false,
    }
}

/// Reads one record, or refuses with 1 and the offset in the record.
pub fn read_command(record: &[u8]) -> Result<Command, Refusal> {
    // The value of each tag that was met; tag 0 is never met.
    let mut values: [Option<&[u8]>; 11] = [None; 11];
    let mut tags: &[u8] = &[1];
    let mut tag_before = 0;
    let mut offset = 0;
    while offset < record.len() {
        let field = match whole_field(record, offset) {
            Some(field) => field,
            None => return refuse(1, offset),
        };
        // Before the verb is read, `tags` holds 01 only, and so asks that it comes first.
        let keeps_the_rules = field.tag > tag_before && tags.contains(&field.tag) && value_fits(field.tag, field.value);
        if !keeps_the_rules {
            return refuse(1, offset);
        }
        if field.tag == 1 {
            tags = tags_of(field.value[0]).unwrap_or(&[]);
        }
        values[usize::from(field.tag)] = Some(field.value);
        tag_before = field.tag;
        offset = field.end;
    }
    for tag in tags {
        let has_a_default = matches!(tag, 5 | 6 | 7);
        if values[usize::from(*tag)].is_none() && !has_a_default {
            return refuse(1, record.len());
        }
    }

    let byte = |tag: usize| values[tag].map_or(0, |value| value[0]);
    let condition = |tag: usize, default: u16| values[tag].map_or(default, |value| number_of_two(value[0], value[1]));
    let caller = byte(2);
    let hook = byte(3);
    let grant = values[10].map_or(0, |value| value.iter().fold(0, |number, byte| 256 * number + u32::from(*byte)));
    let terms = Terms {
        execute_condition: condition(5, 0),
        grant_condition: condition(6, 1),
        mode: if byte(7) == b'R' { Mode::Rests } else { Mode::Expires },
    };
    let report = values[8].and_then(read_report).unwrap_or([None; 8]);
    let outcome = if byte(9) == b'T' { Outcome::Taken } else { Outcome::Left };
    match byte(1) {
        b'I' => Ok(Command::Issue { caller, hook, grantee: byte(4), terms, report }),
        b'A' => Ok(Command::Amend { caller, grant, terms, report }),
        b'W' => Ok(Command::Withdraw { caller, grant }),
        b'D' => Ok(Command::Draw { caller, hook, report, outcome }),
        _ => Ok(Command::Return { caller, hook }),
    }
}

// ----------------------------------------------------------------------------------------------------- the cabinet

/// A grant on record, with the whole state of the call that made it.
#[derive(Clone, Copy, PartialEq, Eq, Debug)]
pub struct Grant {
    pub number: u32,
    pub hook: u8,
    pub grantor: u8,
    pub grantee: u8,
    pub terms: Terms,
    pub whole_state: State,
}

/// Where the key of a hook is. In a session a promise is spent within its command.
#[derive(Clone, Copy, PartialEq, Eq, Debug)]
pub enum Key {
    In,
    Promised(u8),
    Out,
}

/// A fitted cabinet with its book.
pub struct Cabinet {
    pub owners: Vec<u8>,
    pub kept_set: u8,
    pub conditions: Vec<Vec<u8>>,
    pub record: Vec<Grant>,
    pub last_number: u32,
    pub keys: [Key; HOOKS],
}

impl Cabinet {
    /// The fit of a new cabinet, as yet without conditions of its own.
    pub fn fit(owners: &[u8], kept_set: u8) -> Result<Cabinet, Refusal> {
        if owners.len() != HOOKS {
            return refuse(16, 32);
        }
        for (index, owner) in owners.iter().enumerate() {
            if *owner > LAST_PERSON {
                return refuse(16, index);
            }
        }
        if kept_set & 0b11 != 0 {
            return refuse(16, 33);
        }
        Ok(Cabinet {
            owners: owners.to_vec(),
            kept_set,
            conditions: Vec::new(),
            record: Vec::new(),
            last_number: 0,
            keys: [Key::In; HOOKS],
        })
    }

    /// How many conditions there are, with the two that every language has.
    pub fn condition_count(&self) -> usize {
        2 + self.conditions.len()
    }

    fn is_true(&self, condition: u16, state: &State) -> bool {
        match usize::from(condition) {
            0 => true,
            1 => false,
            number => match self.conditions.get(number - 2) {
                Some(bytes) => truth_of_bytes(bytes, state) == Some(Truth::True),
                None => false,
            },
        }
    }

    /// The state with every variable unknown that is not kept.
    fn kept_part(&self, state: &State) -> State {
        let mut kept = *state;
        for variable in 0..8 {
            let always = variable == USER || variable == GRANTEE;
            if !always && (self.kept_set >> variable) % 2 == 0 {
                kept[variable] = None;
            }
        }
        kept
    }

    // ------------------------------------------------------------------------------------------------------ chains

    /// Whether each grant condition of the chain is true of the state that is kept of the grant.
    fn allows_grant(&self, chain: &[&Grant], grant: &Grant) -> bool {
        let kept = self.kept_part(&grant.whole_state);
        chain.iter().all(|earlier| self.is_true(earlier.terms.grant_condition, &kept))
    }

    /// Whether each execute condition of the chain is true of the state.
    fn allows_draw(&self, chain: &[&Grant], state: &State) -> bool {
        chain.iter().all(|earlier| self.is_true(earlier.terms.execute_condition, state))
    }

    /// Shows `look` every valid chain of the hook to the person that has at most `longest` grants, until `look` says
    /// that it has seen enough.
    fn look_at_chains<'s>(
        &'s self,
        hook: u8,
        person: u8,
        longest: usize,
        look: &mut dyn FnMut(&[&'s Grant]) -> bool,
    ) -> bool {
        if self.owners[usize::from(hook)] == 0 {
            return false;
        }
        self.lengthen(hook, person, longest, &mut Vec::new(), look)
    }

    /// The same for the chains that begin with `chain`, which is valid. Answers whether enough was seen.
    fn lengthen<'s>(
        &'s self,
        hook: u8,
        person: u8,
        longest: usize,
        chain: &mut Vec<&'s Grant>,
        look: &mut dyn FnMut(&[&'s Grant]) -> bool,
    ) -> bool {
        let owner = self.owners[usize::from(hook)];
        let reached_last = chain.last().map_or(owner, |grant| grant.grantee);
        if reached_last == person {
            // A longer chain would have to reach the person twice.
            return look(chain);
        }
        if chain.len() == longest {
            return false;
        }
        for grant in &self.record {
            let next = grant.hook == hook && grant.grantor == reached_last;
            if !next {
                continue;
            }
            let reached_before = grant.grantee == owner || chain.iter().any(|earlier| earlier.grantee == grant.grantee);
            if reached_before || !self.allows_grant(chain, grant) {
                continue;
            }
            chain.push(grant);
            let enough = self.lengthen(hook, person, longest, chain, look);
            chain.pop();
            if enough {
                return true;
            }
        }
        false
    }

    /// Whether a chain of at most seven grants on record justifies the grant, which itself may be on record or not.
    pub fn stands(&self, grant: &Grant) -> bool {
        self.look_at_chains(grant.hook, grant.grantor, LONGEST_CHAIN_OF_A_GRANT, &mut |chain| {
            self.allows_grant(chain, grant)
        })
    }

    /// The numbers of the least chain that justifies a draw.
    fn least_chain(&self, hook: u8, person: u8, state: &State) -> Option<Vec<u32>> {
        let mut least: Option<Vec<u32>> = None;
        self.look_at_chains(hook, person, LONGEST_CHAIN, &mut |chain| {
            if self.allows_draw(chain, state) {
                let numbers: Vec<u32> = chain.iter().map(|grant| grant.number).collect();
                let comes_first = match &least {
                    None => true,
                    Some(other) => (numbers.len(), &numbers) < (other.len(), other),
                };
                if comes_first {
                    least = Some(numbers);
                }
            }
            false
        });
        least
    }

    // ------------------------------------------------------------------------------------------------------ checks

    fn check_person(&self, person: u8, tag: usize) -> Result<(), Refusal> {
        if person == 0 || person > LAST_PERSON {
            return refuse(2, tag);
        }
        Ok(())
    }

    fn check_hook(&self, hook: u8) -> Result<(), Refusal> {
        if usize::from(hook) >= HOOKS || self.owners[usize::from(hook)] == 0 {
            return refuse(3, usize::from(hook));
        }
        Ok(())
    }

    fn check_report(&self, report: &State) -> Result<(), Refusal> {
        for variable in 2..8 {
            let (lowest, highest) = RANGES[variable];
            if let Some(value) = report[variable] {
                if value < lowest || value > highest {
                    return refuse(4, variable);
                }
            }
        }
        Ok(())
    }

    fn check_conditions(&self, terms: &Terms) -> Result<(), Refusal> {
        if usize::from(terms.execute_condition) >= self.condition_count() {
            return refuse(5, 5);
        }
        if usize::from(terms.grant_condition) >= self.condition_count() {
            return refuse(5, 6);
        }
        Ok(())
    }

    /// The grant with this number (7), which must be by the caller (8).
    fn check_grant(&self, number: u32, caller: u8) -> Result<Grant, Refusal> {
        let found = self.record.iter().find(|grant| grant.number == number);
        match found {
            None => refuse(7, number as usize),
            Some(grant) if grant.grantor != caller => refuse(8, number as usize),
            Some(grant) => Ok(*grant),
        }
    }

    fn check_numbers(&self) -> Result<(), Refusal> {
        if self.last_number >= MOST_NUMBERS {
            return refuse(9, 0);
        }
        Ok(())
    }

    // ------------------------------------------------------------------------------------------------------- calls

    fn issue(&mut self, caller: u8, hook: u8, grantee: u8, terms: Terms, report: State) -> Result<u32, Refusal> {
        self.check_person(caller, 2)?;
        self.check_person(grantee, 4)?;
        self.check_hook(hook)?;
        self.check_report(&report)?;
        self.check_conditions(&terms)?;
        if grantee == caller || grantee == self.owners[usize::from(hook)] {
            return refuse(6, 4);
        }
        self.check_numbers()?;
        if self.record.len() >= MOST_GRANTS {
            return refuse(10, 0);
        }
        let whole_state = filled_in(&report, caller, Some(grantee));
        let number = self.last_number + 1;
        let grant = Grant { number, hook, grantor: caller, grantee, terms, whole_state };
        if !self.stands(&grant) {
            return refuse(11, 0);
        }
        self.last_number = number;
        self.record.push(grant);
        Ok(number)
    }

    fn amend(&mut self, caller: u8, old_number: u32, terms: Terms, report: State) -> Result<u32, Refusal> {
        self.check_person(caller, 2)?;
        self.check_report(&report)?;
        self.check_conditions(&terms)?;
        let old = self.check_grant(old_number, caller)?;
        self.check_numbers()?;
        let whole_state = filled_in(&report, caller, Some(old.grantee));
        let number = self.last_number + 1;
        let grant = Grant { number, hook: old.hook, grantor: caller, grantee: old.grantee, terms, whole_state };
        // The old grant is still on record here.
        if !self.stands(&grant) {
            return refuse(11, 0);
        }
        self.last_number = number;
        self.record.retain(|other| other.number != old_number);
        self.record.push(grant);
        self.sweep();
        Ok(number)
    }

    fn withdraw(&mut self, caller: u8, number: u32) -> Result<u32, Refusal> {
        self.check_person(caller, 2)?;
        self.check_grant(number, caller)?;
        let mut stood_before = self.standing();
        stood_before.retain(|other| *other != number);
        self.record.retain(|other| other.number != number);
        self.sweep();
        let stand_after = self.standing();
        let orphans = stood_before.iter().filter(|other| !stand_after.contains(other)).count();
        Ok(orphans as u32)
    }

    /// The numbers of all grants on record that stand.
    pub fn standing(&self) -> Vec<u32> {
        self.record.iter().filter(|grant| self.stands(grant)).map(|grant| grant.number).collect()
    }

    /// Every grant of mode E that does not stand leaves the record.
    fn sweep(&mut self) {
        let standing = self.standing();
        self.record.retain(|grant| grant.terms.mode == Mode::Rests || standing.contains(&grant.number));
    }

    /// Answers the length of the chain.
    fn draw(&mut self, caller: u8, hook: u8, report: State) -> Result<u32, Refusal> {
        self.check_person(caller, 2)?;
        self.check_hook(hook)?;
        self.check_report(&report)?;
        let chain = match self.least_chain(hook, caller, &filled_in(&report, caller, None)) {
            Some(chain) => chain,
            None => return refuse(11, 0),
        };
        if self.keys[usize::from(hook)] != Key::In {
            return refuse(12, usize::from(hook));
        }
        self.keys[usize::from(hook)] = Key::Promised(caller);
        Ok(chain.len() as u32)
    }

    /// Takes or leaves the key, with the slip's hook and person.
    fn spend(&mut self, hook: u8, person: u8, outcome: Outcome) -> Result<(), Refusal> {
        if self.keys[usize::from(hook)] != Key::Promised(person) {
            return refuse(14, usize::from(hook));
        }
        self.keys[usize::from(hook)] = match outcome {
            Outcome::Taken => Key::Out,
            Outcome::Left => Key::In,
        };
        Ok(())
    }

    fn give_back(&mut self, caller: u8, hook: u8) -> Result<u32, Refusal> {
        self.check_person(caller, 2)?;
        self.check_hook(hook)?;
        if self.keys[usize::from(hook)] != Key::Out {
            return refuse(13, usize::from(hook));
        }
        self.keys[usize::from(hook)] = Key::In;
        Ok(0)
    }

    /// Puts one command to the cabinet; the answer is the number that is printed.
    pub fn answer(&mut self, command: &Command) -> Result<u32, Refusal> {
        match *command {
            Command::Issue { caller, hook, grantee, terms, report } => self.issue(caller, hook, grantee, terms, report),
            Command::Amend { caller, grant, terms, report } => self.amend(caller, grant, terms, report),
            Command::Withdraw { caller, grant } => self.withdraw(caller, grant),
            Command::Draw { caller, hook, report, outcome } => {
                let length = self.draw(caller, hook, report)?;
                self.spend(hook, caller, outcome)?;
                Ok(length)
            }
            Command::Return { caller, hook } => self.give_back(caller, hook),
        }
    }
}

/// The state of a call: the report, with caller and receiver filled in.
fn filled_in(report: &State, caller: u8, grantee: Option<u8>) -> State {
    let mut state = *report;
    state[USER] = Some(u16::from(caller));
    state[GRANTEE] = grantee.map(u16::from);
    state
}

// ----------------------------------------------------------------------------------------------------- the session

/// Judges the set-up. Answers the cabinet and the offset at which the commands begin.
fn set_up(file: &[u8]) -> Result<(Cabinet, usize), Refusal> {
    let owners = match whole_field(file, 0) {
        Some(field) if field.tag == 0xF0 => field,
        _ => return refuse(1, 0),
    };
    let kept_set = match whole_field(file, owners.end) {
        Some(field) if field.tag == 0xF1 && field.value.len() == 1 => field,
        _ => return refuse(1, owners.end),
    };
    let mut cabinet = Cabinet::fit(owners.value, kept_set.value[0])?;

    let mut book_end = kept_set.end;
    while file.get(book_end) == Some(&0xC1) {
        book_end = match whole_field(file, book_end) {
            Some(field) => field.end,
            None => file.len(),
        };
    }
    cabinet.conditions = read_book(&file[kept_set.end..book_end])?;
    Ok((cabinet, book_end))
}

fn line(count: usize, verb: char, answer: Result<u32, Refusal>) -> String {
    match answer {
        Ok(number) => format!("{count} {verb} ok {number}\n"),
        Err(refusal) => format!("{count} {verb} no {} {}\n", refusal.number, refusal.place),
    }
}

/// All that `cabinet FILE` prints of a file with these bytes.
pub fn print_session(file: &[u8]) -> String {
    let file = &file[..file.len().min(LOOKED_AT)];
    let (mut cabinet, mut offset) = match set_up(file) {
        Ok(ready) => ready,
        Err(refusal) => return line(0, '?', Err(refusal)),
    };
    let mut printed = String::new();
    let mut count = 0;
    while offset < file.len() {
        count += 1;
        let field = match whole_field(file, offset) {
            Some(field) if field.tag == 0xF3 => field,
            _ => {
                printed.push_str(&line(count, '?', refuse(1, offset)));
                break;
            }
        };
        match read_command(field.value) {
            Ok(command) => printed.push_str(&line(count, command.letter(), cabinet.answer(&command))),
            Err(refusal) => printed.push_str(&line(count, '?', Err(refusal))),
        }
        offset = field.end;
    }
    printed
}
