//! A capture in the making: a pod that watches a bus, and all that the subset lets it write.

use super::captures::first_stamp;
use super::Chance;
use crate::model::capture::{DB0, E, RS, RW, SCOPES, SIGNALS, TYPES};

/// Names that no line has, some of them nearly.
const OTHERS: [&str; 10] = [
    "CS", "clk", "rs", "DB8", "DB", "E1", "R/W", "RS_", "RW[0]", "$RS",
];

/// Codes that look like something else, parted by blanks.
const ODD_CODES: &str = "# #1 #5x $ $var $dumpvars 0 1x b z";

/// A level on a line: 0, 1, or none for x and z.
type Level = Option<bool>;

/// A capture in the making.
pub struct Pod<'a> {
    chance: &'a mut Chance,
    pub words: Vec<String>,
    /// The code of each line; a line that is not declared has none.
    codes: [Option<String>; SIGNALS.len()],
    /// The codes of other scalars.
    others: Vec<String>,
    stamp: u32,
    /// In how many of a hundred levels of a write there is an x or z.
    unsure: u64,
}

impl Pod<'_> {
    pub fn new(chance: &mut Chance) -> Pod<'_> {
        let (stamp, unsure) = (first_stamp(chance), chance.pick(&[0, 0, 0, 0, 1, 4]));
        Pod {
            chance,
            words: Vec::new(),
            codes: Default::default(),
            others: Vec::new(),
            stamp,
            unsure,
        }
    }

    /// Takes the words of a text.
    fn put(&mut self, text: &str) {
        self.words.extend(text.split(' ').map(String::from));
    }

    // -----------------------------------------------------------------------
    // Definitions
    // -----------------------------------------------------------------------

    /// The sections before `$enddefinitions`, in any order.
    pub fn definitions(&mut self) {
        let timescale = self.chance.pick(&["1 us", "1us"]);
        let mut sections = vec![format!("$timescale {timescale} $end")];
        sections.extend(self.variables());
        for _ in 0..self.chance.below(3) {
            let kind = self.word_of(SCOPES);
            let name = self.chance.pick(&["pod", "RS", "$scope", "#0", "a.b"]);
            sections.push(format!("$scope {kind} {name} $end"));
            if self.chance.percent(60) {
                sections.push(String::from("$upscope $end"));
            }
        }
        if self.chance.percent(70) {
            self.shuffle(&mut sections);
        }
        for section in sections {
            self.put(&section);
        }
        self.put("$enddefinitions $end");
    }

    /// A word of a list that blanks part.
    fn word_of(&mut self, list: &'static str) -> &'static str {
        let words: Vec<&str> = list.split(' ').collect();
        self.chance.pick(&words)
    }

    /// The eleven lines and some others. Now and then lines are missing.
    fn variables(&mut self) -> Vec<String> {
        let missing = self.chance.pick(&[0, 0, 0, 0, 0, 0, 0, 0, 2, 20]);
        let mut sections = Vec::new();
        for (line, name) in SIGNALS.iter().enumerate() {
            if self.chance.percent(missing) {
                continue;
            }
            let (code, name) = (self.code(), name.escape_ascii().to_string());
            sections.push(self.variable(&code, &name));
            self.codes[line] = Some(code);
        }
        for _ in 0..self.chance.pick(&[0, 0, 1, 3, 8]) {
            let (code, name) = (self.code(), self.chance.pick(&OTHERS));
            sections.push(self.variable(&code, name));
            self.others.push(code);
        }
        sections
    }

    fn variable(&mut self, code: &str, name: &str) -> String {
        let wire = self.chance.percent(50);
        let kind = if wire { "wire" } else { self.word_of(TYPES) };
        format!("$var {kind} 1 {code} {name} $end")
    }

    /// A new code; now and then one that serves another name already.
    fn code(&mut self) -> String {
        let used = self.codes.iter().flatten().chain(&self.others);
        let used: Vec<String> = used.cloned().collect();
        if !used.is_empty() && self.chance.percent(4) {
            return used[self.chance.index(used.len())].clone();
        }
        loop {
            let code = self.any_code();
            if code != "$end" && !used.contains(&code) {
                return code;
            }
        }
    }

    /// Mostly a short one.
    fn any_code(&mut self) -> String {
        if self.chance.percent(8) {
            return self.word_of(ODD_CODES).into();
        }
        let length = self.chance.pick(&[1, 1, 1, 1, 2, 2, 3, 6]);
        let any = |_| char::from(self.chance.between(0x21, 0x7E) as u8);
        (0..length).map(any).collect()
    }

    fn shuffle(&mut self, words: &mut [String]) {
        for last in (1..words.len()).rev() {
            words.swap(last, self.chance.index(last + 1));
        }
    }

    // -----------------------------------------------------------------------
    // Stamps and changes
    // -----------------------------------------------------------------------

    /// The change of a line, if it is declared.
    fn change(&mut self, line: usize, level: Level) -> Option<String> {
        let value = match level {
            Some(false) => '0',
            Some(true) => '1',
            None => self.chance.pick(&['x', 'X', 'z', 'Z']),
        };
        self.codes[line]
            .as_ref()
            .map(|code| format!("{value}{code}"))
    }

    /// A change of a scalar that is no line.
    fn noise(&mut self) -> Option<String> {
        if self.others.is_empty() || self.chance.percent(70) {
            return None;
        }
        let value = self.chance.pick(&['0', '1', 'x', 'X', 'z', 'Z']);
        let code = &self.others[self.chance.index(self.others.len())];
        Some(format!("{value}{code}"))
    }

    /// Changes, in so many of a hundred in a dump.
    fn put_changes(&mut self, changes: &[String], dumped: u64) {
        let dump = self.chance.percent(dumped);
        if dump {
            self.put("$dumpvars");
        }
        for change in changes {
            self.put(change);
        }
        if dump {
            self.put("$end");
        }
    }

    /// Changes at the stamp, which is now and then repeated among them.
    fn put_at_stamp(&mut self, changes: &[String]) {
        let times = self.chance.pick(&[1, 1, 1, 1, 2, 3]);
        let size = changes.len() / times + 1;
        self.put_stamp();
        for (part, some) in changes.chunks(size).enumerate() {
            if part > 0 {
                self.put_stamp();
            }
            self.put_changes(some, 8);
        }
        if self.chance.percent(5) {
            self.put_stamp();
        }
    }

    fn put_stamp(&mut self) {
        let zeros = self.chance.pick(&["", "", "", "", "0", "00000000"]);
        self.put(&format!("#{zeros}{}", self.stamp));
    }

    /// So many microseconds later.
    fn later(&mut self, by: u32) {
        self.stamp = self.stamp.wrapping_add(by);
    }

    /// Values for the lines before the first stamp or at it. Now and then some have none.
    pub fn opening(&mut self) {
        let set = self.chance.pick(&[0, 50, 100, 100, 100]);
        let mut changes = Vec::new();
        for line in 0..SIGNALS.len() {
            let level = Some(self.chance.percent(50));
            if self.chance.percent(set) {
                changes.extend(self.change(line, level));
            }
        }
        match self.chance.percent(25) {
            true => self.put_at_stamp(&changes),
            false => self.put_changes(&changes, 60),
        }
        // E alone, so that the first stamp may follow a 1.
        let level = Some(self.chance.percent(50));
        let last = self.change(E, level);
        if let (Some(change), true) = (last, self.chance.percent(20)) {
            self.put(&change);
        }
    }

    /// A pulse, or what is none although E moves.
    pub fn phrase(&mut self) {
        let wait = self.wait();
        self.later(wait);
        match self.chance.below(20) {
            0 => self.put_at_stamp(&[]),
            1 => self.glitch(),
            2 => self.through_x(),
            3 => self.pulse_unread(),
            _ => self.pulse(),
        }
    }

    fn wait(&mut self) -> u32 {
        let any = self.chance.bits() as u32 >> self.chance.below(32);
        self.chance
            .pick(&[1, 1, 2, 3, 40, 1_640, any, any, u32::MAX, 0])
    }

    /// E goes up, and later down with the lines as they then stand.
    fn pulse(&mut self) {
        let (rs, read) = (self.chance.percent(50), self.chance.percent(40));
        let set = self.chance.pick(&[100, 100, 70]);
        // The lines come with the rise or with the fall, or are set with both.
        let (at_rise, at_fall) = self.chance.pick(&[(set, 0), (set, 20), (0, set), (50, 50)]);
        let rise = self.bus(rs, read, at_rise);
        self.put_moving(rise, Some(true));
        if self.chance.percent(15) {
            self.later(1);
            self.put_moving(Vec::new(), Some(true));
        }
        let width = self.chance.pick(&[1, 1, 1, 2, 5, u32::MAX]);
        self.later(width);
        let fall = self.bus(rs, read, at_fall);
        self.put_moving(fall, Some(false));
    }

    /// Changes of the other lines, each in so many of a hundred.
    fn bus(&mut self, rs: bool, read: bool, set: u64) -> Vec<String> {
        let mut changes = Vec::new();
        for line in [RS, RW].into_iter().chain(DB0..SIGNALS.len()) {
            let unsure = match read && line >= DB0 {
                true => 40,
                false => self.unsure,
            };
            let level = match line {
                RS => rs,
                RW => read,
                _ => self.chance.percent(50),
            };
            let level = (!self.chance.percent(unsure)).then_some(level);
            if self.chance.percent(set) {
                changes.extend(self.change(line, level));
            }
            changes.extend(self.noise());
        }
        self.shuffle(&mut changes);
        changes
    }

    /// These changes at the stamp, and E as it is to stand after them: now and then it
    /// moves about before.
    fn put_moving(&mut self, mut changes: Vec<String>, to: Level) {
        let mut levels = vec![to];
        while self.chance.percent(12) {
            let level = self.chance.pick(&[Some(false), Some(true), None]);
            levels.insert(0, level);
        }
        // E's changes stand anywhere among the others, in their order.
        let mut from = 0;
        for level in levels {
            let at = self.chance.between(from, changes.len() as u64) as usize;
            let change = self.change(E, level);
            from = at as u64 + u64::from(change.is_some());
            changes.splice(at..at, change);
        }
        self.put_at_stamp(&changes);
    }

    /// E goes up and down at one stamp, which is no pulse.
    fn glitch(&mut self) {
        let (up, down) = (self.change(E, Some(true)), self.change(E, Some(false)));
        let both: Vec<String> = up.into_iter().chain(down).collect();
        self.put_at_stamp(&both);
    }

    /// E goes from 1 to 0 through x or z, or by another way that may be no fall.
    fn through_x(&mut self) {
        let between = self.chance.pick(&[None, None, Some(true)]);
        for level in [Some(true), between, Some(false)] {
            self.put_moving(Vec::new(), level);
            let wait = self.chance.pick(&[1, 1, 2, 30]);
            self.later(wait);
        }
    }

    /// A pulse of E alone, the lines as they have been left.
    fn pulse_unread(&mut self) {
        self.put_moving(Vec::new(), Some(true));
        self.later(1);
        self.put_moving(Vec::new(), Some(false));
    }
}
