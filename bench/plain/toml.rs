//! TOML 1.1 in hand-written plain Rust, unproved. Values that no configuration has are read and
//! forgotten.

use std::collections::BTreeMap;

/// The most parts of a key, and the most arrays and inline tables in one another.
const MAX_DEPTH: usize = 80;

pub enum Value {
    Text(String),
    Whole(i64),
    /// A float, a boolean, a date or a time.
    Other,
    Array(Vec<Value>),
    Table(Table),
}

/// What has made a table.
#[derive(Clone, Copy, PartialEq, Eq)]
enum Maker {
    /// Headers went through it.
    Passed,
    /// A dotted key.
    Dotted,
    /// Its own header, or the text itself.
    Header,
    /// It is written as a value, and complete.
    Inline,
}

pub struct Table {
    pub entries: BTreeMap<String, Value>,
    maker: Maker,
}

impl Table {
    fn new(maker: Maker) -> Table {
        Table { entries: BTreeMap::new(), maker }
    }

    pub fn get(&self, key: &str) -> Option<&Value> {
        self.entries.get(key)
    }

    /// The table to which a header's key leads.
    fn table_at(&mut self, path: &[String]) -> Option<&mut Table> {
        let mut table = self;
        for key in path {
            let next = table.entries.entry(key.clone()).or_insert_with(|| Value::Table(Table::new(Maker::Passed)));
            table = match next {
                Value::Table(it) if it.maker != Maker::Inline => it,
                Value::Array(items) => match items.last_mut() {
                    // an array that is written as a value has no table that a header made
                    Some(Value::Table(it)) if it.maker != Maker::Inline => it,
                    _ => return None,
                },
                _ => return None,
            };
        }
        Some(table)
    }

    /// Puts a value at a key, which may have dots.
    fn put(&mut self, key: Vec<String>, value: Value) -> Option<()> {
        let mut table = self;
        let (last, path) = key.split_last()?;
        for part in path {
            let next = table.entries.entry(part.clone()).or_insert_with(|| Value::Table(Table::new(Maker::Dotted)));
            table = match next {
                Value::Table(it) if matches!(it.maker, Maker::Passed | Maker::Dotted) => it,
                _ => return None,
            };
            table.maker = Maker::Dotted;
        }
        if table.entries.contains_key(last) {
            return None;
        }
        table.entries.insert(last.clone(), value);
        Some(())
    }

    /// Opens the table of a header.
    fn open(&mut self, key: &[String], is_array: bool) -> Option<()> {
        let (last, path) = key.split_last()?;
        let table = self.table_at(path)?;
        let new = Table::new(Maker::Header);
        match table.entries.get_mut(last) {
            None if is_array => {
                table.entries.insert(last.clone(), Value::Array(vec![Value::Table(new)]));
            }
            None => {
                table.entries.insert(last.clone(), Value::Table(new));
            }
            Some(Value::Table(it)) if !is_array && it.maker == Maker::Passed => it.maker = Maker::Header,
            Some(Value::Array(items)) if is_array && matches!(items.last(), Some(Value::Table(it)) if it.maker == Maker::Header) => {
                items.push(Value::Table(new));
            }
            _ => return None,
        }
        Some(())
    }
}

/// The table that the bytes are, if they are TOML.
pub fn read(bytes: &[u8]) -> Option<Table> {
    let text = std::str::from_utf8(bytes).ok()?;
    let mut reader = Reader { rest: text.strip_prefix('\u{FEFF}').unwrap_or(text) };
    let (mut root, mut header) = (Table::new(Maker::Header), Vec::new());
    loop {
        reader.blanks()?;
        if reader.rest.is_empty() {
            return Some(root);
        }
        if reader.takes("[") {
            let is_array = reader.takes("[");
            reader.spaces();
            header = reader.key()?;
            reader.wants(if is_array { "]]" } else { "]" })?;
            root.open(&header, is_array)?;
        } else {
            let (key, value) = reader.pair(MAX_DEPTH)?;
            root.table_at(&header)?.put(key, value)?;
        }
        reader.spaces();
        if !reader.rest.is_empty() && !reader.rest.starts_with('#') && !reader.line_end() {
            return None;
        }
    }
}

struct Reader<'a> {
    rest: &'a str,
}

fn is_control(it: char) -> bool {
    it != '\t' && (it < ' ' || it == '\x7F')
}

impl<'a> Reader<'a> {
    fn takes(&mut self, start: &str) -> bool {
        match self.rest.strip_prefix(start) {
            Some(rest) => {
                self.rest = rest;
                true
            }
            None => false,
        }
    }

    fn wants(&mut self, start: &str) -> Option<()> {
        self.takes(start).then_some(())
    }

    fn while_it(&mut self, is_it: impl Fn(char) -> bool) -> &'a str {
        let end = self.rest.find(|it| !is_it(it)).unwrap_or(self.rest.len());
        let (it, rest) = self.rest.split_at(end);
        self.rest = rest;
        it
    }

    fn spaces(&mut self) {
        self.while_it(|it| it == ' ' || it == '\t');
    }

    fn line_end(&mut self) -> bool {
        self.takes("\n") || self.takes("\r\n")
    }

    /// Goes past spaces, line ends and comments.
    fn blanks(&mut self) -> Option<()> {
        loop {
            self.spaces();
            if self.takes("#") {
                self.while_it(|it| !is_control(it));
                if !self.rest.is_empty() && !self.line_end() {
                    return None;
                }
            } else if !self.line_end() {
                return Some(());
            }
        }
    }

    /// A key, with the spaces after it.
    fn key(&mut self) -> Option<Vec<String>> {
        let mut parts = Vec::new();
        loop {
            let part = match self.rest.chars().next()? {
                '"' | '\'' => self.one_line()?,
                _ => self.bare()?.to_string(),
            };
            parts.push(part);
            self.spaces();
            if !self.takes(".") {
                return (parts.len() <= MAX_DEPTH).then_some(parts);
            }
            self.spaces();
        }
    }

    fn bare(&mut self) -> Option<&'a str> {
        let part = self.while_it(|it| it.is_ascii_alphanumeric() || it == '_' || it == '-');
        (!part.is_empty()).then_some(part)
    }

    fn pair(&mut self, deep: usize) -> Option<(Vec<String>, Value)> {
        let key = self.key()?;
        self.wants("=")?;
        self.spaces();
        Some((key, self.value(deep)?))
    }

    fn value(&mut self, deep: usize) -> Option<Value> {
        match self.rest.chars().next()? {
            '"' | '\'' => Some(Value::Text(self.text()?)),
            '[' if deep > 0 => self.array(deep - 1),
            '{' if deep > 0 => self.inline(deep - 1),
            _ => self.scalar(),
        }
    }

    /// Whether the list goes on after an element.
    fn goes_on(&mut self, end: &str) -> Option<bool> {
        self.blanks()?;
        if self.takes(",") {
            self.blanks()?;
            return Some(!self.takes(end));
        }
        self.wants(end)?;
        Some(false)
    }

    fn array(&mut self, deep: usize) -> Option<Value> {
        self.wants("[")?;
        self.blanks()?;
        let mut items = Vec::new();
        let mut goes_on = !self.takes("]");
        while goes_on {
            items.push(self.value(deep)?);
            goes_on = self.goes_on("]")?;
        }
        Some(Value::Array(items))
    }

    fn inline(&mut self, deep: usize) -> Option<Value> {
        self.wants("{")?;
        self.blanks()?;
        let mut table = Table::new(Maker::Inline);
        let mut goes_on = !self.takes("}");
        while goes_on {
            let (key, value) = self.pair(deep)?;
            table.put(key, value)?;
            goes_on = self.goes_on("}")?;
        }
        Some(Value::Table(table))
    }

    fn text(&mut self) -> Option<String> {
        for quotes in ["\"\"\"", "'''"] {
            if self.takes(quotes) {
                return self.lines(quotes);
            }
        }
        self.one_line()
    }

    /// A text of one line, with its quotes.
    fn one_line(&mut self) -> Option<String> {
        let quote = self.rest.chars().next()?;
        self.rest = &self.rest[1..];
        let mut text = String::new();
        loop {
            text += self.while_it(|it| it != quote && !is_control(it) && (it != '\\' || quote == '\''));
            let next = self.rest.chars().next()?;
            self.rest = &self.rest[1..];
            if next == quote {
                return Some(text);
            }
            if next != '\\' {
                return None;
            }
            text.push(self.escape()?);
        }
    }

    /// The rest of a text of several lines.
    fn lines(&mut self, quotes: &str) -> Option<String> {
        self.line_end();
        let quote = quotes.chars().next()?;
        let mut text = String::new();
        loop {
            text += self.while_it(|it| it != quote && !is_control(it) && (it != '\\' || quote == '\''));
            if self.line_end() {
                text.push('\n');
            } else if self.rest.starts_with(quote) {
                let count = self.while_it(|it| it == quote).len();
                if count > 5 {
                    return None;
                }
                text.extend(std::iter::repeat_n(quote, if count < 3 { count } else { count - 3 }));
                if count >= 3 {
                    return Some(text);
                }
            } else {
                self.wants("\\")?;
                let mut after = Reader { rest: self.rest };
                after.spaces();
                if after.line_end() {
                    while after.line_end() || after.rest.starts_with([' ', '\t']) {
                        after.spaces();
                    }
                    self.rest = after.rest;
                } else {
                    text.push(self.escape()?);
                }
            }
        }
    }

    /// What follows a backslash.
    fn escape(&mut self) -> Option<char> {
        let letter = self.rest.chars().next().filter(char::is_ascii)?;
        self.rest = &self.rest[1..];
        let digits = match letter {
            'b' => return Some('\x08'),
            't' => return Some('\t'),
            'n' => return Some('\n'),
            'f' => return Some('\x0C'),
            'r' => return Some('\r'),
            'e' => return Some('\x1B'),
            '"' | '\\' => return Some(letter),
            'x' => 2,
            'u' => 4,
            'U' => 8,
            _ => return None,
        };
        let number = self.rest.get(..digits).filter(|it| it.bytes().all(|digit| digit.is_ascii_hexdigit()))?;
        self.rest = &self.rest[digits..];
        char::from_u32(u32::from_str_radix(number, 16).ok()?)
    }

    /// A number, a boolean, a date or a time.
    fn scalar(&mut self) -> Option<Value> {
        let is_part = |it: char| it.is_ascii_alphanumeric() || "+-_.:".contains(it);
        let begin = self.rest;
        let mut word = self.while_it(is_part);
        // a space may stand between a date and a time
        if self.rest.starts_with(' ') && self.rest[1..].starts_with(|it: char| it.is_ascii_digit()) {
            self.rest = &self.rest[1..];
            self.while_it(is_part);
            word = &begin[..begin.len() - self.rest.len()];
        }
        match word {
            "true" | "false" | "inf" | "+inf" | "-inf" | "nan" | "+nan" | "-nan" => return Some(Value::Other),
            _ => {}
        }
        let digits = word.bytes().take_while(u8::is_ascii_digit).count();
        match word.as_bytes().get(digits) {
            Some(b'-' | b':') if digits > 0 => moment(word).map(|()| Value::Other),
            _ => number(word),
        }
    }
}

/// A whole number or a float.
fn number(word: &str) -> Option<Value> {
    for (prefix, radix) in [("0x", 16), ("0o", 8), ("0b", 2)] {
        if let Some(digits) = word.strip_prefix(prefix) {
            return i64::from_str_radix(&plain_digits(digits, radix)?, radix).ok().map(Value::Whole);
        }
    }
    let unsigned = word.strip_prefix(['+', '-']).unwrap_or(word);
    let (before, exponent) = match unsigned.split_once(['e', 'E']) {
        Some((before, exponent)) => (before, Some(exponent)),
        None => (unsigned, None),
    };
    let (whole, fraction) = match before.split_once('.') {
        Some((whole, fraction)) => (whole, Some(fraction)),
        None => (before, None),
    };
    let digits = plain_digits(whole, 10)?;
    if digits.len() > 1 && digits.starts_with('0') {
        return None;
    }
    if exponent.is_none() && fraction.is_none() {
        return word.replace('_', "").parse().ok().map(Value::Whole);
    }
    if let Some(fraction) = fraction {
        plain_digits(fraction, 10)?;
    }
    if let Some(exponent) = exponent {
        plain_digits(exponent.strip_prefix(['+', '-']).unwrap_or(exponent), 10)?;
    }
    // a number that is too large for a float is refused
    word.replace('_', "").parse::<f64>().ok().filter(|it| it.is_finite()).map(|_| Value::Other)
}

/// The digits without the underscores, each of which stands between two digits.
fn plain_digits(word: &str, radix: u32) -> Option<String> {
    let is_digits = word.split('_').all(|part| !part.is_empty() && part.chars().all(|it| it.is_digit(radix)));
    is_digits.then(|| word.replace('_', ""))
}

/// Whether the word is a date, a time, or both.
fn moment(word: &str) -> Option<()> {
    let mut rest = word;
    if word.as_bytes().get(2) != Some(&b':') {
        let (year, month, day) = (two(&mut rest)? * 100 + two(&mut rest)?, after("-", &mut rest)?, after("-", &mut rest)?);
        let is_leap = year % 4 == 0 && (year % 100 != 0 || year % 400 == 0);
        let days = match month {
            2 if is_leap => 29,
            2 => 28,
            4 | 6 | 9 | 11 => 30,
            1..=12 => 31,
            _ => return None,
        };
        if !(1..=days).contains(&day) {
            return None;
        }
        if rest.is_empty() {
            return Some(());
        }
        rest = rest.strip_prefix(['T', 't', ' '])?;
        time(&mut rest)?;
        rest = match rest.strip_prefix(['Z', 'z']) {
            Some(rest) => rest,
            None if rest.is_empty() => rest,
            None => {
                rest = rest.strip_prefix(['+', '-'])?;
                if two(&mut rest)? > 23 || after(":", &mut rest)? > 59 {
                    return None;
                }
                rest
            }
        };
    } else {
        time(&mut rest)?;
    }
    rest.is_empty().then_some(())
}

/// Hours and minutes, and perhaps seconds with a fraction.
fn time(rest: &mut &str) -> Option<()> {
    if two(rest)? > 23 || after(":", rest)? > 59 {
        return None;
    }
    if !rest.starts_with(':') {
        return Some(());
    }
    if after(":", rest)? > 60 {
        return None;
    }
    if let Some(fraction) = rest.strip_prefix('.') {
        let digits = fraction.bytes().take_while(u8::is_ascii_digit).count();
        if digits == 0 {
            return None;
        }
        *rest = &fraction[digits..];
    }
    Some(())
}

fn two(rest: &mut &str) -> Option<u32> {
    let digits = rest.get(..2).filter(|it| it.bytes().all(|digit| digit.is_ascii_digit()))?;
    *rest = &rest[2..];
    digits.parse().ok()
}

fn after(mark: &str, rest: &mut &str) -> Option<u32> {
    *rest = rest.strip_prefix(mark)?;
    two(rest)
}
