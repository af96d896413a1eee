//! A reader of JSON (RFC 8259) that takes nothing else.

use std::iter::Peekable;
use std::ops::Index;
use std::str::Chars;

/// A value. A number is kept as it is written.
#[derive(Debug, PartialEq)]
pub enum Json {
    Null,
    Bool(bool),
    Number(String),
    String(String),
    List(Vec<Json>),
    Object(Vec<(String, Json)>),
}

impl Json {
    pub fn text(&self) -> &str {
        match self {
            Json::String(text) => text,
            other => panic!("{other:?} is no string"),
        }
    }

    pub fn number(&self) -> &str {
        match self {
            Json::Number(number) => number,
            other => panic!("{other:?} is no number"),
        }
    }

    pub fn list(&self) -> &[Json] {
        match self {
            Json::List(list) => list,
            other => panic!("{other:?} is no list"),
        }
    }
}

impl Index<&str> for Json {
    type Output = Json;

    fn index(&self, name: &str) -> &Json {
        let Json::Object(members) = self else {
            panic!("{self:?} is no object")
        };
        let found = members.iter().find(|member| member.0 == name);
        &found.unwrap_or_else(|| panic!("there is no {name}")).1
    }
}

/// The value of a whole text.
pub fn parse(text: &str) -> Result<Json, String> {
    let mut reader = Reader(text.chars().peekable());
    let value = reader.value()?;
    reader.blanks();
    match reader.0.next() {
        None => Ok(value),
        Some(more) => Err(format!("{more:?} after the end")),
    }
}

struct Reader<'a>(Peekable<Chars<'a>>);

impl Reader<'_> {
    fn blanks(&mut self) {
        while self
            .0
            .next_if(|c| [' ', '\n', '\r', '\t'].contains(c))
            .is_some()
        {}
    }

    fn eat(&mut self, expected: char) -> bool {
        self.blanks();
        self.0.next_if_eq(&expected).is_some()
    }

    fn want(&mut self, expected: char) -> Result<(), String> {
        match self.eat(expected) {
            true => Ok(()),
            false => Err(format!("{:?} and not {expected:?}", self.0.peek())),
        }
    }

    fn value(&mut self) -> Result<Json, String> {
        self.blanks();
        match self.0.peek() {
            Some('{') => self.object(),
            Some('[') => self.array(),
            Some('"') => self.string().map(Json::String),
            Some('t') => self.word("true", Json::Bool(true)),
            Some('f') => self.word("false", Json::Bool(false)),
            Some('n') => self.word("null", Json::Null),
            _ => self.digits(),
        }
    }

    fn word(&mut self, word: &str, value: Json) -> Result<Json, String> {
        match word.chars().all(|c| self.0.next_if_eq(&c).is_some()) {
            true => Ok(value),
            false => Err(format!("not {word}")),
        }
    }

    /// A whole number: a key has no other.
    fn digits(&mut self) -> Result<Json, String> {
        let mut digits = String::new();
        while let Some(digit) = self.0.next_if(char::is_ascii_digit) {
            digits.push(digit);
        }
        match digits.is_empty() || digits.len() > 1 && digits.starts_with('0') {
            true => Err(format!("{digits:?} and {:?} are no number", self.0.peek())),
            false => Ok(Json::Number(digits)),
        }
    }

    fn array(&mut self) -> Result<Json, String> {
        let mut list = vec![];
        self.want('[')?;
        if self.eat(']') {
            return Ok(Json::List(list));
        }
        loop {
            list.push(self.value()?);
            if !self.eat(',') {
                break;
            }
        }
        self.want(']').map(|()| Json::List(list))
    }

    fn object(&mut self) -> Result<Json, String> {
        let mut members: Vec<(String, Json)> = vec![];
        self.want('{')?;
        if self.eat('}') {
            return Ok(Json::Object(members));
        }
        loop {
            self.blanks();
            let name = self.string()?;
            if members.iter().any(|member| member.0 == name) {
                return Err(format!("{name} comes twice"));
            }
            self.want(':')?;
            members.push((name, self.value()?));
            if !self.eat(',') {
                break;
            }
        }
        self.want('}').map(|()| Json::Object(members))
    }

    fn string(&mut self) -> Result<String, String> {
        self.want('"')?;
        let mut text = String::new();
        loop {
            match self.0.next().ok_or("a string without an end")? {
                '"' => return Ok(text),
                '\\' => text.push(self.escaped()?),
                c if c < ' ' => return Err(format!("{c:?} in a string")),
                c => text.push(c),
            }
        }
    }

    fn escaped(&mut self) -> Result<char, String> {
        match self.0.next() {
            Some(c @ ('"' | '\\' | '/')) => Ok(c),
            Some('n') => Ok('\n'),
            Some('t') => Ok('\t'),
            Some('u') => {
                let digits: String = self.0.by_ref().take(4).collect();
                let code = u32::from_str_radix(&digits, 16).ok();
                code.and_then(char::from_u32).ok_or(format!("\\u{digits}"))
            }
            other => Err(format!("{other:?} after a backslash")),
        }
    }
}
