//! JSON texts (RFC 8259), as FORMATS.md has them: at most 127 arrays and objects deep, and no number beyond a double's.
use std::collections::BTreeMap;

const DEEPEST: usize = 127;

pub enum Json {
    /// Null, true or false.
    Word,
    /// The number where it is spelled as a whole one below 2^64.
    Number(Option<u64>),
    Text(String),
    List(Vec<Json>),
    /// Of a repeated key the last value.
    Object(BTreeMap<String, Json>),
}

pub struct NotJson;

pub fn parse(text: &[u8]) -> Result<Json, NotJson> {
    let mut reader = Reader { text, at: 0 };
    let whole = reader.value(0)?;
    reader.skip_space();
    if reader.at == text.len() { Ok(whole) } else { Err(NotJson) }
}

struct Reader<'a> {
    text: &'a [u8],
    at: usize,
}

impl Reader<'_> {
    fn peek(&self) -> Option<u8> {
        self.text.get(self.at).copied()
    }

    fn next(&mut self) -> Result<u8, NotJson> {
        let byte = self.peek().ok_or(NotJson)?;
        self.at += 1;
        Ok(byte)
    }

    fn skip_space(&mut self) {
        while let Some(b' ' | b'\t' | b'\n' | b'\r') = self.peek() {
            self.at += 1;
        }
    }

    fn word(&mut self, word: &str) -> Result<Json, NotJson> {
        if !self.text[self.at..].starts_with(word.as_bytes()) {
            return Err(NotJson);
        }
        self.at += word.len();
        Ok(Json::Word)
    }

    fn value(&mut self, depth: usize) -> Result<Json, NotJson> {
        self.skip_space();
        match self.peek().ok_or(NotJson)? {
            b'n' => self.word("null"),
            b't' => self.word("true"),
            b'f' => self.word("false"),
            b'"' => Ok(Json::Text(self.string()?)),
            b'[' if depth < DEEPEST => self.list(depth + 1),
            b'{' if depth < DEEPEST => self.object(depth + 1),
            b'-' | b'0'..=b'9' => self.number(),
            _ => Err(NotJson),
        }
    }

    /// Whether the closing byte stands here, behind space; it is passed over.
    fn closes(&mut self, close: u8) -> bool {
        self.skip_space();
        let is_there = self.peek() == Some(close);
        self.at += usize::from(is_there);
        is_there
    }

    /// Whether a comma stands here; else the closing byte has to.
    fn goes_on(&mut self, close: u8) -> Result<bool, NotJson> {
        self.skip_space();
        match self.next()? {
            b',' => Ok(true),
            byte if byte == close => Ok(false),
            _ => Err(NotJson),
        }
    }

    fn list(&mut self, depth: usize) -> Result<Json, NotJson> {
        self.at += 1;
        let mut members = Vec::new();
        if self.closes(b']') {
            return Ok(Json::List(members));
        }
        loop {
            members.push(self.value(depth)?);
            if !self.goes_on(b']')? {
                return Ok(Json::List(members));
            }
        }
    }

    fn object(&mut self, depth: usize) -> Result<Json, NotJson> {
        self.at += 1;
        let mut members = BTreeMap::new();
        if self.closes(b'}') {
            return Ok(Json::Object(members));
        }
        loop {
            self.skip_space();
            if self.peek() != Some(b'"') {
                return Err(NotJson);
            }
            let key = self.string()?;
            self.skip_space();
            if self.next()? != b':' {
                return Err(NotJson);
            }
            members.insert(key, self.value(depth)?);
            if !self.goes_on(b'}')? {
                return Ok(Json::Object(members));
            }
        }
    }

    fn digits(&mut self) -> Result<(), NotJson> {
        let start = self.at;
        while let Some(b'0'..=b'9') = self.peek() {
            self.at += 1;
        }
        if self.at > start { Ok(()) } else { Err(NotJson) }
    }

    fn number(&mut self) -> Result<Json, NotJson> {
        let start = self.at;
        let mut is_whole = true;
        if self.peek() == Some(b'-') {
            self.at += 1;
            is_whole = false;
        }
        if self.peek() == Some(b'0') {
            self.at += 1;
        } else {
            self.digits()?;
        }
        if let Some(b'0'..=b'9') = self.peek() {
            return Err(NotJson);
        }
        if self.peek() == Some(b'.') {
            self.at += 1;
            self.digits()?;
            is_whole = false;
        }
        if let Some(b'e' | b'E') = self.peek() {
            self.at += 1;
            if let Some(b'+' | b'-') = self.peek() {
                self.at += 1;
            }
            self.digits()?;
            is_whole = false;
        }
        let spelled = std::str::from_utf8(&self.text[start..self.at]).map_err(|_| NotJson)?;
        if spelled.parse::<f64>().map_err(|_| NotJson)?.is_infinite() {
            return Err(NotJson);
        }
        Ok(Json::Number(if is_whole { spelled.parse().ok() } else { None }))
    }

    fn string(&mut self) -> Result<String, NotJson> {
        self.at += 1;
        let mut bytes = Vec::new();
        loop {
            match self.next()? {
                b'"' => return String::from_utf8(bytes).map_err(|_| NotJson),
                b'\\' => {
                    let escaped = self.escape()?;
                    bytes.extend_from_slice(escaped.encode_utf8(&mut [0; 4]).as_bytes());
                }
                0..=0x1f => return Err(NotJson),
                byte => bytes.push(byte),
            }
        }
    }

    fn escape(&mut self) -> Result<char, NotJson> {
        Ok(match self.next()? {
            b'"' => '"',
            b'\\' => '\\',
            b'/' => '/',
            b'b' => '\u{8}',
            b'f' => '\u{c}',
            b'n' => '\n',
            b'r' => '\r',
            b't' => '\t',
            b'u' => return self.unicode(),
            _ => return Err(NotJson),
        })
    }

    fn unicode(&mut self) -> Result<char, NotJson> {
        let first = self.four_digits()?;
        if !(0xd800..0xdc00).contains(&first) {
            return char::from_u32(first).ok_or(NotJson);
        }
        if self.next()? != b'\\' || self.next()? != b'u' {
            return Err(NotJson);
        }
        let second = self.four_digits()?;
        if !(0xdc00..0xe000).contains(&second) {
            return Err(NotJson);
        }
        char::from_u32(0x10000 + ((first - 0xd800) << 10) + (second - 0xdc00)).ok_or(NotJson)
    }

    fn four_digits(&mut self) -> Result<u32, NotJson> {
        let mut number = 0;
        for _ in 0..4 {
            number = number << 4 | char::from(self.next()?).to_digit(16).ok_or(NotJson)?;
        }
        Ok(number)
    }
}
