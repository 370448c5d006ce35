//! JSON as the commands print it: a strict reader, and a writer with a layout of its own.

use std::collections::BTreeMap;

/// A value. A text has the bytes that it stands for, as names of files need not be UTF-8.
#[derive(Clone, Debug, PartialEq, Eq)]
pub enum Json {
    Truth(bool),
    Number(u64),
    Text(Vec<u8>),
    List(Vec<Json>),
    Object(BTreeMap<String, Json>),
}

impl From<&str> for Json {
    fn from(text: &str) -> Self {
        Json::Text(text.into())
    }
}

impl From<&[u8]> for Json {
    fn from(bytes: &[u8]) -> Self {
        Json::Text(bytes.into())
    }
}

impl From<usize> for Json {
    fn from(number: usize) -> Self {
        Json::Number(number as u64)
    }
}

/// An object of these keys and values.
pub fn object<const N: usize>(entries: [(&str, Json); N]) -> Json {
    Json::Object(entries.map(|(key, value)| (key.into(), value)).into())
}

/// A text as a JSON string: a byte that is no part of UTF-8 is a lone surrogate.
pub fn escaped(bytes: &[u8]) -> String {
    let mut text = String::from('"');
    for chunk in bytes.utf8_chunks() {
        for sign in chunk.valid().chars() {
            match sign {
                '"' | '\\' => text.extend(['\\', sign]),
                '\0'..' ' | '\x7f' => text += &format!("\\u{:04x}", u32::from(sign)),
                _ => text.push(sign),
            }
        }
        text.extend(chunk.invalid().iter().map(|byte| format!("\\udc{byte:02x}")));
    }
    text + "\""
}

impl Json {
    /// Reads one value, and nothing after it.
    pub fn read(text: &str) -> Result<Self, String> {
        let mut reader = Reader { text: text.as_bytes(), at: 0 };
        let value = reader.value();
        reader.skip();
        match value {
            Some(value) if reader.at == text.len() => Ok(value),
            _ => Err(format!("FAILED: no JSON at byte {} of {text}", reader.at)),
        }
    }

    /// What an object has under a key.
    pub fn at(&self, key: &str) -> Option<&Json> {
        let Json::Object(entries) = self else { return None };
        entries.get(key)
    }

    /// The value in another layout, with its keys in the order of the alphabet or backwards.
    pub fn laid_out(&self, before: &str, backwards: bool) -> String {
        let inner = format!("{before}\t ");
        let joined = |mut parts: Vec<String>, [open, close]: [&str; 2]| {
            if backwards && open == "{" {
                parts.reverse();
            }
            format!("{open}{inner}{}{before}{close}", parts.join(&format!(" ,{inner}")))
        };
        match self {
            Json::Truth(truth) => truth.to_string(),
            Json::Number(number) => number.to_string(),
            Json::Text(bytes) => escaped(bytes),
            Json::List(values) => {
                joined(values.iter().map(|v| v.laid_out(&inner, backwards)).collect(), ["[", "]"])
            }
            Json::Object(entries) => {
                let entry = |(key, value): (&String, &Json)| {
                    format!("{} : {}", escaped(key.as_bytes()), value.laid_out(&inner, backwards))
                };
                joined(entries.iter().map(entry).collect(), ["{", "}"])
            }
        }
    }
}

/// What is read, and how far.
struct Reader<'a> {
    text: &'a [u8],
    at: usize,
}

impl Reader<'_> {
    fn peek(&self) -> Option<u8> {
        self.text.get(self.at).copied()
    }

    fn next(&mut self) -> Option<u8> {
        let byte = self.peek()?;
        self.at += 1;
        Some(byte)
    }

    fn skip(&mut self) {
        while matches!(self.peek(), Some(b' ' | b'\t' | b'\r' | b'\n')) {
            self.at += 1;
        }
    }

    /// Takes this text, if it comes next.
    fn take(&mut self, text: &str) -> Option<()> {
        self.text[self.at..].starts_with(text.as_bytes()).then(|| self.at += text.len())
    }

    fn value(&mut self) -> Option<Json> {
        self.skip();
        match self.peek()? {
            b'{' => {
                let mut entries = BTreeMap::new();
                self.items(b'}', |reader| {
                    reader.skip();
                    let key = String::from_utf8(reader.string()?).ok()?;
                    reader.skip();
                    reader.take(":")?;
                    let value = reader.value()?;
                    // A key stands once.
                    entries.insert(key, value).is_none().then_some(())
                })?;
                Some(Json::Object(entries))
            }
            b'[' => {
                let mut values = vec![];
                self.items(b']', |reader| {
                    values.push(reader.value()?);
                    Some(())
                })?;
                Some(Json::List(values))
            }
            b'"' => self.string().map(Json::Text),
            b't' => self.take("true").map(|()| Json::Truth(true)),
            b'f' => self.take("false").map(|()| Json::Truth(false)),
            _ => self.number(),
        }
    }

    /// What stands between brackets, with commas between the items.
    fn items(&mut self, end: u8, mut item: impl FnMut(&mut Self) -> Option<()>) -> Option<()> {
        self.at += 1;
        self.skip();
        if self.peek()? == end {
            self.at += 1;
            return Some(());
        }
        loop {
            item(self)?;
            self.skip();
            match self.next()? {
                b',' => {}
                byte => return (byte == end).then_some(()),
            }
        }
    }

    /// A number without a sign, a point or leading zeros.
    fn number(&mut self) -> Option<Json> {
        let digits = self.text[self.at..].iter().take_while(|byte| byte.is_ascii_digit()).count();
        let text = str::from_utf8(&self.text[self.at..self.at + digits]).ok()?;
        self.at += digits;
        if text.len() > 1 && text.starts_with('0') {
            return None;
        }
        text.parse().ok().map(Json::Number)
    }

    fn string(&mut self) -> Option<Vec<u8>> {
        self.take("\"")?;
        let mut bytes = vec![];
        loop {
            match self.next()? {
                b'"' => return Some(bytes),
                b'\\' => self.escape(&mut bytes)?,
                0..32 => return None,
                byte => bytes.push(byte),
            }
        }
    }

    fn escape(&mut self, bytes: &mut Vec<u8>) -> Option<()> {
        let plain = match self.next()? {
            byte @ (b'"' | b'\\' | b'/') => byte,
            b'b' => 8,
            b'f' => 12,
            b'n' => b'\n',
            b'r' => b'\r',
            b't' => b'\t',
            b'u' => return self.unicode(bytes),
            _ => return None,
        };
        bytes.push(plain);
        Some(())
    }

    /// A character by its number, or by two of them; a lone surrogate is a byte.
    fn unicode(&mut self, bytes: &mut Vec<u8>) -> Option<()> {
        let first = self.hex()?;
        if (0xdc80..=0xdcff).contains(&first) {
            bytes.push((first - 0xdc00) as u8);
            return Some(());
        }
        let mut number = first;
        if (0xd800..0xdc00).contains(&first) {
            self.take("\\u")?;
            let second = self.hex().filter(|second| (0xdc00..0xe000).contains(second))?;
            number = 0x1_0000 + ((first - 0xd800) << 10) + (second - 0xdc00);
        }
        let sign = char::from_u32(number)?;
        bytes.extend(sign.encode_utf8(&mut [0; 4]).as_bytes());
        Some(())
    }

    fn hex(&mut self) -> Option<u32> {
        let digits = self.text.get(self.at..self.at + 4)?;
        self.at += 4;
        let digits = str::from_utf8(digits).ok().filter(|text| !text.starts_with('+'))?;
        u32::from_str_radix(digits, 16).ok()
    }
}
