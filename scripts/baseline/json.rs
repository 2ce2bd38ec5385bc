//! As much of JSON as statements and traces want.

use crate::dft::Rows;
use crate::field::BabyBear;

/// A value of JSON. Numbers are whole and below 2^64, and texts have no escapes. An array that is
/// empty or begins with a number has numbers alone.
pub enum Json {
    Null,
    Number(u64),
    Text(String),
    Numbers(Vec<u64>),
    Array(Vec<Json>),
    Object(Vec<(String, Json)>),
}

impl Json {
    /// The value of a text, with nothing behind it.
    pub fn parse(text: &[u8]) -> Option<Json> {
        let mut reader = Reader { rest: text };
        let value = reader.value()?;
        reader.ended().then_some(value)
    }

    pub fn number(&self) -> Option<u64> {
        if let Json::Number(number) = self {
            Some(*number)
        } else {
            None
        }
    }

    pub fn text(&self) -> Option<&str> {
        if let Json::Text(text) = self {
            Some(text)
        } else {
            None
        }
    }

    /// The items of an array of numbers.
    pub fn numbers(&self) -> Option<&[u64]> {
        if let Json::Numbers(numbers) = self {
            Some(numbers)
        } else {
            None
        }
    }

    /// The items of an array of something else.
    pub fn items(&self) -> Option<&[Json]> {
        match self {
            Json::Array(items) => Some(items),
            Json::Numbers(numbers) if numbers.is_empty() => Some(&[]),
            _ => None,
        }
    }

    /// What an object has under a name, if it isn't null.
    pub fn get(&self, name: &str) -> Option<&Json> {
        let Json::Object(members) = self else {
            return None;
        };
        let (_, value) = members.iter().rev().find(|member| member.0 == name)?;
        Some(value).filter(|value| !matches!(value, Json::Null))
    }
}

/// What isn't read yet.
struct Reader<'a> {
    rest: &'a [u8],
}

impl Reader<'_> {
    /// The next byte that is no white space.
    fn peek(&mut self) -> Option<u8> {
        while let [b' ' | b'\t' | b'\n' | b'\r', rest @ ..] = self.rest {
            self.rest = rest;
        }
        self.rest.first().copied()
    }

    /// Takes a byte behind white space, where it is this one.
    fn take(&mut self, byte: u8) -> Option<()> {
        (self.peek()? == byte).then(|| self.rest = &self.rest[1..])
    }

    fn ended(&mut self) -> bool {
        self.peek().is_none()
    }

    fn number(&mut self) -> Option<u64> {
        self.peek()?;
        let start = self.rest;
        let mut number: u64 = 0;
        while let [digit @ b'0'..=b'9', rest @ ..] = self.rest {
            number = number
                .checked_mul(10)?
                .checked_add(u64::from(digit - b'0'))?;
            self.rest = rest;
        }
        let count = start.len() - self.rest.len();
        (count == 1 || count > 1 && start[0] != b'0').then_some(number)
    }

    fn text(&mut self) -> Option<String> {
        self.take(b'"')?;
        let count = self
            .rest
            .iter()
            .position(|byte| matches!(byte, b'"' | b'\\'))?;
        let (text, rest) = self.rest.split_at(count);
        self.rest = rest;
        self.take(b'"')?;
        String::from_utf8(text.to_vec()).ok()
    }

    /// What stands between brackets, with commas between.
    fn list<T>(
        &mut self,
        [open, close]: [u8; 2],
        item: impl Fn(&mut Self) -> Option<T>,
    ) -> Option<Vec<T>> {
        let mut items = Vec::new();
        self.take(open)?;
        if self.take(close).is_some() {
            return Some(items);
        }
        loop {
            items.push(item(self)?);
            if self.take(close).is_some() {
                return Some(items);
            }
            self.take(b',')?;
        }
    }

    fn member(&mut self) -> Option<(String, Json)> {
        let name = self.text()?;
        self.take(b':')?;
        Some((name, self.value()?))
    }

    fn null(&mut self) -> Option<Json> {
        self.rest = self.rest.strip_prefix(b"null")?;
        Some(Json::Null)
    }

    /// An array, of numbers alone where it is empty or begins with one.
    fn array(&mut self) -> Option<Json> {
        let mut ahead = Reader { rest: self.rest };
        ahead.take(b'[')?;
        if matches!(ahead.peek()?, b'0'..=b'9' | b']') {
            self.list(*b"[]", Self::number).map(Json::Numbers)
        } else {
            self.list(*b"[]", Self::value).map(Json::Array)
        }
    }

    fn value(&mut self) -> Option<Json> {
        match self.peek()? {
            b'"' => self.text().map(Json::Text),
            b'[' => self.array(),
            b'{' => self.list(*b"{}", Self::member).map(Json::Object),
            b'n' => self.null(),
            _ => self.number().map(Json::Number),
        }
    }

    /// An array of `W` elements.
    fn row<const W: usize>(&mut self) -> Option<[BabyBear; W]> {
        let mut row = [BabyBear::ZERO; W];
        for (i, value) in row.iter_mut().enumerate() {
            self.take(if i == 0 { b'[' } else { b',' })?;
            *value = BabyBear::checked(self.number()?)?;
        }
        self.take(b']')?;
        Some(row)
    }
}

/// The rows of a trace, each of `W` elements.
pub fn parse_rows<const W: usize>(text: &[u8]) -> Option<Rows<W>> {
    let mut reader = Reader { rest: text };
    let rows = reader.list(*b"[]", Reader::row)?;
    reader.ended().then_some(rows)
}
