//! Just enough of JSON for the stored vectors: numbers from 0 to 2^64 - 1, texts of which each character is one byte, lists, and records.
pub enum Json {
    Number(u64),
    Text(Vec<u8>),
    List(Vec<Json>),
    Record(Vec<(Vec<u8>, Json)>),
}

use Json::*;

impl Json {
    /// A line of a file. A line that is none of these forms ends the program: a vector must not be skipped.
    pub fn read(line: &str) -> Json {
        let mut r = Reader { text: line.as_bytes(), at: 0 };
        let value = r.value();
        r.blanks();
        assert!(r.at == r.text.len(), "more behind a value: {line}");
        value
    }

    /// A field of a record, which must be there.
    pub fn get(&self, name: &str) -> &Json {
        self.find(name).unwrap_or_else(|| panic!("no field {name}"))
    }

    pub fn find(&self, name: &str) -> Option<&Json> {
        match self {
            Record(fields) => fields.iter().find(|(n, _)| n == name.as_bytes()).map(|(_, value)| value),
            _ => panic!("no record, where {name} is looked for"),
        }
    }

    pub fn number(&self) -> u64 {
        match self {
            Number(x) => *x,
            _ => panic!("no number"),
        }
    }

    pub fn text(&self) -> &[u8] {
        match self {
            Text(bytes) => bytes,
            _ => panic!("no text"),
        }
    }

    pub fn list(&self) -> &[Json] {
        match self {
            List(values) => values,
            _ => panic!("no list"),
        }
    }

    pub fn words(&self) -> Vec<u64> {
        self.list().iter().map(Json::number).collect()
    }

    pub fn halves(&self) -> Vec<u32> {
        self.list().iter().map(|x| u32::try_from(x.number()).expect("a u32")).collect()
    }

    pub fn bytes(&self) -> Vec<u8> {
        self.list().iter().map(|x| u8::try_from(x.number()).expect("a byte")).collect()
    }
}

struct Reader<'a> {
    text: &'a [u8],
    at: usize,
}

impl Reader<'_> {
    fn blanks(&mut self) {
        while self.at < self.text.len() && self.text[self.at].is_ascii_whitespace() {
            self.at += 1;
        }
    }

    fn next(&mut self) -> u8 {
        self.blanks();
        *self.text.get(self.at).expect("a value is cut off")
    }

    fn take(&mut self, byte: u8) {
        assert!(self.next() == byte, "{} wanted at {}", byte as char, self.at);
        self.at += 1;
    }

    fn value(&mut self) -> Json {
        match self.next() {
            b'"' => Text(self.string()),
            b'[' => List(self.items(b'[', b']', Self::value)),
            b'{' => Record(self.items(b'{', b'}', |r| {
                let name = r.string();
                r.take(b':');
                (name, r.value())
            })),
            _ => self.digits(),
        }
    }

    fn items<T>(&mut self, open: u8, close: u8, item: fn(&mut Self) -> T) -> Vec<T> {
        let mut items = Vec::new();
        self.take(open);
        while self.next() != close {
            if !items.is_empty() {
                self.take(b',');
            }
            items.push(item(self));
        }
        self.take(close);
        items
    }

    fn digits(&mut self) -> Json {
        let from = self.at;
        while self.at < self.text.len() && self.text[self.at].is_ascii_digit() {
            self.at += 1;
        }
        let digits = std::str::from_utf8(&self.text[from..self.at]).unwrap();
        Number(digits.parse().unwrap_or_else(|_| panic!("no value at {from}")))
    }

    fn string(&mut self) -> Vec<u8> {
        self.take(b'"');
        let mut bytes = Vec::new();
        loop {
            let b = self.text[self.at];
            self.at += 1;
            match b {
                b'"' => return bytes,
                b'\\' => bytes.push(self.escaped()),
                0..=127 => bytes.push(b),
                _ => panic!("a character is written by its number where it is above 127"),
            }
        }
    }

    fn escaped(&mut self) -> u8 {
        let b = self.text[self.at];
        self.at += 1;
        match b {
            b'n' => b'\n',
            b't' => b'\t',
            b'r' => b'\r',
            b'b' => 8,
            b'f' => 12,
            b'u' => {
                let digits = std::str::from_utf8(&self.text[self.at..self.at + 4]).unwrap();
                self.at += 4;
                u16::from_str_radix(digits, 16).ok().and_then(|x| x.try_into().ok()).expect("a byte")
            }
            other => other,
        }
    }
}
