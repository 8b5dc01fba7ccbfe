//! As much JSON as the cases need: objects, lists, texts without escapes, whole numbers, true, false and null.

#[derive(Clone, Debug, PartialEq)]
pub enum Json {
    Null,
    Flag(bool),
    Number(u64),
    Text(String),
    List(Vec<Json>),
    Object(Vec<(String, Json)>),
}

impl Json {
    /// The value of a name; a case that lacks it is a fault of the case.
    pub fn get(&self, name: &str) -> &Json {
        let Json::Object(pairs) = self else { panic!("no object: {self:?}") };
        &pairs.iter().find(|(key, _)| key == name).unwrap_or_else(|| panic!("no {name} in {self:?}")).1
    }

    pub fn number(&self, name: &str) -> u64 {
        self.get(name).as_number()
    }

    /// The same, or another number if the name is not there.
    pub fn number_or(&self, name: &str, other: u64) -> u64 {
        let Json::Object(pairs) = self else { panic!("no object: {self:?}") };
        pairs.iter().find(|(key, _)| key == name).map_or(other, |(_, value)| value.as_number())
    }

    pub fn flag(&self, name: &str) -> bool {
        let Json::Flag(flag) = self.get(name) else { panic!("{name} is neither true nor false") };
        *flag
    }

    pub fn text(&self, name: &str) -> &str {
        let Json::Text(text) = self.get(name) else { panic!("{name} is no text") };
        text
    }

    pub fn list(&self, name: &str) -> &[Json] {
        let Json::List(list) = self.get(name) else { panic!("{name} is no list") };
        list
    }

    /// A text of octets: hex, `xx*n` between commas for a run.
    pub fn octets(&self, name: &str) -> Vec<u8> {
        let mut octets = Vec::new();
        for piece in self.text(name).split(',') {
            let (hex, times) = piece.split_once('*').unwrap_or((piece, "1"));
            let digits: Vec<u32> = hex.chars().map(|digit| digit.to_digit(16).expect("a hex digit")).collect();
            let run: Vec<u8> = digits.chunks(2).map(|two| (two[0] * 16 + two[1]) as u8).collect();
            octets.extend(run.repeat(times.parse().expect("a number of times")));
        }
        octets
    }

    pub fn as_number(&self) -> u64 {
        let Json::Number(number) = self else { panic!("no number: {self:?}") };
        *number
    }
}

/// Reads one value, which must be all of the text.
pub fn parse(text: &str) -> Json {
    let mut reader = Reader { text: text.as_bytes(), at: 0 };
    let value = reader.value();
    reader.space();
    assert_eq!(reader.at, text.len(), "something stands after the value");
    value
}

struct Reader<'a> {
    text: &'a [u8],
    at: usize,
}

impl Reader<'_> {
    fn space(&mut self) {
        while self.text.get(self.at).is_some_and(u8::is_ascii_whitespace) {
            self.at += 1;
        }
    }

    fn peek(&mut self) -> u8 {
        self.space();
        *self.text.get(self.at).expect("the text ends inside a value")
    }

    fn eat(&mut self, wanted: u8) {
        assert_eq!(self.peek() as char, wanted as char, "at {}", self.at);
        self.at += 1;
    }

    fn value(&mut self) -> Json {
        match self.peek() {
            b'{' => Json::Object(self.many(b'{', b'}', |r| {
                let name = r.string();
                r.eat(b':');
                (name, r.value())
            })),
            b'[' => Json::List(self.many(b'[', b']', Reader::value)),
            b'"' => Json::Text(self.string()),
            b'0'..=b'9' => self.digits(),
            _ => self.word(),
        }
    }

    fn word(&mut self) -> Json {
        for (word, value) in [("null", Json::Null), ("true", Json::Flag(true)), ("false", Json::Flag(false))] {
            if self.text[self.at..].starts_with(word.as_bytes()) {
                self.at += word.len();
                return value;
            }
        }
        panic!("no value at {}", self.at)
    }

    fn many<A>(&mut self, open: u8, close: u8, mut one: impl FnMut(&mut Self) -> A) -> Vec<A> {
        let mut all = Vec::new();
        self.eat(open);
        while self.peek() != close {
            if !all.is_empty() {
                self.eat(b',');
            }
            all.push(one(self));
        }
        self.eat(close);
        all
    }

    fn until(&mut self, end: impl Fn(u8) -> bool) -> String {
        let from = self.at;
        while self.text.get(self.at).is_some_and(|c| !end(*c)) {
            self.at += 1;
        }
        String::from_utf8(self.text[from..self.at].to_vec()).expect("the file is UTF-8")
    }

    fn string(&mut self) -> String {
        self.eat(b'"');
        let text = self.until(|c| c == b'"');
        assert!(!text.contains('\\'), "the cases have no escapes");
        self.eat(b'"');
        text
    }

    fn digits(&mut self) -> Json {
        Json::Number(self.until(|c| !c.is_ascii_digit()).parse().expect("a number of at most 64 bits"))
    }
}
