//! Reading JSON: what a program makes of it.

#[derive(Clone, Debug, PartialEq)]
pub enum Json {
    Null,
    Bool(bool),
    Number(f64),
    Text(String),
    Array(Vec<Json>),
    Object(Vec<(String, Json)>),
}

impl Json {
    /// The whole text is one value.
    pub fn read(text: &str) -> Json {
        let mut reader = Reader {
            letters: text.chars().collect(),
            at: 0,
        };
        let value = reader.value();
        reader.blanks();
        assert_eq!(reader.at, reader.letters.len(), "more than one value");
        value
    }

    pub fn get(&self, name: &str) -> &Json {
        let Json::Object(fields) = self else {
            panic!("no object: {self:?}");
        };
        let mut found = fields.iter().filter(|(field, _)| field == name);
        match (found.next(), found.next()) {
            (Some((_, value)), None) => value,
            _ => panic!("not once: {name}"),
        }
    }

    pub fn items(&self) -> &[Json] {
        match self {
            Json::Array(items) => items,
            other => panic!("no array: {other:?}"),
        }
    }

    pub fn text(&self) -> &str {
        match self {
            Json::Text(text) => text,
            other => panic!("no text: {other:?}"),
        }
    }

    pub fn number(&self) -> usize {
        match self {
            Json::Number(number) => *number as usize,
            other => panic!("no number: {other:?}"),
        }
    }
}

struct Reader {
    letters: Vec<char>,
    at: usize,
}

impl Reader {
    fn blanks(&mut self) {
        while self
            .letters
            .get(self.at)
            .is_some_and(|l| " \n".contains(*l))
        {
            self.at += 1;
        }
    }

    fn take(&mut self) -> char {
        self.at += 1;
        self.letters[self.at - 1]
    }

    /// Takes the next letter that is no blank if it is this one.
    fn has(&mut self, letter: char) -> bool {
        self.blanks();
        let found = self.letters.get(self.at) == Some(&letter);
        self.at += usize::from(found);
        found
    }

    fn value(&mut self) -> Json {
        if self.has('"') {
            return Json::Text(self.quoted());
        }
        if self.has('[') {
            let mut items = Vec::new();
            while !self.has(']') {
                assert!(items.is_empty() || self.has(','), "a comma");
                items.push(self.value());
            }
            return Json::Array(items);
        }
        if self.has('{') {
            let mut fields = Vec::new();
            while !self.has('}') {
                assert!(fields.is_empty() || self.has(','), "a comma");
                assert!(self.has('"'), "a name");
                let name = self.quoted();
                assert!(self.has(':'), "a colon");
                fields.push((name, self.value()));
            }
            return Json::Object(fields);
        }
        let start = self.at;
        let is_word = |letter: &char| letter.is_ascii_alphanumeric();
        while self.letters.get(self.at).is_some_and(is_word) {
            self.at += 1;
        }
        let word: String = self.letters[start..self.at].iter().collect();
        match word.as_str() {
            "null" => Json::Null,
            "true" => Json::Bool(true),
            "false" => Json::Bool(false),
            word => Json::Number(word.parse().expect("a number")),
        }
    }

    /// The rest of a text, after its first quote.
    fn quoted(&mut self) -> String {
        let mut text = String::new();
        loop {
            match self.take() {
                '"' => return text,
                '\\' => match self.take() {
                    'u' => {
                        let digits: String = (0..4).map(|_| self.take()).collect();
                        let code = u32::from_str_radix(&digits, 16).expect("digits");
                        text.push(char::from_u32(code).expect("a letter"));
                    }
                    letter => {
                        assert!("\"\\/".contains(letter), "an escape");
                        text.push(letter);
                    }
                },
                letter => {
                    assert!(letter >= ' ', "a control character");
                    text.push(letter);
                }
            }
        }
    }
}
