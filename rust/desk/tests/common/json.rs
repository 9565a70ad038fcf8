//! As much of JSON as a test needs to read a table.

#[derive(Debug, PartialEq)]
pub enum Json {
    Null,
    Word(bool),
    Number(f64),
    Text(String),
    List(Vec<Json>),
    Fields(Vec<(String, Json)>),
}

impl Json {
    pub fn read(text: &str) -> Json {
        let mut letters = Letters(text.chars().peekable());
        let value = letters.value();
        letters.skip();
        assert_eq!(letters.0.next(), None, "nothing follows");
        value
    }

    pub fn at(&self, name: &str) -> &Json {
        match self {
            Json::Fields(fields) => &fields.iter().find(|(known, _)| known == name).expect(name).1,
            other => panic!("{other:?} has no {name}"),
        }
    }

    pub fn list(&self) -> &[Json] {
        match self {
            Json::List(list) => list,
            other => panic!("{other:?} is no list"),
        }
    }
}

struct Letters<'a>(std::iter::Peekable<std::str::Chars<'a>>);

impl Letters<'_> {
    fn skip(&mut self) {
        while self.0.next_if(|letter| letter.is_whitespace()).is_some() {}
    }

    fn take(&mut self, wanted: char) {
        self.skip();
        assert_eq!(self.0.next(), Some(wanted));
    }

    fn value(&mut self) -> Json {
        self.skip();
        match self.0.peek() {
            Some('{') => Json::Fields(self.items('{', '}', |letters| {
                letters.skip();
                let name = letters.text();
                letters.take(':');
                (name, letters.value())
            })),
            Some('[') => Json::List(self.items('[', ']', Letters::value)),
            Some('"') => Json::Text(self.text()),
            _ => self.plain(),
        }
    }

    fn items<T>(&mut self, open: char, close: char, item: impl Fn(&mut Self) -> T) -> Vec<T> {
        self.take(open);
        self.skip();
        let mut items = Vec::new();
        if self.0.next_if_eq(&close).is_some() {
            return items;
        }
        loop {
            items.push(item(self));
            self.skip();
            match self.0.next() {
                Some(',') => (),
                Some(end) if end == close => return items,
                other => panic!("{other:?} in a list"),
            }
        }
    }

    fn text(&mut self) -> String {
        self.take('"');
        let mut text = String::new();
        loop {
            match self.0.next().expect("a text's end") {
                '"' => return text,
                '\\' => text.push(self.0.next().expect("an escaped letter")),
                letter => text.push(letter),
            }
        }
    }

    fn plain(&mut self) -> Json {
        let mut word = String::new();
        while let Some(letter) = self.0.next_if(|letter| letter.is_alphanumeric() || "+-.".contains(*letter)) {
            word.push(letter);
        }
        match word.as_str() {
            "null" => Json::Null,
            "true" | "false" => Json::Word(word == "true"),
            _ => Json::Number(word.parse().expect("a number")),
        }
    }
}
