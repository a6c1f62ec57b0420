//! JSON as far as the browser's messages need it: a reader of values, and text as it stands in a
//! message.

/// A value that was read.
#[derive(Debug)]
pub enum Json {
    /// Nothing, which is also behind a name that isn't there.
    Null,
    /// True or false.
    Bool(bool),
    /// Any number.
    Number(f64),
    /// A text without its escapes.
    Text(String),
    /// Values in their order.
    List(Vec<Json>),
    /// Names with their values, in their order.
    Object(Vec<(String, Json)>),
}

impl Json {
    /// Reads one value. Panics where the text is something else.
    pub fn read(text: &str) -> Json {
        let mut reader = Reader { text, at: 0 };
        let value = reader.value();
        reader.skip_space();
        assert!(reader.rest().is_empty(), "byte {} of {text} is behind the value", reader.at);
        value
    }

    /// The value behind names, with dots between them, that lead from object to object.
    pub fn at(&self, path: &str) -> &Json {
        path.split('.').fold(self, Json::member)
    }

    fn member(&self, name: &str) -> &Json {
        let Json::Object(members) = self else { return &Json::Null };
        members.iter().find(|member| member.0 == name).map_or(&Json::Null, |member| &member.1)
    }

    /// The text there, if there is one.
    pub fn text(&self, path: &str) -> Option<&str> {
        match self.at(path) {
            Json::Text(text) => Some(text),
            _ => None,
        }
    }

    /// The number there, if there is one.
    pub fn number(&self, path: &str) -> Option<f64> {
        match self.at(path) {
            Json::Number(number) => Some(*number),
            _ => None,
        }
    }

    /// The values of the list there, or none.
    pub fn list(&self, path: &str) -> &[Json] {
        match self.at(path) {
            Json::List(values) => values,
            _ => &[],
        }
    }
}

/// The text in quotation marks, escaped.
pub fn quoted(text: &str) -> String {
    let escaped: String = text.chars().map(escape).collect();
    format!("\"{escaped}\"")
}

fn escape(c: char) -> String {
    match c {
        '"' | '\\' => format!("\\{c}"),
        c if c.is_control() => format!("\\u{:04x}", c as u32),
        c => c.to_string(),
    }
}

/// A text and how far it has been read, in bytes.
struct Reader<'a> {
    text: &'a str,
    at: usize,
}

impl<'a> Reader<'a> {
    fn rest(&self) -> &'a str {
        &self.text[self.at..]
    }

    fn fail(&self, missing: &str) -> ! {
        panic!("no {missing} at byte {} of {}", self.at, self.text)
    }

    fn skip_space(&mut self) {
        self.at = self.text.len() - self.rest().trim_start().len();
    }

    /// Takes what is next, after space, if it is this.
    fn takes(&mut self, next: &str) -> bool {
        self.skip_space();
        let is_next = self.rest().starts_with(next);
        self.at += if is_next { next.len() } else { 0 };
        is_next
    }

    fn expect(&mut self, next: &str) {
        if !self.takes(next) {
            self.fail(next);
        }
    }

    fn value(&mut self) -> Json {
        match self.rest().trim_start().chars().next() {
            Some('{') => Json::Object(self.all(["{", "}"], Reader::member)),
            Some('[') => Json::List(self.all(["[", "]"], Reader::value)),
            Some('"') => Json::Text(self.string()),
            _ if self.takes("null") => Json::Null,
            _ if self.takes("true") => Json::Bool(true),
            _ if self.takes("false") => Json::Bool(false),
            _ => Json::Number(self.number()),
        }
    }

    /// Everything between two brackets, with commas between.
    fn all<T>(&mut self, [open, close]: [&str; 2], one: fn(&mut Self) -> T) -> Vec<T> {
        let mut all = Vec::new();
        self.expect(open);
        while !self.takes(close) {
            if !all.is_empty() {
                self.expect(",");
            }
            all.push(one(self));
        }
        all
    }

    fn member(&mut self) -> (String, Json) {
        let name = self.string();
        self.expect(":");
        (name, self.value())
    }

    fn number(&mut self) -> f64 {
        let rest = self.rest();
        let end = rest.find(|c: char| !"+-.eE0123456789".contains(c)).unwrap_or(rest.len());
        let number = rest[..end].parse().unwrap_or_else(|_| self.fail("value"));
        self.at += end;
        number
    }

    fn string(&mut self) -> String {
        let mut string = String::new();
        self.expect("\"");
        loop {
            let rest = self.rest();
            let end = rest.find(['"', '\\']).unwrap_or_else(|| self.fail("end of the text"));
            string.push_str(&rest[..end]);
            self.at += end + 1;
            if rest[end..].starts_with('"') {
                return string;
            }
            string.push_str(&self.escaped());
        }
    }

    /// What is meant by what follows a backslash.
    fn escaped(&mut self) -> String {
        let c = self.rest().chars().next().unwrap_or_else(|| self.fail("escape"));
        self.at += c.len_utf8();
        match c {
            'b' => "\u{8}".to_string(),
            'f' => "\u{c}".to_string(),
            'n' => "\n".to_string(),
            'r' => "\r".to_string(),
            't' => "\t".to_string(),
            'u' => self.units(),
            c => c.to_string(),
        }
    }

    /// The characters of a run of \uXXXX. Two may make one character; half of such a pair alone is
    /// none.
    fn units(&mut self) -> String {
        let mut units = vec![self.unit()];
        while self.rest().starts_with("\\u") {
            self.at += 2;
            units.push(self.unit());
        }
        String::from_utf16_lossy(&units)
    }

    fn unit(&mut self) -> u16 {
        let digits = self.rest().get(..4).unwrap_or_else(|| self.fail("four digits"));
        self.at += 4;
        u16::from_str_radix(digits, 16).unwrap_or_else(|_| self.fail("four digits"))
    }
}
