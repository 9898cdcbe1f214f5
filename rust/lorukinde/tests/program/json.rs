//! A reader of JSON by RFC 8259, as small as it can be: it stops at what is not valid.
use std::collections::BTreeMap;

#[derive(Clone, Debug, PartialEq)]
pub enum Json {
    Null,
    Bool(bool),
    Number(i64),
    Text(String),
    List(Vec<Json>),
    Object(BTreeMap<String, Json>),
}

impl std::ops::Index<&str> for Json {
    type Output = Json;

    fn index(&self, key: &str) -> &Json {
        match self {
            Json::Object(all) => &all[key],
            other => panic!("no object: {other:?}"),
        }
    }
}

impl std::ops::Index<usize> for Json {
    type Output = Json;

    fn index(&self, i: usize) -> &Json {
        &self.list()[i]
    }
}

impl Json {
    pub fn list(&self) -> &[Json] {
        match self {
            Json::List(all) => all,
            other => panic!("no list: {other:?}"),
        }
    }

    pub fn text(&self) -> &str {
        match self {
            Json::Text(text) => text,
            other => panic!("no text: {other:?}"),
        }
    }

    pub fn keys(&self) -> Vec<&str> {
        match self {
            Json::Object(all) => all.keys().map(String::as_str).collect(),
            other => panic!("no object: {other:?}"),
        }
    }
}

/// The one value that a text is.
pub fn parse(text: &str) -> Json {
    let mut rest = text;
    let value = value(&mut rest);
    assert!(rest.is_empty(), "after the value: {rest}");
    value
}

fn take(rest: &mut &str, wanted: &str) -> bool {
    let found = rest.strip_prefix(wanted);
    *rest = found.unwrap_or(rest);
    found.is_some()
}

fn value(rest: &mut &str) -> Json {
    match rest.chars().next().expect("a value") {
        '{' => object(rest),
        '[' => list(rest),
        '"' => Json::Text(string(rest)),
        _ if take(rest, "null") => Json::Null,
        _ if take(rest, "true") => Json::Bool(true),
        _ if take(rest, "false") => Json::Bool(false),
        _ => number(rest),
    }
}

fn number(rest: &mut &str) -> Json {
    let end = rest.find(|next: char| !next.is_ascii_digit() && next != '-').unwrap_or(rest.len());
    let (digits, after) = rest.split_at(end);
    *rest = after;
    let number: i64 = digits.parse().expect(digits);
    assert_eq!(number.to_string(), digits);
    Json::Number(number)
}

fn list(rest: &mut &str) -> Json {
    let mut all = Vec::new();
    assert!(take(rest, "["));
    while !take(rest, "]") {
        assert!(all.is_empty() || take(rest, ","), "{rest}");
        all.push(value(rest));
    }
    Json::List(all)
}

fn object(rest: &mut &str) -> Json {
    let mut all = BTreeMap::new();
    assert!(take(rest, "{"));
    while !take(rest, "}") {
        assert!(all.is_empty() || take(rest, ","), "{rest}");
        let key = string(rest);
        assert!(take(rest, ":"), "{rest}");
        assert!(all.insert(key, value(rest)).is_none(), "a key twice");
    }
    Json::Object(all)
}

fn string(rest: &mut &str) -> String {
    let mut text = String::new();
    assert!(take(rest, "\""), "{rest}");
    while !take(rest, "\"") {
        let next = rest.chars().next().expect("an open string");
        assert!(next >= ' ', "a control in a string");
        *rest = &rest[next.len_utf8()..];
        text.push(if next == '\\' { escaped(rest) } else { next });
    }
    text
}

fn escaped(rest: &mut &str) -> char {
    for sign in ["\"", "\\"] {
        if take(rest, sign) {
            return sign.chars().next().unwrap();
        }
    }
    assert!(take(rest, "u"), "{rest}");
    let (digits, after) = rest.split_at(4);
    *rest = after;
    char::from_u32(u32::from_str_radix(digits, 16).expect(digits)).expect(digits)
}
