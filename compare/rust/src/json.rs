//! A reader of the JSON that a file of vectors has: objects, plain strings, whole numbers, true and null.

use std::collections::HashMap;

#[derive(Clone, Debug)]
pub enum Json {
    Object(HashMap<String, Json>),
    Text(String),
    Number(u64),
    True,
    Null,
}

impl Json {
    pub fn get(&self, key: &str) -> Option<&Json> {
        match self {
            Json::Object(members) => members.get(key),
            _ => None,
        }
    }

    pub fn text(&self, key: &str) -> Option<&str> {
        match self.get(key)? {
            Json::Text(text) => Some(text),
            _ => None,
        }
    }

    pub fn number(&self, key: &str) -> Option<u64> {
        match self.get(key)? {
            Json::Number(number) => Some(*number),
            _ => None,
        }
    }
}

/// One value and nothing after it.
pub fn read(text: &str) -> Option<Json> {
    let (json, rest) = value(text)?;
    rest.trim_start().is_empty().then_some(json)
}

fn value(text: &str) -> Option<(Json, &str)> {
    let text = text.trim_start();
    match text.chars().next()? {
        '{' => object(&text[1..]),
        '"' => {
            let (text, rest) = text[1..].split_once('"')?;
            (!text.contains('\\')).then(|| (Json::Text(text.to_owned()), rest))
        }
        't' => Some((Json::True, text.strip_prefix("true")?)),
        'n' => Some((Json::Null, text.strip_prefix("null")?)),
        _ => {
            let end = text.find(|c: char| !c.is_ascii_digit())?;
            Some((Json::Number(text[..end].parse().ok()?), &text[end..]))
        }
    }
}

/// The members after an opening brace.
fn object(text: &str) -> Option<(Json, &str)> {
    let mut members = HashMap::new();
    let mut rest = text.trim_start();
    while !rest.starts_with('}') {
        let (Json::Text(key), after) = value(rest)? else {
            return None;
        };
        let (member, after) = value(after.trim_start().strip_prefix(':')?)?;
        members.insert(key, member);
        rest = after.trim_start();
        rest = rest.strip_prefix(',').unwrap_or(rest).trim_start();
    }
    Some((Json::Object(members), &rest[1..]))
}
