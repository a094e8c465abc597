//! Plans as bytes, from their parts.

use crate::form::{Type, write_text, write_type};
use crate::rules::CastOption;

fn typed(bytes: &mut Vec<u8>, type_: &Type) {
    write_type(bytes, 1, type_);
}

pub fn plan(selectors: &[Vec<u8>]) -> Vec<u8> {
    let mut bytes = b"PLN\x01\x00".to_vec();
    write_all(&mut bytes, selectors);
    bytes
}

fn write_all(bytes: &mut Vec<u8>, selectors: &[Vec<u8>]) {
    bytes.extend((selectors.len() as u16).to_le_bytes());
    selectors.iter().for_each(|selector| bytes.extend(selector));
}

/// A code and the input after it.
fn transform(code: u8, input: &[u8]) -> Vec<u8> {
    [&[code], input].concat()
}

pub fn position(at: u16) -> Vec<u8> {
    let [low, high] = at.to_le_bytes();
    vec![0, low, high]
}

/// The value begins with its presence byte.
pub fn constant(name: &[u8], type_: &Type, value: &[u8]) -> Vec<u8> {
    let mut bytes = vec![1];
    write_text(&mut bytes, name);
    typed(&mut bytes, type_);
    bytes.extend(value);
    bytes
}

pub fn cast(input: &[u8], type_: &Type, option: CastOption) -> Vec<u8> {
    let mut bytes = transform(2, input);
    typed(&mut bytes, type_);
    bytes.push(match option {
        CastOption::NonStrict => 0,
        CastOption::Strict => 1,
        CastOption::Overflowing => 2,
    });
    bytes
}

pub fn rename(input: &[u8], name: &[u8]) -> Vec<u8> {
    let mut bytes = transform(3, input);
    write_text(&mut bytes, name);
    bytes
}

pub fn struct_mapping(input: &[u8], fields: &[Vec<u8>]) -> Vec<u8> {
    let mut bytes = transform(4, input);
    write_all(&mut bytes, fields);
    bytes
}

pub fn list_mapping(input: &[u8], element: &[u8]) -> Vec<u8> {
    let mut bytes = transform(5, input);
    bytes.extend(element);
    bytes
}

pub fn array_mapping(input: &[u8], element: &[u8]) -> Vec<u8> {
    let mut bytes = transform(6, input);
    bytes.extend(element);
    bytes
}
