//! Tables of defaults.

use super::parse::{Kind, Parsed, Parser, Places};
use super::parse_layout::leaf_type;
use super::parse_record::leaf_value;
use crate::form::{self, Default, Entry, Table};

pub fn parse_table(text: &[u8]) -> Parsed<(Table, Places)> {
    let mut parser = Parser::new(text, Kind::Defaults)?;
    let version = parser.version(form::TABLE_VERSIONS)?;
    let mut entries = Vec::new();
    parser.parts(None, |parser, _| {
        entries.push(entry(parser, form::owned(version))?);
        Ok(())
    })?;
    parser.finish(Table { version, entries })
}

/// `@6 initial int8: 40`, `@7 partition string: ["north"]` or `@8 partition failed`; in version 2 after `owner 3`.
fn entry(parser: &mut Parser, owned: bool) -> Parsed<Entry> {
    let owner = match owned {
        true => {
            parser.word("owner")?;
            Some(parser.number(u64::from(u16::MAX), "an owner")? as u16)
        }
        false => None,
    };
    parser.mark('@')?;
    let id = parser.number(u64::from(u32::MAX), "a field id")? as u32;
    let default = if parser.is_word("initial") {
        parser.next();
        let leaf = leaf_type(parser)?;
        parser.mark(':')?;
        let value = leaf_value(parser, &leaf)?;
        Default::Initial(leaf, value)
    } else if parser.is_word("partition") {
        parser.next();
        partition(parser)?
    } else {
        return parser.wrong("`initial` or `partition`");
    };
    Ok(Entry { owner, id, default })
}

fn partition(parser: &mut Parser) -> Parsed<Default> {
    if parser.is_word("failed") {
        parser.next();
        return Ok(Default::Failed);
    }
    let leaf = leaf_type(parser)?;
    parser.mark(':')?;
    parser.mark('[')?;
    let mut values = Vec::new();
    parser.parts(Some(']'), |parser, _| {
        values.push(leaf_value(parser, &leaf)?);
        Ok(())
    })?;
    Ok(Default::Loaded(leaf, values))
}
