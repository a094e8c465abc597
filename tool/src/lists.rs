//! The two lists that refusals and policy bits are decided in, docs/refusals.txt and docs/policy.txt, as they stand.

use crate::near::hint;
use column_selector::Policy;
use std::sync::OnceLock;

const REFUSALS: &str = include_str!("../../docs/refusals.txt");
const POLICY: &str = include_str!("../../docs/policy.txt");

/// A refusal of the list.
#[derive(Clone, Debug)]
pub struct Listed {
    pub number: u32,
    pub name: String,
    /// What its place counts, by its short name and in words.
    pub place: String,
    pub counts: String,
    /// The part of the list that it stands in.
    pub section: String,
    pub calls: String,
    pub words: String,
    /// The words where a table of defaults is refused, if they are others.
    pub table: Option<String>,
    pub cause: String,
    pub what_to_do: String,
}

/// A policy bit of the list.
#[derive(Clone, Debug)]
pub struct Flag {
    pub bit: u32,
    pub name: String,
    pub header: String,
    pub rust: String,
    /// The refusal where it is off.
    pub off: u32,
    pub allows: String,
}

/// A first line, and what is said below it.
struct Block {
    head: String,
    fields: Vec<(String, String)>,
}

impl Block {
    fn field(&self, name: &str) -> Option<String> {
        let found = self.fields.iter().find(|(field, _)| field == name)?;
        Some(found.1.clone())
    }

    fn text(&self, name: &str) -> String {
        self.field(name).unwrap_or_default()
    }
}

/// A line that is indented by eight goes on with the one before.
fn blocks(list: &str) -> Vec<Block> {
    let mut blocks: Vec<Block> = Vec::new();
    for line in list
        .lines()
        .filter(|line| !line.is_empty() && !line.starts_with('#'))
    {
        let Some(block) = blocks.last_mut().filter(|_| line.starts_with(' ')) else {
            let (head, fields) = (line.to_string(), Vec::new());
            blocks.push(Block { head, fields });
            continue;
        };
        match (
            line.strip_prefix("        "),
            line.trim_start().split_once(": "),
        ) {
            (Some(more), _) => {
                if let Some((_, text)) = block.fields.last_mut() {
                    text.push(' ');
                    text.push_str(more);
                }
            }
            (None, Some((name, text))) => block.fields.push((name.to_string(), text.to_string())),
            (None, None) => {}
        }
    }
    blocks
}

/// Every refusal, in the order of the list.
pub fn refusals() -> &'static [Listed] {
    static LIST: OnceLock<Vec<Listed>> = OnceLock::new();
    LIST.get_or_init(|| {
        let (mut places, mut section, mut listed) = (Vec::new(), String::new(), Vec::new());
        for block in blocks(REFUSALS) {
            if let Some(place) = block.head.strip_prefix("place ") {
                places.extend(
                    place
                        .split_once(": ")
                        .map(|(kind, counts)| (kind.to_string(), counts.to_string())),
                );
            } else if let Some(title) = block.head.strip_prefix("section ") {
                section = title.to_string();
            } else {
                listed.extend(refusal_of(&block, &section, &places));
            }
        }
        spell_out(&mut listed);
        listed
    })
}

/// Where one says `As for 40.`, what is said there stands here too.
fn spell_out(listed: &mut [Listed]) {
    for index in 0..listed.len() {
        let text = listed[index].what_to_do.strip_prefix("As for ");
        let Some((number, rest)) = text.and_then(|text| text.split_once('.')) else {
            continue;
        };
        let other = listed
            .iter()
            .find(|other| other.number.to_string() == number);
        if let Some(other) = other {
            listed[index].what_to_do = format!("{}{rest}", other.what_to_do);
        }
    }
}

fn refusal_of(block: &Block, section: &str, places: &[(String, String)]) -> Option<Listed> {
    let words: Vec<&str> = block.head.split(' ').collect();
    let [number, name, place] = words[..] else {
        return None;
    };
    let counts = places.iter().find(|(kind, _)| kind == place)?.1.clone();
    Some(Listed {
        number: number.parse().ok()?,
        name: name.to_string(),
        place: place.to_string(),
        counts,
        section: section.to_string(),
        calls: block.text("calls"),
        words: block.text("words"),
        table: block.field("table"),
        cause: block.text("cause"),
        what_to_do: block.text("do"),
    })
}

/// The refusal of a number.
pub fn refusal(number: u32) -> Option<&'static Listed> {
    refusals().iter().find(|listed| listed.number == number)
}

/// Every policy bit, rising.
pub fn flags() -> &'static [Flag] {
    static LIST: OnceLock<Vec<Flag>> = OnceLock::new();
    LIST.get_or_init(|| blocks(POLICY).iter().filter_map(flag_of).collect())
}

fn flag_of(block: &Block) -> Option<Flag> {
    let (bit, name) = block.head.split_once(' ')?;
    Some(Flag {
        bit: bit.parse().ok()?,
        name: name.to_string(),
        header: block.text("header"),
        rust: block.text("rust"),
        off: block.text("off").parse().ok()?,
        allows: block.text("allows"),
    })
}

/// The policy of a flag of this name, by any of its names; `-` stands for `_`, and case does not count.
pub fn flag(name: &str) -> Option<Policy> {
    let name = name.replace('-', "_").to_lowercase();
    let named = |flag: &&Flag| {
        [&flag.name, &flag.header, &flag.rust]
            .iter()
            .any(|one| one.to_lowercase() == name)
    };
    let found = flags().iter().find(named)?;
    Some(Policy::from_word(1 << found.bit))
}

/// A policy in words: `all`, `none`, a word such as `0x7fff`, and flags, each put in or, after `-`, taken away from
/// what stands before it. Where the first takes one away, it is from all.
pub fn policy(text: &str) -> Result<Policy, String> {
    let mut policy = match text.starts_with('-') {
        true => Policy::ALL,
        false => Policy::NONE,
    };
    for item in text
        .split(',')
        .map(str::trim)
        .filter(|item| !item.is_empty())
    {
        let (off, name) = match item.strip_prefix('-') {
            Some(name) => (true, name),
            None => (false, item.strip_prefix('+').unwrap_or(item)),
        };
        let flags = named(name)?;
        policy = if off { policy - flags } else { policy | flags };
    }
    Ok(policy)
}

fn named(name: &str) -> Result<Policy, String> {
    if let Some(word) = crate::number::whole(name) {
        let word = u32::try_from(word).map_err(|_| format!("`{name}` is no word of 32 bits"))?;
        return Ok(Policy::from_word(word));
    }
    match name {
        "all" => Ok(Policy::ALL),
        "none" => Ok(Policy::NONE),
        _ => flag(name).ok_or_else(|| {
            let known: Vec<&str> = flags().iter().map(|flag| flag.name.as_str()).collect();
            let hint = hint(name, &known);
            format!("there is no policy flag `{name}`{hint} (`selector help policy` lists them)")
        }),
    }
}

#[cfg(test)]
mod tests {
    use super::*;
    use column_selector::Reason;

    #[test]
    fn the_crate_has_the_same_lists() {
        assert_eq!(refusals().len(), Reason::LISTED.len());
        for reason in Reason::LISTED {
            let listed = refusal(reason.number()).unwrap();
            assert!(reason.meaning().starts_with(&listed.words));
        }
        let all = flags().iter().fold(0, |word, flag| word | 1 << flag.bit);
        assert_eq!(all, Policy::ALL.word());
    }

    #[test]
    fn nothing_is_said_by_number_alone() {
        for listed in refusals() {
            assert!(
                !listed.what_to_do.starts_with("As for"),
                "{}",
                listed.number
            );
        }
        assert!(
            refusal(52)
                .unwrap()
                .what_to_do
                .starts_with("See that the record")
        );
    }

    #[test]
    fn policies_in_words() {
        let null = Policy::NULL_UPCAST;
        for (text, due) in [
            ("all", Policy::ALL),
            ("none", Policy::NONE),
            ("", Policy::NONE),
            ("0xffffffff", Policy::ALL),
            ("1", null),
            ("null_upcast", null),
            ("Null-Upcast", null),
            ("ALLOW_NULL_UPCAST", null),
            ("-null_upcast", Policy::ALL - null),
            ("all,-null_upcast", Policy::ALL - null),
            ("null_upcast, float_upcast", null | Policy::FLOAT_UPCAST),
            ("null_upcast,-null_upcast", Policy::NONE),
        ] {
            assert_eq!(policy(text), Ok(due), "{text}");
        }
        assert!(
            policy("nul_upcast")
                .unwrap_err()
                .contains("did you mean `null_upcast`")
        );
        assert!(policy("0x100000000").is_err());
    }
}
