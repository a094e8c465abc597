//! Long texts in lines.

const WIDEST: usize = 100;

/// Lines of at most 100 letters, where words are not longer; each but the first is indented by so many blanks more.
pub fn wrapped(text: &str, indent: usize, more: usize) -> String {
    let (mut lines, mut line) = (String::new(), " ".repeat(indent));
    for word in text.split(' ') {
        if line.trim_start().is_empty() || line.chars().count() + word.chars().count() <= WIDEST {
            line.push_str(word);
        } else {
            lines.push_str(line.trim_end());
            lines.push('\n');
            line = format!("{}{word}", " ".repeat(indent + more));
        }
        line.push(' ');
    }
    format!("{lines}{}\n", line.trim_end())
}

/// Numbers in words: `1, 2 and 3`.
pub fn listed(numbers: &[u16], before_last: &str) -> String {
    let words: Vec<String> = numbers.iter().map(u16::to_string).collect();
    match words.split_last() {
        Some((last, others)) if !others.is_empty() => {
            format!("{} {before_last} {last}", others.join(", "))
        }
        _ => words.concat(),
    }
}

#[cfg(test)]
mod tests {
    use super::*;

    #[test]
    fn lines() {
        assert_eq!(wrapped("a b", 2, 2), "  a b\n");
        let long = "word ".repeat(30);
        let text = wrapped(long.trim_end(), 2, 2);
        assert!(
            text.lines()
                .all(|line| line.len() <= WIDEST && line.starts_with("  "))
        );
        assert_eq!(text.lines().count(), 2);
        assert_eq!(text.split_whitespace().count(), 30);
    }
}
