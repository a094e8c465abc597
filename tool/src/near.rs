//! The word that was perhaps meant.

/// Of the words one can choose the nearest to what was written, if it is near at all.
fn nearest<'a>(word: &str, words: &[&'a str]) -> Option<&'a str> {
    let most = 1 + word.chars().count() / 3;
    let distances = words.iter().map(|other| (distance(word, other), *other));
    distances
        .filter(|(distance, _)| *distance <= most)
        .min()
        .map(|(_, other)| other)
}

/// The same as the end of a message.
pub fn hint(word: &str, words: &[&str]) -> String {
    nearest(word, words).map_or(String::new(), |near| format!("; did you mean `{near}`?"))
}

/// How many letters are put in, left out or changed.
fn distance(one: &str, other: &str) -> usize {
    let other: Vec<char> = other.chars().collect();
    let mut row: Vec<usize> = (0..=other.len()).collect();
    for (i, letter) in one.chars().enumerate() {
        let mut before = std::mem::replace(&mut row[0], i + 1);
        for (j, same) in other.iter().map(|other| *other == letter).enumerate() {
            let changed = before + usize::from(!same);
            before = row[j + 1];
            row[j + 1] = changed.min(before + 1).min(row[j] + 1);
        }
    }
    row[other.len()]
}

#[cfg(test)]
mod tests {
    use super::*;

    #[test]
    fn nearest_words() {
        let words = ["build", "check", "run"];
        assert_eq!(nearest("biuld", &words), Some("build"));
        assert_eq!(nearest("bild", &words), Some("build"));
        assert_eq!(nearest("chekc", &words), Some("check"));
        assert_eq!(nearest("xyz", &words), None);
        assert_eq!(distance("kitten", "sitting"), 3);
    }
}
