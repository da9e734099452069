//! What a mistyped word was meant to be.

/// Two slips at most, and one in a short word.
fn slips_allowed(letters: usize) -> usize {
    match letters {
        0..=2 => 0,
        3..=4 => 1,
        _ => 2,
    }
}

/// The known word that is nearest to this one, if it is near.
pub fn nearest<'a>(word: &str, known: &[&'a str]) -> Option<&'a str> {
    let word: Vec<char> = word.to_lowercase().chars().collect();
    // A longer one is no slip of any known word.
    if word.len() > 20 {
        return None;
    }
    let far = |known: &str| {
        let letters: Vec<char> = known.to_lowercase().chars().collect();
        let allowed = slips_allowed(word.len().min(letters.len()));
        let slips = distance(&word, &letters);
        (slips <= allowed).then_some(slips)
    };
    let near = known.iter().filter_map(|&known| Some((far(known)?, known)));
    near.min_by_key(|&(slips, _)| slips).map(|(_, known)| known)
}

/// How many letters to put in, take out, change, or swap with the next one.
fn distance(one: &[char], two: &[char]) -> usize {
    let mut rows: Vec<Vec<usize>> = vec![(0..=two.len()).collect()];
    for at in 1..=one.len() {
        let mut row = vec![at];
        for to in 1..=two.len() {
            let changed = rows[at - 1][to - 1] + usize::from(one[at - 1] != two[to - 1]);
            let mut best = changed.min(rows[at - 1][to] + 1).min(row[to - 1] + 1);
            let swapped =
                at > 1 && to > 1 && one[at - 1] == two[to - 2] && one[at - 2] == two[to - 1];
            if swapped {
                best = best.min(rows[at - 2][to - 2] + 1);
            }
            row.push(best);
        }
        rows.push(row);
    }
    rows[one.len()][two.len()]
}

#[cfg(test)]
mod tests {
    use super::nearest;
    use crate::notation::WORDS;

    #[test]
    fn slips() {
        for (word, meant) in [
            ("wrok", Some("work")),
            ("jop", Some("job")),
            ("Jobs", Some("job")),
            ("injekt", Some("inject")),
            ("dilever", Some("deliver")),
            ("widthraw", Some("withdraw")),
            ("chekpoint", Some("checkpoint")),
            ("chre", Some("chare")),
            ("recovery", None),
            ("a", None),
            ("", None),
            ("machines", None),
            ("withdrawwithdrawwithdraw", None),
        ] {
            assert_eq!(nearest(word, &WORDS), meant, "{word}");
        }
    }
}
