//! Patterns of names, as clients write them: `*`, `?`, `[a-z]`, `[^a]`, and `\` before a letter that stands for itself.

/// Whether a name is one of a pattern, in letters of any size.
pub fn is_of(pattern: &[u8], name: &[u8]) -> bool {
    let (mut pattern, mut name, mut star) = (pattern, name, None);
    loop {
        if let [b'*', rest @ ..] = pattern {
            (pattern, star) = (rest, Some((rest, name)));
        } else if let Some(behind) = behind_letter(pattern, name) {
            (pattern, name) = behind;
        } else if pattern.is_empty() && name.is_empty() {
            return true;
        } else {
            // What stands behind the last star begins a letter later.
            let Some((rest, [_, left @ ..])) = star else { return false };
            (pattern, name, star) = (rest, left, Some((rest, left)));
        }
    }
}

/// What is left of both behind the first letter, where that is one of the pattern's.
fn behind_letter<'a, 'b>(pattern: &'a [u8], name: &'b [u8]) -> Option<(&'a [u8], &'b [u8])> {
    let (letter, name) = name.split_first()?;
    let (is_one, rest) = match pattern {
        [b'[', rest @ ..] => {
            let end = rest.iter().skip(1).position(|byte| *byte == b']').map_or(rest.len(), |end| end + 1);
            (is_among(&rest[..end], *letter), rest.get(end + 1..).unwrap_or_default())
        }
        [b'?', rest @ ..] => (true, rest),
        [b'\\', it, rest @ ..] | [it, rest @ ..] => (it.eq_ignore_ascii_case(letter), rest),
        [] => return None,
    };
    is_one.then_some((rest, name))
}

/// Whether a letter is one of those between brackets.
fn is_among(class: &[u8], letter: u8) -> bool {
    let (is_other, mut class) = match class {
        [b'^', rest @ ..] => (true, rest),
        _ => (false, class),
    };
    let (letter, mut is_in) = (letter.to_ascii_lowercase(), false);
    while let [first, rest @ ..] = class {
        let (last, behind) = match rest {
            [b'-', last, behind @ ..] => (last, behind),
            _ => (first, rest),
        };
        is_in |= (first.min(last).to_ascii_lowercase()..=first.max(last).to_ascii_lowercase()).contains(&letter);
        class = behind;
    }
    is_in != is_other
}

#[cfg(test)]
mod tests {
    use super::is_of;

    #[test]
    fn names_are_of_patterns() {
        for (pattern, name) in [
            ("*", ""),
            ("max*", "maxmemory"),
            ("T?meout", "timeout"),
            ("[a-c]x[^d]", "BxE"),
            ("\\*a", "*a"),
            ("a*b*c", "aabbc"),
        ] {
            assert!(is_of(pattern.as_bytes(), name.as_bytes()), "{name} is of {pattern}");
        }
        for (pattern, name) in
            [("", "a"), ("a", ""), ("?", ""), ("[^a]", "a"), ("\\*", "a"), ("a*b", "abc"), ("[", "a")]
        {
            assert!(!is_of(pattern.as_bytes(), name.as_bytes()), "{name} isn't of {pattern}");
        }
    }
}
