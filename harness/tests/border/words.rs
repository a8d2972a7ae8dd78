//! The words of a text in Rattle, Rust, C or Python: names, numbers, strings and single signs.

/// The words of a text. Comments are left out; those of Python are not known here.
pub fn words(text: &str) -> Vec<&str> {
    let mut found = Vec::new();
    let mut rest = text;
    while let Some(first) = rest.chars().next() {
        let (word, behind) = rest.split_at(length_of_first(rest, first));
        let is_comment = word.starts_with("//") || word.starts_with("/*");
        if !first.is_whitespace() && !is_comment {
            found.push(word);
        }
        rest = behind;
    }
    found
}

fn length_of_first(text: &str, first: char) -> usize {
    let is_name = |c: char| c.is_alphanumeric() || c == '_';
    let until = |end: &str| text[1..].find(end).map_or(text.len(), |at| 1 + at + end.len());
    match first {
        '"' => until("\""),
        '/' if text.starts_with("//") => until("\n"),
        '/' if text.starts_with("/*") => until("*/"),
        _ if is_name(first) => text.find(|c| !is_name(c)).unwrap_or(text.len()),
        _ => first.len_utf8(),
    }
}

/// Where the bracket closes that the word at a place opens.
pub fn closing(words: &[&str], at: usize) -> Result<usize, String> {
    let mut depth = 0;
    for (place, word) in words.iter().enumerate().skip(at) {
        match *word {
            "(" | "[" | "{" => depth += 1,
            ")" | "]" | "}" => depth -= 1,
            _ => {}
        }
        if depth == 0 {
            return Ok(place);
        }
    }
    Err(format!("a bracket does not close: {}", words[at..].join(" ")))
}

/// What stands between commas; a comma in brackets does not count, and none has to stand at the end.
pub fn parts<'w, 't>(words: &'w [&'t str]) -> Vec<&'w [&'t str]> {
    let mut depth = 0;
    let between = words.split(|word| {
        match *word {
            "(" | "[" | "{" => depth += 1,
            ")" | "]" | "}" => depth -= 1,
            _ => {}
        }
        depth == 0 && *word == ","
    });
    between.filter(|part| !part.is_empty()).collect()
}

/// Where these words stand, each time.
pub fn places(words: &[&str], sought: &[&str]) -> Vec<usize> {
    let windows = words.windows(sought.len()).enumerate();
    windows.filter(|(_, window)| *window == sought).map(|(place, _)| place).collect()
}

/// The words behind the one place where these stand.
pub fn behind<'w, 't>(words: &'w [&'t str], sought: &[&str]) -> Result<&'w [&'t str], String> {
    match places(words, sought)[..] {
        [place] => Ok(&words[place + sought.len()..]),
        ref all => {
            Err(format!("`{}` stands in {} places, not in one", sought.join(" "), all.len()))
        }
    }
}

/// A number, decimal or hexadecimal.
pub fn number(word: &str) -> Option<u64> {
    let digits = word.replace('_', "");
    match digits.strip_prefix("0x") {
        Some(digits) => u64::from_str_radix(digits, 16).ok(),
        None => digits.parse().ok(),
    }
}
