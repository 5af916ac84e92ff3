//! The `#define`s of a C header as constants in Rust.

/// A constant of 64 bits for each `#define LLOBATELH_NAME value`, named NAME, and a function for each `#define LLOBATELH_NAME(i) value`, named
/// in lower case. A value has numbers, other such names, `+`, `-`, `*`, `<<`, `~`, brackets, and casts to `uint64_t`.
pub fn as_rust(header: &str) -> Result<String, String> {
    let mut rust = String::new();
    for line in header.replace("\\\n", " ").lines() {
        let Some(define) = line.trim().strip_prefix("#define LLOBATELH_") else {
            continue;
        };
        let code = without_comments(define);
        let end = code.find(|c| !in_word(c)).unwrap_or(code.len());
        let (name, after) = code.split_at(end);
        let (parameter, value) = match after.strip_prefix('(') {
            Some(after) => match after.split_once(')') {
                Some((parameter, value)) => (Some(parameter.trim()), value),
                None => return Err(format!("LLOBATELH_{name}: its parameter has no end")),
            },
            None => (None, after),
        };
        if value.trim().is_empty() {
            continue;
        }
        let value = expression(value, parameter)
            .map_err(|word| format!("LLOBATELH_{name}: `{word}` can't be read"))?;
        rust += &format!("#[doc = {:?}]\n", format!("`{}`", line.trim()));
        rust += &match parameter {
            Some(parameter) => {
                let name = name.to_lowercase();
                format!("pub const fn {name}({parameter}: u64) -> u64 {{ {value} }}\n")
            }
            None => format!("pub const {name}: u64 = {value};\n"),
        };
    }
    Ok(rust)
}

fn in_word(c: char) -> bool {
    c.is_ascii_alphanumeric() || c == '_'
}

/// A line of C without what its comments say. One that goes on in the next line ends this one.
fn without_comments(line: &str) -> String {
    let mut code = String::new();
    let mut rest = line.split("//").next().unwrap_or(line);
    while let Some((before, comment)) = rest.split_once("/*") {
        code = code + before + " ";
        rest = comment.split_once("*/").map_or("", |(_, after)| after);
    }
    code + rest
}

/// A value of C in Rust; or the word of it that can't be read.
fn expression(value: &str, parameter: Option<&str>) -> Result<String, String> {
    // Each number has 64 bits anyway.
    let value = value.replace("(uint64_t)", " ");
    let mut rust = String::new();
    let mut rest = value.trim();
    while let Some(first) = rest.chars().next() {
        let end = match in_word(first) {
            true => rest.find(|c| !in_word(c)).unwrap_or(rest.len()),
            false => first.len_utf8(),
        };
        let word = &rest[..end];
        rest = rest[end..].trim_start();
        rust += &match (word, word.strip_prefix("LLOBATELH_")) {
            ("+" | "-" | "*" | "<" | "(" | ")", _) => word.to_string(),
            ("~", _) => "!".to_string(),
            (_, Some(name)) if rest.starts_with('(') => name.to_lowercase(),
            (_, Some(name)) => name.to_string(),
            _ if Some(word) == parameter => word.to_string(),
            _ => number(word).ok_or(word)?.to_string(),
        };
    }
    Ok(rust)
}

/// A number of C, decimal or hexadecimal. One that starts with 0 and has more digits would be octal.
fn number(word: &str) -> Option<u64> {
    let digits = word.trim_end_matches(['u', 'U', 'l', 'L']);
    let hexadecimal = digits.strip_prefix("0x").or(digits.strip_prefix("0X"));
    match hexadecimal {
        Some(digits) => u64::from_str_radix(digits, 16).ok(),
        None if digits.len() > 1 && digits.starts_with('0') => None,
        None => digits.parse().ok(),
    }
}
