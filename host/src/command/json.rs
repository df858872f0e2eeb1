//! JSON, as much of it as is written.

/// An object of these names and values, which are JSON already, in one line.
pub fn object(rows: &[(&str, String)]) -> String {
    let row = |(name, value): &(&str, String)| format!("{}:{value}", string(name));
    let rows: Vec<String> = rows.iter().map(row).collect();
    format!("{{{}}}", rows.join(","))
}

/// A list of strings.
pub fn strings(texts: &[String]) -> String {
    let texts: Vec<String> = texts.iter().map(|text| string(text)).collect();
    format!("[{}]", texts.join(","))
}

pub fn string(text: &str) -> String {
    let written = |c: char| match c {
        '"' => "\\\"".to_string(),
        '\\' => "\\\\".to_string(),
        '\n' => "\\n".to_string(),
        c if c < ' ' => format!("\\u{:04x}", c as u32),
        c => c.to_string(),
    };
    let written: String = text.chars().map(written).collect();
    format!("\"{written}\"")
}
