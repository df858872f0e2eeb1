//! The frame of a page.

const STYLE: &str = include_str!("style.css");

/// Text as it may stand between tags or in an attribute.
pub fn escape(text: &str) -> String {
    let mut escaped = String::with_capacity(text.len());
    for c in text.chars() {
        match c {
            '&' => escaped.push_str("&amp;"),
            '<' => escaped.push_str("&lt;"),
            '>' => escaped.push_str("&gt;"),
            '"' => escaped.push_str("&quot;"),
            c => escaped.push(c),
        }
    }
    escaped
}

/// Text as it may stand between tags, with what stands between backquotes as code.
pub fn prose(text: &str) -> String {
    let mut parts: Vec<String> = text.split('`').map(escape).collect();
    for part in parts.iter_mut().skip(1).step_by(2) {
        *part = format!("<code>{part}</code>");
    }
    parts.concat()
}

/// A page that needs nothing from elsewhere. The body is HTML already.
pub fn page(title: &str, body: &str) -> String {
    let title = escape(title);
    format!(
        "<!DOCTYPE html>\n<html lang=\"en\">\n<head>\n<meta charset=\"utf-8\">\n\
         <meta name=\"viewport\" content=\"width=device-width\">\n\
         <meta name=\"color-scheme\" content=\"light dark\">\n\
         <title>{title}</title>\n<style>\n{STYLE}</style>\n</head>\n\
         <body>\n{body}</body>\n</html>\n"
    )
}

#[cfg(test)]
mod tests {
    use super::*;

    #[test]
    fn text_is_escaped() {
        assert_eq!(
            escape("a -> <b> & \"c\""),
            "a -&gt; &lt;b&gt; &amp; &quot;c&quot;"
        );
        assert!(page("<x>", "").contains("<title>&lt;x&gt;</title>"));
        assert_eq!(
            prose("at `a < b`, `c`."),
            "at <code>a &lt; b</code>, <code>c</code>."
        );
    }
}
