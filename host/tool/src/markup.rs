//! What drawings and charts share: text in XML, numbers, fonts.

/// Fonts with digits of one width, at most [`DIGIT`] hundredths of their size.
pub(crate) const FONT: &str = "Arial, 'Liberation Sans', 'DejaVu Sans', sans-serif";

/// The widest digit among [`FONT`], in hundredths of the font's size.
pub(crate) const DIGIT: u64 = 64;

/// Text as it is written between tags or in an attribute.
pub(crate) fn escaped(text: &str) -> String {
    text.chars().fold(String::new(), |mut out, letter| {
        match letter {
            '&' => out.push_str("&amp;"),
            '<' => out.push_str("&lt;"),
            '>' => out.push_str("&gt;"),
            '"' => out.push_str("&quot;"),
            other => out.push(other),
        }
        out
    })
}

/// A number with a comma before each three digits: 1,000.
pub(crate) fn grouped(number: impl Into<u64>) -> String {
    let digits = number.into().to_string();
    let mut out = String::new();
    for (at, digit) in digits.char_indices() {
        if at > 0 && (digits.len() - at) % 3 == 0 {
            out.push(',');
        }
        out.push(digit);
    }
    out
}

/// A number of hundredths as a decimal: 250 is 2.5.
pub(crate) fn hundredths(value: u64) -> String {
    let (whole, rest) = (value / 100, value % 100);
    match (rest, rest % 10) {
        (0, _) => whole.to_string(),
        (_, 0) => format!("{whole}.{}", rest / 10),
        _ => format!("{whole}.{rest:02}"),
    }
}

/// Numbers in words: `1, 2, 3`, or `none`.
pub(crate) fn listed(numbers: impl IntoIterator<Item = u32>) -> String {
    let words: Vec<_> = numbers.into_iter().map(|each| each.to_string()).collect();
    match words.is_empty() {
        true => "none".into(),
        false => words.join(", "),
    }
}

#[cfg(test)]
mod tests {
    use super::*;

    #[test]
    fn text_is_escaped() {
        assert_eq!(
            escaped(r#"v < l & "d" > r"#),
            "v &lt; l &amp; &quot;d&quot; &gt; r"
        );
    }

    #[test]
    fn numbers_are_grouped() {
        let cases = [
            (0, "0"),
            (999, "999"),
            (1_000, "1,000"),
            (123_456, "123,456"),
        ];
        for (number, text) in cases {
            assert_eq!(grouped(number as u32), text);
        }
        assert_eq!(grouped(u32::MAX), "4,294,967,295");
    }

    #[test]
    fn hundredths_are_short() {
        let cases = [
            (0, "0"),
            (5, "0.05"),
            (50, "0.5"),
            (100, "1"),
            (1_234, "12.34"),
        ];
        for (value, text) in cases {
            assert_eq!(hundredths(value), text);
        }
    }

    #[test]
    fn lists_are_in_words() {
        assert_eq!(listed([]), "none");
        assert_eq!(listed([4, 12]), "4, 12");
    }
}
