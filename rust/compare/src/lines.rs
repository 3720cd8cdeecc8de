//! Where two lines part, and two texts of lines.

/// So many characters are shown before the one at which lines part.
const BEFORE: usize = 16;

/// So many are shown from there on.
const AFTER: usize = 32;

/// The character at which two lines part and its field, both from 0, and what
/// both lines have around there.
pub fn parting(expected: &str, got: &str) -> [(&'static str, String); 3] {
    let both = expected.chars().zip(got.chars());
    let at = both.take_while(|(a, b)| a == b).count();
    let field = expected.chars().take(at).filter(|c| *c == ' ').count();
    [
        ("parts at", format!("character {at}, in field {field}")),
        ("expected", around(expected, at)),
        ("got", around(got, at)),
    ]
}

/// The number of the first line that differs, from 1, and what both texts have
/// there, with its end.
pub fn first_differing(expected: &str, got: &str) -> [(&'static str, String); 3] {
    let lines = |text| str::split_inclusive(text, '\n');
    let both = lines(expected).zip(lines(got));
    let same = both.take_while(|(a, b)| a == b).count();
    let line = |text| match lines(text).nth(same) {
        Some(line) => format!("{:?}", around(line, 0)),
        None => "no line".to_string(),
    };
    [
        ("line", (same + 1).to_string()),
        ("expected", line(expected)),
        ("got", line(got)),
    ]
}

/// What a line has around a character.
pub fn around(line: &str, at: usize) -> String {
    let (from, to) = (at.saturating_sub(BEFORE), at + AFTER);
    let shown: String = line.chars().take(to).skip(from).collect();
    let dots = |is_more| if is_more { ".." } else { "" };
    let more = line.chars().nth(to).is_some();
    format!("{}{shown}{}", dots(from > 0), dots(more))
}

#[cfg(test)]
mod tests {
    use super::*;

    fn values(parts: [(&'static str, String); 3]) -> [String; 3] {
        parts.map(|(_, value)| value)
    }

    #[test]
    fn where_lines_part() {
        let said = parting("0 8 1 2", "0 8 3 2");
        assert_eq!(
            values(said),
            ["character 4, in field 2", "0 8 1 2", "0 8 3 2"]
        );
        let said = parting("7", "no line");
        assert_eq!(values(said), ["character 0, in field 0", "7", "no line"]);
        // A line that stops early parts at its end.
        let said = parting("0 12", "0 1");
        assert_eq!(values(said), ["character 3, in field 1", "0 12", "0 1"]);
        let line = |digit| format!("0 {}{digit}{}", "0".repeat(100), "f".repeat(100));
        let around = |digit| format!("..{}{digit}{}..", "0".repeat(16), "f".repeat(31));
        let [at, expected, got] = values(parting(&line(1), &line(2)));
        assert_eq!(at, "character 102, in field 1");
        assert_eq!((expected, got), (around(1), around(2)));
    }

    #[test]
    fn which_line_differs() {
        let text = "region 0\ncall 1 0\nend 1\n";
        let said = first_differing(text, "region 0\ncall 1 7\nend 0\n");
        assert_eq!(values(said), ["2", "\"call 1 0\\n\"", "\"call 1 7\\n\""]);
        let said = first_differing(text, "region 0\n");
        assert_eq!(values(said), ["2", "\"call 1 0\\n\"", "no line"]);
        // The end of the last line counts.
        let said = first_differing(text, text.trim_end());
        assert_eq!(values(said), ["3", "\"end 1\\n\"", "\"end 1\""]);
    }
}
