//! Comma-separated values as RFC 4180 has them.

/// One record with its line end.
pub fn record(fields: &[&str]) -> String {
    let fields: Vec<String> = fields.iter().map(|field| quoted(field)).collect();
    fields.join(",") + "\r\n"
}

fn quoted(field: &str) -> String {
    if field.contains([',', '"', '\n', '\r']) {
        format!("\"{}\"", field.replace('"', "\"\""))
    } else {
        field.to_string()
    }
}

/// The records of a text, each with the line on which it begins. An error has its line.
pub fn read(text: &str) -> Result<Vec<(usize, Vec<String>)>, (usize, String)> {
    let mut records = Vec::new();
    let mut fields: Vec<String> = Vec::new();
    let mut field = String::new();
    let (mut line, mut begun) = (1, 1);
    let mut letters = text.chars().peekable();
    let mut fresh = true;
    while let Some(letter) = letters.next() {
        match letter {
            '"' if fresh => loop {
                match letters.next() {
                    Some('"') if letters.peek() == Some(&'"') => {
                        letters.next();
                        field.push('"');
                    }
                    Some('"') => {
                        fresh = false;
                        break;
                    }
                    Some(letter) => {
                        line += usize::from(letter == '\n');
                        field.push(letter);
                    }
                    None => return Err((begun, "a quoted field without its end".to_string())),
                }
            },
            ',' => {
                fields.push(std::mem::take(&mut field));
                fresh = true;
            }
            '\r' if letters.peek() == Some(&'\n') => {}
            '\n' => {
                fields.push(std::mem::take(&mut field));
                records.push((begun, std::mem::take(&mut fields)));
                line += 1;
                begun = line;
                fresh = true;
            }
            letter => {
                field.push(letter);
                fresh = false;
            }
        }
    }
    if !fields.is_empty() || !field.is_empty() {
        fields.push(field);
        records.push((begun, fields));
    }
    Ok(records)
}

#[cfg(test)]
mod tests {
    use super::*;

    #[test]
    fn there_and_back() {
        let fields = ["a", "", "b,c", "say \"x\"", "two\nlines"];
        let text = record(&fields) + &record(&["1"]);
        let read = read(&text).unwrap();
        assert_eq!(read[0].1, fields);
        assert_eq!(read[1], (3, vec!["1".to_string()]));
    }

    #[test]
    fn ends() {
        assert_eq!(read("a,b").unwrap()[0].1, ["a", "b"]);
        assert_eq!(read("").unwrap().len(), 0);
        assert!(read("\"a").is_err());
    }
}
