//! genlib, the libraries of SIS and ABC: `GATE name area out=function; PIN ..` and `LATCH .. SEQ .. CONTROL ..`.

use crate::read::expr::Expr;
use crate::read::liberty::{Library, Written};
use crate::show::messages::Messages;
use std::collections::HashMap;

const MOST_CELLS: usize = 20_000;
/// Bytes of a function.
const MOST_FUNCTION: usize = 4_000;

/// Whether a text is such a library, by its first word.
pub fn is_one(text: &str) -> bool {
    let first = text.lines().map(|line| line.split('#').next().unwrap_or("").trim()).find(|line| !line.is_empty());
    first.is_some_and(|line| matches!(line.split_whitespace().next(), Some("GATE" | "LATCH")))
}

/// A GATE or LATCH as far as it is read.
struct Begun {
    line: usize,
    name: String,
    output: String,
    function: String,
    latch: bool,
    /// The kind of a latch with its state's name, and its control.
    kind: Option<(String, String)>,
    control: Option<String>,
}

pub fn read(file: &str, text: &str, messages: &mut Messages) -> Library {
    let mut library = Library { file: file.to_string(), cells: HashMap::new() };
    let mut begun: Option<Begun> = None;
    // The words of a statement up to its function's ';', which may be lines below.
    let mut head: Option<(usize, String)> = None;
    let shown = |line: usize| text.lines().nth(line - 1).unwrap_or("");
    for (at, line) in text.lines().enumerate() {
        let number = at + 1;
        let mut rest = line.split('#').next().unwrap_or("");
        while !rest.trim().is_empty() {
            if let Some((first, words)) = &mut head {
                let end = rest.find(';');
                words.push(' ');
                words.push_str(&rest[..end.unwrap_or(rest.len())]);
                rest = end.map_or("", |end| &rest[end + 1..]);
                if words.len() > 2 * MOST_FUNCTION {
                    messages.error_at(file, *first, shown(*first), "a function of more than 4,000 bytes");
                    return library;
                }
                if end.is_some() {
                    match statement(*first, words) {
                        Ok(made) => begun = Some(made),
                        Err(words) => messages.error_at(file, *first, shown(*first), words),
                    }
                    head = None;
                }
                continue;
            }
            let words: Vec<&str> = rest.split_whitespace().take(5).collect();
            match words[0] {
                "GATE" | "LATCH" => {
                    finish(begun.take(), &mut library, &mut |line, words| {
                        messages.error_at(file, line, shown(line), words)
                    });
                    if library.cells.len() >= MOST_CELLS {
                        messages.error_at(file, number, line, "more than 20,000 cells");
                        return library;
                    }
                    head = Some((number, words[0].to_string()));
                    rest = rest.trim_start().strip_prefix(words[0]).unwrap_or("");
                    continue;
                }
                "PIN" | "CONSTRAINT" => {}
                "SEQ" => match (&mut begun, &words[..]) {
                    (Some(begun), [_, _, state, kind, ..]) => begun.kind = Some((state.to_string(), kind.to_string())),
                    _ => messages.error_at(file, number, line, "a SEQ is: SEQ input output KIND, behind a LATCH"),
                },
                "CONTROL" => match (&mut begun, &words[..]) {
                    (Some(begun), [_, name, ..]) => begun.control = Some(unquoted(name)),
                    _ => messages.error_at(file, number, line, "a CONTROL has a name, behind a LATCH"),
                },
                other => {
                    let words = format!("'{other}' is no statement of genlib (GATE, LATCH, PIN, SEQ, CONTROL)");
                    messages.error_at(file, number, line, words);
                }
            }
            // PIN may stand behind a function on the same line, each to the line's end or the next word PIN.
            rest = rest.trim_start();
            let next = rest[words[0].len()..].find("PIN").map(|next| next + words[0].len());
            rest = next.filter(|_| words[0] == "PIN").map_or("", |next| &rest[next..]);
        }
        if messages.full() {
            return library;
        }
    }
    if let Some((first, _)) = head {
        messages.error_at(file, first, shown(first), "a function without its ';'");
    }
    finish(begun.take(), &mut library, &mut |line, words| messages.error_at(file, line, shown(line), words));
    if library.cells.is_empty() && messages.errors() == 0 {
        messages.error(file, "no GATE stands here: is it a genlib library?");
    }
    library
}

fn unquoted(word: &str) -> String {
    word.trim_matches('"').to_string()
}

/// `GATE name area out=function`.
fn statement(line: usize, words: &str) -> Result<Begun, String> {
    const FORM: &str = "a gate is: GATE name area out=function;";
    let (left, function) = words.split_once('=').ok_or(FORM)?;
    let left: Vec<&str> = left.split_whitespace().collect();
    let [kind, name, area, output] = left[..] else { return Err(FORM.to_string()) };
    if area.parse::<f64>().is_err() {
        return Err(format!("'{area}' is no area: {FORM}"));
    }
    let function = function.trim();
    let function = match function {
        "CONST0" => "0",
        "CONST1" => "1",
        other => other,
    };
    Expr::parse(function)?;
    Ok(Begun {
        line,
        name: unquoted(name),
        output: unquoted(output),
        function: function.to_string(),
        latch: kind == "LATCH",
        kind: None,
        control: None,
    })
}

fn finish(begun: Option<Begun>, library: &mut Library, error: &mut dyn FnMut(usize, String)) {
    let Some(begun) = begun else { return };
    let Ok(function) = Expr::parse(&begun.function) else { return };
    let names = function.names();
    if !begun.latch {
        library.cells.entry(begun.name).or_insert_with(|| Written::plain(names, &begun.output, &begun.function));
        return;
    }
    let Some((state, kind)) = begun.kind else {
        return error(begun.line, "a LATCH without its SEQ, which says its kind".to_string());
    };
    let (latch, active) = match kind.as_str() {
        "RISING_EDGE" => (false, true),
        "FALLING_EDGE" => (false, false),
        "ACTIVE_HIGH" => (true, true),
        "ACTIVE_LOW" => (true, false),
        other => {
            return error(
                begun.line,
                format!("{other} has no rows here: RISING_EDGE, FALLING_EDGE, ACTIVE_HIGH, ACTIVE_LOW"),
            )
        }
    };
    let Some(control) = begun.control else {
        return error(begun.line, "a LATCH without its CONTROL, the clock's name".to_string());
    };
    let inputs = names.into_iter().filter(|name| *name != state).collect();
    let written = Written::register(inputs, &begun.output, &begun.function, latch, active, &control, &state);
    library.cells.entry(begun.name).or_insert(written);
}

#[cfg(test)]
mod tests {
    use super::*;
    use crate::rows::cells::Kind;

    fn library(text: &str) -> (Library, String) {
        let mut messages = Messages::new();
        let library = read("c.genlib", text, &mut messages);
        (library, messages.text())
    }

    #[test]
    fn gates_and_latches() {
        let (library, said) = library(
            "# cells\nGATE inv1 1 O=!a; PIN a INV 1 999 0.9 0.3 0.9 0.3\nGATE \"aoi21\" 3\n  O=!(a1*a2+b);\n PIN * INV 1 999 1 1 1 1\n\
             GATE zero 0 O=CONST0;\nGATE xor 5 O=a*!b+!a*b; PIN a UNKNOWN 1 999 1 1 1 1 PIN b UNKNOWN 1 999 1 1 1 1\n\
             LATCH dff 8 Q=D; PIN D NONINV 1 999 1 1 1 1\n SEQ D ANY RISING_EDGE\n CONTROL CLK 1 999 1 1 1 1\n\
             CONSTRAINT D 1 1\nLATCH lat 8 Q=D; PIN D NONINV 1 999 1 1 1 1\n SEQ D ANY ACTIVE_LOW\n CONTROL G 1 999 1 1 1 1\n",
        );
        assert_eq!(said, "");
        assert_eq!(library.cells.len(), 6);
        for (name, pins, digits) in
            [("inv1", &["a"][..], "10"), ("aoi21", &["a1", "a2", "b"], "10101000"), ("xor", &["a", "b"], "0110")]
        {
            let (cells, inputs) = library.cells[name].cells(name).unwrap();
            assert_eq!(inputs, pins);
            let Kind::Table(table) = &cells[0].kind else { panic!("{name}") };
            assert_eq!(table.digits(), digits, "{name}");
        }
        for (name, latch, active, control) in [("dff", false, true, "CLK"), ("lat", true, false, "G")] {
            let (cells, inputs) = library.cells[name].cells(name).unwrap();
            assert_eq!(inputs, ["D", control]);
            let Kind::Register(register) = &cells[0].kind else { panic!("{name}") };
            assert_eq!((register.latch, register.active, register.inverted), (latch, active, false));
            assert_eq!(library.cells[name].control(), Some(control));
        }
    }

    #[test]
    fn bad_lines_are_all_told() {
        let (_, said) = library(
            "GATE a 1 O=!x;\nGATE b O=!x;\nGATE c 1 O=!(x;\nFOO\nLATCH d 1 Q=D;\nGATE e many O=x;\nLATCH f 1 Q=D;\nSEQ D Q ASYNCH\n\
             CONTROL C\nGATE g 1 O=x\n",
        );
        for (line, words) in [
            (2, "a gate is: GATE name area"),
            (3, "')' is missing"),
            (4, "'FOO' is no statement"),
            (5, "without its SEQ"),
            (6, "'many' is no area"),
            (7, "ASYNCH has no rows"),
            (10, "without its ';'"),
        ] {
            let told =
                said.lines().any(|told| told.starts_with(&format!("c.genlib:{line}: error: ")) && told.contains(words));
            assert!(told, "{line} {words}: {said}");
        }
        assert!(library("").1.contains("no GATE"));
        assert!(is_one("# a\n\n GATE a 1 O=x;") && !is_one("library(a) {"));
        assert!(library(&format!("GATE a 1 O={}", "x*".repeat(10_000))).1.contains("4,000"));
    }
}
