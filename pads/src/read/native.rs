//! Folders with the analyser's own texts: lib.txt, net.txt and, if there, names.csv. All bad lines of a netlist are told,
//! by the proved reader itself.

use crate::ask::archive::{self, refusal_told, Refusal, MOST_LINES};
use crate::ask::model::Model;
use crate::read::names;
use crate::show::messages::{shown_name, Messages};
use crate::show::text::{self, Stop};
use std::path::Path;

const MOST_TOLD: usize = 50;
const MOST_FILE: usize = 1 << 20;

pub fn read(folder: &str, messages: &mut Messages) -> Result<Model, Stop> {
    let path = |name: &str| Path::new(folder).join(name).display().to_string();
    let [lib_file, net_file, names_file] = [path("lib.txt"), path("net.txt"), path("names.csv")];
    let lib = ended(text::read(&lib_file, MOST_FILE, messages)?);
    let net = ended(text::read(&net_file, MOST_FILE, messages)?);
    let given = if Path::new(&names_file).exists() {
        // Lines that end with CR LF are the rule in a CSV file, and no word is said of them.
        let text = text::read(&names_file, MOST_FILE, &mut Messages::new()).map_err(|stop| match stop {
            Stop::Refused => Stop::Usage(format!("{names_file}: more than {} MB", MOST_FILE >> 20)),
            other => other,
        })?;
        names::read(&names_file, &text, messages)
    } else {
        Vec::new()
    };
    tell_refusals(&lib_file, &lib, &net_file, &net, messages);
    if messages.errors() > 0 {
        return Err(Stop::Refused);
    }
    let mut model = match Model::new(folder, lib.into_bytes(), net.into_bytes(), given.clone()) {
        Ok(model) => model,
        Err(Refusal { number, line }) => {
            messages.error(folder, format!("{} (refusal {number}, line {line})", refusal_told(number)));
            return Err(Stop::Refused);
        }
    };
    let strange: Vec<String> = given
        .iter()
        .filter(|name| !model.lines().any(|line| line == name.line))
        .take(5)
        .map(|name| name.line.to_string())
        .collect();
    if !strange.is_empty() {
        messages.warn(format!("{names_file} names lines that the netlist does not have: {}", strange.join(", ")));
    }
    model.title = shown_name(folder.trim_end_matches('/').rsplit('/').next().unwrap_or(folder));
    Ok(model)
}

fn ended(mut text: String) -> String {
    if !text.is_empty() && !text.ends_with('\n') {
        text.push('\n');
    }
    text
}

/// The analyser tells the topmost bad line. That line is taken out of a copy and the analyser asked again, so that all
/// are told.
pub fn tell_refusals(lib_file: &str, lib: &str, net_file: &str, net: &str, messages: &mut Messages) {
    let mut lines: Vec<(usize, &str)> = net.lines().enumerate().map(|(at, line)| (at + 1, line)).collect();
    for told in 0..=MOST_TOLD {
        let copy: String = lines.iter().flat_map(|(_, line)| [line, "\n"]).collect();
        let Err(Refusal { number, line }) = archive::report_text(lib.as_bytes(), copy.as_bytes()) else {
            return;
        };
        let said = format!("{} (refusal {number})", refusal_told(number));
        match number {
            2 if lib.len() > archive::MOST_BYTES => messages.error(lib_file, said),
            2 => messages.error(net_file, said),
            3..=9 => {
                let shown = lib.lines().nth(line.saturating_sub(1)).unwrap_or("");
                messages.error_at(lib_file, line, shown, said);
            }
            20 if told == 0 => tell_undriven(net_file, &lines, messages),
            // Lines without a driver may follow from those that were taken out.
            20 => {}
            _ if line >= 1 && line <= lines.len() => {
                let (own, shown) = lines.remove(line - 1);
                messages.error_at(net_file, own, shown, said);
                continue;
            }
            _ => messages.error(net_file, said),
        }
        return;
    }
    messages.error(net_file, "and perhaps more: the first 50 bad lines are told");
}

fn tell_undriven(file: &str, lines: &[(usize, &str)], messages: &mut Messages) {
    let mut driven = vec![false; MOST_LINES + 1];
    let mut read: Vec<(usize, usize, &str)> = Vec::new();
    for &(number, text) in lines {
        let fields: Vec<&str> = text.split(',').collect();
        let at = |place: usize| -> usize {
            let line = fields.get(place).and_then(|field| field.parse().ok()).unwrap_or(0);
            if line > MOST_LINES {
                0
            } else {
                line
            }
        };
        match fields[0] {
            "input" | "open" => driven[at(1)] = true,
            "output" => read.push((at(1), number, text)),
            "gate" => {
                driven[at(2)] = true;
                read.extend((3..fields.len()).map(|place| (at(place), number, text)));
            }
            _ => {}
        }
    }
    for (line, number, text) in read {
        if !std::mem::replace(&mut driven[line], true) {
            let said = format!("nothing drives line {line}, and no 'open,{line}' says so (refusal 20)");
            messages.error_at(file, number, text, said);
        }
    }
}

#[cfg(test)]
mod tests {
    use super::*;

    fn told(lib: &str, net: &str) -> String {
        let mut messages = Messages::new();
        tell_refusals("lib.txt", lib, "net.txt", net, &mut messages);
        messages.text()
    }

    #[test]
    fn all_bad_lines_of_a_netlist() {
        let lib = archive::cell("NAND2", 2, "1110").unwrap();
        let net = "input,1\ninput,0\ngate,NAND9,3,1,1\ngate,NAND2,4,1\nhello\ngate,NAND2,5,1,1\noutput,5\noutput,5\ninput,5\n";
        let said = told(&lib, net);
        for (line, number) in [(2, 11), (3, 12), (4, 13), (5, 10), (8, 15), (9, 14)] {
            assert!(said.contains(&format!("net.txt:{line}: error: ")), "{line}: {said}");
            assert!(said.contains(&format!("(refusal {number})")), "{number}: {said}");
        }
        assert!(said.contains("    gate,NAND9,3,1,1\n"));
    }

    #[test]
    fn undriven_lines_one_by_one() {
        let lib = archive::cell("NAND2", 2, "1110").unwrap();
        let said = told(&lib, "gate,NAND2,5,1,2\noutput,6\n");
        assert_eq!(said.lines().filter(|line| line.contains("refusal 20")).count(), 3, "{said}");
    }

    #[test]
    fn a_library_stops_at_its_first() {
        let said = told("Name,A,1\nCC,9\n", "");
        assert!(said.starts_with("lib.txt:2: error: "), "{said}");
    }
}
