//! `--price FILE`: what inputs and the outputs of boxes cost, a line `net,LOW,HIGH` each; # starts a comment. Written as
//! `range,L,LOW,HIGH`.

use crate::read::names::{self, LineKind, Name};
use crate::rows::writer::Texts;
use crate::show::messages::Messages;
use crate::show::text::{self, Stop};

const MOST_FILE: usize = 1 << 20;
/// The analyser's bounds of a price.
const MOST_PRICE: u32 = 999;

/// Puts the ranges of a file into the netlist; every bad line is told.
pub fn put(file: &str, texts: &mut Texts, messages: &mut Messages) -> Result<(), Stop> {
    let text = text::read(file, MOST_FILE, messages)?;
    let mut ranges = String::new();
    let mut priced = vec![0usize; texts.names.len() + 1];
    for (at, line) in text.lines().enumerate() {
        let line = line.split('#').next().unwrap_or("").trim();
        if line.is_empty() || at == 0 && line.eq_ignore_ascii_case("net,low,high") {
            continue;
        }
        match one(&texts.names, line) {
            Ok((net, _, _)) if priced[net] > 0 => {
                messages.error_at(file, at + 1, line, format!("it has its price already, on line {}", priced[net]));
            }
            Ok((net, low, high)) => {
                priced[net] = at + 1;
                ranges += &format!("range,{net},{low},{high}\n");
            }
            Err(words) => messages.error_at(file, at + 1, line, words),
        }
    }
    if messages.errors() > 0 {
        return Err(Stop::Refused);
    }
    // Behind the inputs, which are the first statements.
    let inputs = texts.net.lines().take_while(|line| line.starts_with("input,")).map(|line| line.len() + 1).sum();
    texts.net.insert_str(inputs, &ranges);
    if texts.net.len() > crate::ask::archive::MOST_BYTES {
        messages.error(file, "with these prices the netlist is longer than the analyser takes: price fewer inputs");
        return Err(Stop::Refused);
    }
    Ok(())
}

/// A net has no comma in its own line's last two fields, so that those are the prices.
fn one(names: &[Name], line: &str) -> Result<(usize, u32, u32), String> {
    let mut fields = line.rsplitn(3, ',').map(str::trim);
    let (Some(high), Some(low), Some(net)) = (fields.next(), fields.next(), fields.next()) else {
        return Err("a price is a line net,LOW,HIGH".to_string());
    };
    let price = |word: &str| {
        let price = word.parse().ok().filter(|price| (1..=MOST_PRICE).contains(price));
        price.ok_or_else(|| format!("'{word}' is no price: 1 to {MOST_PRICE}"))
    };
    let (low, high) = (price(low)?, price(high)?);
    if low > high {
        return Err(format!("LOW {low} is above HIGH {high}"));
    }
    let lines = names::find(names, net)?;
    let [line] = lines[..] else {
        return Err(format!("{net}: a price has one net, and this means {}", lines.len()));
    };
    match names.iter().find(|name| name.line == line) {
        Some(name) if name.kind == LineKind::Input => Ok((line, low, high)),
        _ => Err(format!("{net} is no input and no output of a box: what drives it says what it costs")),
    }
}
