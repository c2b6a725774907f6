//! Structural Verilog: its tokens, and modules of nets, gates and instances. Behaviour is left to Yosys, but for plain
//! registers as ABC writes them.

use crate::read::blocks::Block;
use crate::read::hub::MOST_NETS;
use crate::show::cost::grouped;
use std::collections::HashMap;

/// Why a text is not read, and whether Yosys may.
#[derive(Clone, Debug)]
pub struct Fault {
    pub line: usize,
    pub words: String,
    pub beyond: bool,
}

type Read<T> = Result<T, Fault>;

#[derive(Clone, Copy, Debug, PartialEq)]
enum Token<'a> {
    /// A name, and whether it is escaped, so that it is no keyword.
    Name(&'a str, bool),
    Number(&'a str),
    Sign(&'a str),
    Text,
    End,
}

#[derive(Clone, Copy)]
struct Tokens<'a> {
    text: &'a str,
    at: usize,
    line: usize,
}

/// Directives that say nothing of the netlist.
const PASSED: [&str; 10] = [
    "timescale",
    "default_nettype",
    "celldefine",
    "endcelldefine",
    "resetall",
    "line",
    "begin_keywords",
    "end_keywords",
    "pragma",
    "nounconnected_drive",
];
/// The longest first.
const SIGNS: [&str; 24] = [
    "<<<", ">>>", "===", "!==", "<<", ">>", "<=", ">=", "==", "!=", "&&", "||", "~&", "~|", "~^", "^~", "**", "->",
    "+:", "-:", "::", ".*", "+=", "-=",
];

impl<'a> Tokens<'a> {
    fn wrong<T>(&self, words: impl Into<String>) -> Read<T> {
        Err(Fault { line: self.line, words: words.into(), beyond: false })
    }

    fn bytes(&self) -> &'a [u8] {
        &self.text.as_bytes()[self.at..]
    }

    /// Goes on to the next byte that is one of these; false at the end.
    fn pass_to(&mut self, found: impl Fn(&[u8]) -> bool) -> bool {
        while self.at < self.text.len() {
            if found(self.bytes()) {
                return true;
            }
            self.line += usize::from(self.bytes()[0] == b'\n');
            self.at += 1;
        }
        false
    }

    fn next(&mut self) -> Read<Token<'a>> {
        loop {
            self.pass_to(|bytes| !bytes[0].is_ascii_whitespace());
            let bytes = self.bytes();
            match bytes {
                [] => return Ok(Token::End),
                [b'/', b'/', ..] => {
                    self.pass_to(|bytes| bytes[0] == b'\n');
                }
                [b'/', b'*', ..] => {
                    let begun = *self;
                    self.at += 2;
                    if !self.pass_to(|bytes| bytes.starts_with(b"*/")) {
                        return begun.wrong("a comment without its end");
                    }
                    self.at += 2;
                }
                [b'(', b'*', third, ..] if *third != b')' => {
                    let begun = *self;
                    self.at += 2;
                    if !self.pass_to(|bytes| bytes.starts_with(b"*)")) {
                        return begun.wrong("an attribute without its end");
                    }
                    self.at += 2;
                }
                [b'`', ..] => {
                    let word = self.word(1);
                    if !PASSED.contains(&word) {
                        let words = format!("`{word} is not worked out here: run the preprocessor before");
                        return Err(Fault { line: self.line, words, beyond: true });
                    }
                    self.pass_to(|bytes| bytes[0] == b'\n');
                }
                _ => return self.token(),
            }
        }
    }

    /// The letters, digits, `_` and `$` that stand here, behind so many bytes; they are passed.
    fn word(&mut self, skip: usize) -> &'a str {
        let from = self.at + skip;
        let rest = &self.text.as_bytes()[from..];
        let length = rest.iter().position(|b| !(b.is_ascii_alphanumeric() || b"_$".contains(b) || *b >= 128));
        self.at = from + length.unwrap_or(rest.len());
        &self.text[from..self.at]
    }

    fn token(&mut self) -> Read<Token<'a>> {
        let begun = *self;
        let first = self.bytes()[0];
        match first {
            b'a'..=b'z' | b'A'..=b'Z' | b'_' | b'$' | 128.. => Ok(Token::Name(self.word(0), false)),
            b'\\' => {
                let from = self.at + 1;
                self.pass_to(|bytes| bytes[0].is_ascii_whitespace());
                match &self.text[from..self.at] {
                    "" => begun.wrong("a '\\' without a name"),
                    name => Ok(Token::Name(name, true)),
                }
            }
            b'0'..=b'9' | b'\'' => {
                let from = self.at;
                self.word(0);
                if let [b'.', b'0'..=b'9', ..] = self.bytes() {
                    self.word(1);
                }
                if let [b'\'', ..] = self.bytes() {
                    self.at += 1;
                    if let [b'?', ..] = self.bytes() {
                        return begun.wrong("a constant that is none");
                    }
                    while let [b'a'..=b'z' | b'A'..=b'Z' | b'0'..=b'9' | b'_' | b'?', ..] = self.bytes() {
                        self.at += 1;
                    }
                }
                Ok(Token::Number(&self.text[from..self.at]))
            }
            b'"' => {
                self.at += 1;
                if !self.pass_to(|bytes| b"\"\n".contains(&bytes[0])) || self.bytes()[0] == b'\n' {
                    return begun.wrong("a text without its end");
                }
                self.at += 1;
                Ok(Token::Text)
            }
            _ => {
                let rest = &self.text[self.at..];
                let length = SIGNS.iter().find(|sign| rest.starts_with(**sign)).map_or(1, |sign| sign.len());
                self.at += length;
                Ok(Token::Sign(&rest[..length]))
            }
        }
    }
}

#[derive(Clone, Copy, Debug, PartialEq, Eq)]
pub enum Way {
    Input,
    Output,
    Inout,
}

/// What a net is where several drive it, or none.
#[derive(Clone, Copy, Debug, PartialEq, Eq)]
pub enum Net {
    Wire,
    And,
    Or,
    Constant(bool),
}

#[derive(Clone, Debug)]
pub struct Declared<'a> {
    pub name: &'a str,
    /// The bit that is heaviest, and the one that is lightest.
    pub range: Option<(i64, i64)>,
    pub way: Option<Way>,
    pub net: Net,
}

impl Declared<'_> {
    pub fn width(&self) -> usize {
        self.range.map_or(1, |(left, right)| (left.abs_diff(right) as usize).saturating_add(1))
    }

    /// The place of a bit, the lightest 0.
    pub fn place(&self, index: i64) -> Option<usize> {
        let (left, right) = self.range.unwrap_or((0, 0));
        let inside = (left.min(right)..=left.max(right)).contains(&index);
        inside.then(|| index.abs_diff(right) as usize)
    }

    /// As JSON of Yosys has it: a bit of one that is no bus has no index.
    pub fn bit_name(&self, place: usize) -> String {
        match self.range {
            None | Some((0, 0)) => self.name.to_string(),
            Some((left, right)) if left >= right => format!("{}[{}]", self.name, right + place as i64),
            Some((_, right)) => format!("{}[{}]", self.name, right - place as i64),
        }
    }
}

#[derive(Clone, Copy, Debug, PartialEq, Eq)]
pub enum Op {
    And,
    Or,
    Xor,
}

#[derive(Clone, Debug)]
pub enum Expr<'a> {
    Name(&'a str),
    /// Bits from the left one to the right one.
    Part(&'a str, i64, i64),
    /// The lightest first, None for x and z; and whether the text says how many there are.
    Constant(Vec<Option<bool>>, bool),
    /// The heaviest first.
    Join(Vec<Expr<'a>>),
    Repeat(usize, Box<Expr<'a>>),
    Not(Box<Expr<'a>>),
    Many(Op, bool, Vec<Expr<'a>>),
    Choose(Box<[Expr<'a>; 3]>),
}

#[derive(Debug)]
pub enum Item<'a> {
    Assign { to: Expr<'a>, from: Expr<'a> },
    Gate { word: &'a str, name: &'a str, pins: Vec<Expr<'a>> },
    Instance { title: &'a str, name: &'a str, pins: Vec<(Option<&'a str>, Option<Expr<'a>>)> },
    Register { to: Expr<'a>, from: Expr<'a>, clock: Expr<'a>, rising: bool },
}

#[derive(Debug, Default)]
pub struct Module<'a> {
    pub name: &'a str,
    pub line: usize,
    /// In their order.
    pub ports: Vec<&'a str>,
    pub nets: Vec<Declared<'a>>,
    pub places: HashMap<&'a str, usize>,
    pub items: Vec<(usize, Item<'a>)>,
    pub initial_values: usize,
    /// In place of items, where they are only counted.
    pub count: Block,
}

const PRIMITIVES: [&str; 12] =
    ["and", "nand", "or", "nor", "xor", "xnor", "not", "buf", "bufif0", "bufif1", "notif0", "notif1"];
/// What only a transistor level has.
const SWITCHES: [&str; 15] = [
    "nmos", "pmos", "cmos", "rnmos", "rpmos", "rcmos", "tran", "rtran", "tranif0", "tranif1", "rtranif0", "rtranif1",
    "pullup", "pulldown", "trireg",
];
const BEHAVIOUR: [&str; 30] = [
    "always_ff",
    "always_comb",
    "always_latch",
    "function",
    "task",
    "generate",
    "parameter",
    "localparam",
    "defparam",
    "genvar",
    "integer",
    "real",
    "realtime",
    "time",
    "event",
    "if",
    "for",
    "case",
    "casez",
    "casex",
    "primitive",
    "interface",
    "package",
    "import",
    "typedef",
    "assert",
    "struct",
    "enum",
    "final",
    "bit",
];
const MOST_DEPTH: usize = 100;

struct Parser<'a> {
    tokens: Tokens<'a>,
    token: Token<'a>,
    /// The line of the token, and where it ends.
    line: usize,
    at: usize,
    counting: bool,
    module: Module<'a>,
    /// Parts of the statement that are kept.
    parts: usize,
}

/// A module that was read, with where it stands; or why it was not.
pub struct Found<'a> {
    pub module: Module<'a>,
    pub faults: Vec<Fault>,
}

/// Goes over all modules of a text, which begins at this line. Where they are only counted their items are not kept. The
/// answer of `take` says whether to go on. A fault outside a module ends it.
pub fn each<'a>(
    text: &'a str,
    line: usize,
    counting: bool,
    take: &mut dyn FnMut(Found<'a>) -> bool,
) -> Result<(), Fault> {
    let tokens = Tokens { text, at: 0, line };
    let mut parser = Parser { tokens, token: Token::End, line, at: 0, counting, module: Module::default(), parts: 0 };
    parser.step()?;
    loop {
        match parser.token {
            Token::End => return Ok(()),
            Token::Name("module" | "macromodule", false) => {
                let found = parser.module()?;
                if !take(found) {
                    return Ok(());
                }
            }
            Token::Sign(";") => parser.step()?,
            Token::Name(word, false) if BEHAVIOUR.contains(&word) => {
                return parser.beyond(format!("{word} is no netlist"))
            }
            _ => return parser.wrong("a 'module' is missing here: is it Verilog?"),
        }
    }
}

impl<'a> Parser<'a> {
    fn wrong<T>(&self, words: impl Into<String>) -> Read<T> {
        Err(Fault { line: self.line, words: words.into(), beyond: false })
    }

    fn beyond<T>(&self, words: impl Into<String>) -> Read<T> {
        Err(Fault { line: self.line, words: words.into(), beyond: true })
    }

    fn step(&mut self) -> Read<()> {
        self.token = self.tokens.next()?;
        self.line = self.tokens.line;
        self.at = self.tokens.at;
        Ok(())
    }

    fn is(&self, sign: &str) -> bool {
        self.token == Token::Sign(sign)
    }

    fn is_word(&self, word: &str) -> bool {
        self.token == Token::Name(word, false)
    }

    /// Passes over the sign, if it stands here.
    fn takes(&mut self, sign: &str) -> Read<bool> {
        let here = self.is(sign);
        if here {
            self.step()?;
        }
        Ok(here)
    }

    fn wants(&mut self, sign: &str) -> Read<()> {
        if self.takes(sign)? {
            return Ok(());
        }
        self.wrong(format!("a '{sign}' is missing before {}", self.told()))
    }

    fn told(&self) -> String {
        match self.token {
            Token::Name(name, _) | Token::Number(name) | Token::Sign(name) => {
                format!("'{}'", name.chars().take(40).collect::<String>())
            }
            Token::Text => "a text".to_string(),
            Token::End => "the end".to_string(),
        }
    }

    fn name(&mut self) -> Read<&'a str> {
        match self.token {
            Token::Name(name, escaped) if escaped || !name.starts_with('$') => {
                self.step()?;
                Ok(name)
            }
            _ => self.wrong(format!("a name is missing before {}", self.told())),
        }
    }

    /// Bounds what a statement keeps.
    fn part(&mut self) -> Read<()> {
        self.parts += 1;
        if self.parts > MOST_NETS {
            return self.wrong(format!("a statement of more than {} parts", grouped(MOST_NETS as u64)));
        }
        Ok(())
    }

    fn module(&mut self) -> Read<Found<'a>> {
        let Token::Name(word, _) = self.token else { return self.wrong("a module is missing") };
        let (line, from) = (self.line, self.at - word.len());
        self.step()?;
        self.module = Module { name: self.name()?, line, ..Module::default() };
        let mut faults = Vec::new();
        if let Err(fault) = self.header() {
            self.recover(fault, &mut faults)?;
        }
        while !self.is_word("endmodule") {
            match self.token {
                Token::End => {
                    let none = self.wrong(format!("the module {} has no endmodule", self.module.name));
                    // What went wrong before is the reason.
                    return faults.into_iter().next().map_or(none, Err);
                }
                Token::Name("module", false) => return self.wrong("a module inside a module: an endmodule is missing"),
                _ => {}
            }
            self.parts = 0;
            if let Err(fault) = self.item() {
                self.recover(fault, &mut faults)?;
            }
        }
        let mut module = std::mem::take(&mut self.module);
        module.count.name = module.name.to_string();
        module.count.line = line;
        module.count.bytes = from..self.at;
        for net in &module.nets {
            if net.way == Some(Way::Input) {
                module.count.inputs += net.width() as u64;
            }
        }
        self.step()?;
        Ok(Found { module, faults })
    }

    /// Goes on behind the statement; behaviour is told once, and the rest of the module passed over.
    fn recover(&mut self, fault: Fault, faults: &mut Vec<Fault>) -> Read<()> {
        let beyond = fault.beyond;
        if faults.len() < 100 {
            faults.push(fault);
        }
        loop {
            match self.token {
                Token::End | Token::Name("endmodule", false) => return Ok(()),
                Token::Sign(";") if !beyond => return self.step(),
                _ => {}
            }
            // Every step passes some bytes, told or not.
            if let Err(fault) = self.step() {
                if faults.len() < 100 {
                    faults.push(fault);
                }
            }
        }
    }

    fn header(&mut self) -> Read<()> {
        if self.is("#") {
            return self.beyond("a module with parameters");
        }
        if self.takes("(")? && !self.takes(")")? {
            let mut way: Option<(Way, Option<(i64, i64)>)> = None;
            loop {
                self.parts = 0;
                if let Some(new) = self.way() {
                    self.step()?;
                    way = Some((new, self.kind()?.1));
                } else if self.is(".") {
                    return self.beyond("a port with an expression");
                } else if way.is_some() && self.is("[") {
                    let range = self.range()?;
                    way = way.map(|(way, _)| (way, range));
                }
                let name = self.name()?;
                if self.is("[") || self.is("=") {
                    return self.beyond("a port of several words, or with a value");
                }
                if self.module.ports.len() < MOST_NETS {
                    self.module.ports.push(name);
                } else if !self.counting {
                    return self.wrong(format!("more than {} ports", grouped(MOST_NETS as u64)));
                }
                if let Some((way, range)) = way {
                    self.declare(name, range, Some(way), None)?;
                }
                if !self.takes(",")? {
                    break;
                }
            }
            self.wants(")")?;
        }
        self.wants(";")
    }

    fn way(&self) -> Option<Way> {
        match self.token {
            Token::Name("input", false) => Some(Way::Input),
            Token::Name("output", false) => Some(Way::Output),
            Token::Name("inout", false) => Some(Way::Inout),
            _ => None,
        }
    }

    /// `wire`, `signed` and the like, and a range.
    fn kind(&mut self) -> Read<(Option<Net>, Option<(i64, i64)>)> {
        let mut net = None;
        while let Token::Name(word, false) = self.token {
            net = Some(match word {
                "wire" | "tri" | "uwire" | "reg" | "logic" | "var" => Net::Wire,
                "wand" | "triand" => Net::And,
                "wor" | "trior" => Net::Or,
                "supply0" => Net::Constant(false),
                "supply1" => Net::Constant(true),
                "signed" | "unsigned" | "scalared" | "vectored" => net.unwrap_or(Net::Wire),
                "tri0" | "tri1" => return self.wrong(format!("{word} is a pull, which has no rows here: use a wire")),
                _ => break,
            });
            self.step()?;
        }
        self.strength()?;
        let range = self.range()?;
        self.delay()?;
        Ok((net, range))
    }

    fn range(&mut self) -> Read<Option<(i64, i64)>> {
        if !self.takes("[")? {
            return Ok(None);
        }
        let left = self.index()?;
        self.wants(":")?;
        let right = self.index()?;
        self.wants("]")?;
        if self.is("[") {
            return self.beyond("a net of several words");
        }
        Ok(Some((left, right)))
    }

    /// A number as an index.
    fn index(&mut self) -> Read<i64> {
        let minus = self.takes("-")?;
        let Token::Number(digits) = self.token else {
            return self.beyond(format!("an index that is no number: {}", self.told()));
        };
        let whole = match constant(digits) {
            Some((bits, _)) if bits.len() <= 32 || bits[32..].iter().all(|&bit| bit == Some(false)) => {
                bits.iter().take(32).rev().try_fold(0i64, |sum, bit| bit.map(|bit| 2 * sum + i64::from(bit)))
            }
            _ => None,
        };
        let Some(whole) = whole.filter(|&whole| whole <= i64::from(i32::MAX)) else {
            return self.wrong(format!("{digits} is no index"));
        };
        self.step()?;
        Ok(if minus { -whole } else { whole })
    }

    fn declare(&mut self, name: &'a str, range: Option<(i64, i64)>, way: Option<Way>, net: Option<Net>) -> Read<()> {
        if let Some(&place) = self.module.places.get(name) {
            let known = &mut self.module.nets[place];
            if way.is_some() && known.way.is_some() {
                return self.wrong(format!("{name} is a port already"));
            }
            known.range = known.range.or(range);
            known.way = known.way.or(way);
            if let Some(net) = net {
                known.net = net;
            }
            return Ok(());
        }
        if self.module.nets.len() >= MOST_NETS {
            if self.counting {
                self.module.count.others += 1;
                return Ok(());
            }
            return self.wrong(format!("more than {} nets in a module", grouped(MOST_NETS as u64)));
        }
        self.module.places.insert(name, self.module.nets.len());
        self.module.nets.push(Declared { name, range, way, net: net.unwrap_or(Net::Wire) });
        Ok(())
    }

    /// `#5`, `#(1:2:3, 4)`: passed over.
    fn delay(&mut self) -> Read<()> {
        if !self.takes("#")? {
            return Ok(());
        }
        if !self.takes("(")? {
            return self.step();
        }
        let mut open = 1;
        while open > 0 {
            match self.token {
                Token::Sign("(") => open += 1,
                Token::Sign(")") => open -= 1,
                Token::End => return self.wrong("a delay without its end"),
                _ => {}
            }
            self.step()?;
        }
        Ok(())
    }

    /// `(strong0, pull1)`: passed over, since no net has two drivers; but for those that drive one value alone.
    fn strength(&mut self) -> Read<()> {
        if !self.is("(") {
            return Ok(());
        }
        let (mut ahead, mut words) = (self.tokens, 0);
        loop {
            match ahead.next()? {
                Token::Name("highz0" | "highz1", false) => {
                    return self.wrong("a gate that drives one value alone has no rows here: use bufif0 or bufif1");
                }
                Token::Name(word, false) => {
                    let strength = word.strip_suffix(['0', '1']).unwrap_or("");
                    if !["supply", "strong", "pull", "weak"].contains(&strength) {
                        return Ok(());
                    }
                    words += 1;
                }
                Token::Sign(",") if words == 1 => {}
                Token::Sign(")") if words > 0 => break,
                _ => return Ok(()),
            }
        }
        self.tokens = ahead;
        self.step()
    }

    fn item(&mut self) -> Read<()> {
        let line = self.line;
        let Token::Name(word, escaped) = self.token else {
            if self.takes(";")? {
                return Ok(());
            }
            return self.wrong(format!("no statement begins with {}", self.told()));
        };
        if escaped {
            return self.instances(line);
        }
        match word {
            "input" | "output" | "inout" => {
                let way = self.way();
                self.step()?;
                self.nets(way)
            }
            "wire" | "tri" | "uwire" | "reg" | "logic" | "wand" | "wor" | "triand" | "trior" | "supply0"
            | "supply1" | "tri0" | "tri1" => self.nets(None),
            "assign" => {
                self.step()?;
                self.strength()?;
                self.delay()?;
                loop {
                    self.assign(line)?;
                    if !self.takes(",")? {
                        return self.wants(";");
                    }
                }
            }
            "always" => self.always(line),
            "initial" => self.initial(),
            "specify" => {
                while !self.is_word("endspecify") {
                    if self.token == Token::End || self.is_word("endmodule") {
                        return self.wrong("a specify without its end");
                    }
                    self.step()?;
                }
                self.step()
            }
            _ if PRIMITIVES.contains(&word) => self.gates(line, word),
            _ if SWITCHES.contains(&word) => self.wrong(format!(
                "{word} is a part of transistors, which has no rows here: name the cell by -l FILE.lib"
            )),
            _ if BEHAVIOUR.contains(&word) || word.starts_with('$') => {
                self.beyond(format!("{word} is behaviour, no netlist"))
            }
            _ => self.instances(line),
        }
    }

    fn nets(&mut self, way: Option<Way>) -> Read<()> {
        let (net, range) = self.kind()?;
        loop {
            let line = self.line;
            let name = self.name()?;
            if self.is("[") {
                return self.beyond(format!("{name} has several words"));
            }
            self.declare(name, range, way, net)?;
            if self.takes("=")? {
                let from = self.expression(0)?;
                self.put(line, Item::Assign { to: Expr::Name(name), from });
            }
            if !self.takes(",")? {
                return self.wants(";");
            }
            self.parts = 0;
        }
    }

    fn assign(&mut self, line: usize) -> Read<()> {
        let to = self.primary(0)?;
        self.wants("=")?;
        let from = self.expression(0)?;
        self.put(line, Item::Assign { to, from });
        Ok(())
    }

    /// A plain register: `always @(posedge c) q <= d;`.
    fn always(&mut self, line: usize) -> Read<()> {
        const PLAIN: &str = "an always that is no plain register is behaviour";
        self.step()?;
        if !self.takes("@")? || !self.takes("(")? {
            return self.beyond(PLAIN);
        }
        let rising = match self.token {
            Token::Name("posedge", false) => true,
            Token::Name("negedge", false) => false,
            _ => return self.beyond(PLAIN),
        };
        self.step()?;
        let clock = self.primary(0)?;
        if !self.takes(")")? {
            return self.beyond(PLAIN);
        }
        let many = self.is_word("begin");
        if many {
            self.step()?;
            if self.takes(":")? {
                self.name()?;
            }
        }
        while !(many && self.is_word("end")) {
            let here = self.line;
            if matches!(self.token, Token::Name("if" | "case" | "for" | "begin", false)) || self.token == Token::End {
                return Err(Fault { line: here, words: PLAIN.to_string(), beyond: true });
            }
            let to = self.primary(0)?;
            if !self.takes("<=")? && !self.takes("=")? {
                return self.beyond(PLAIN);
            }
            self.delay()?;
            let from = self.expression(0)?;
            self.wants(";")?;
            self.put(here.max(line), Item::Register { to, from, clock: clock.clone(), rising });
            self.parts = 0;
            if !many {
                return Ok(());
            }
        }
        self.step()
    }

    /// Values at the start are counted and not used.
    fn initial(&mut self) -> Read<()> {
        self.step()?;
        let many = self.is_word("begin");
        if many {
            self.step()?;
        }
        while !(many && self.is_word("end")) {
            if matches!(self.token, Token::Name("if" | "case" | "for" | "begin", false)) || self.token == Token::End {
                return self.beyond("an initial that is no plain value is behaviour");
            }
            self.primary(0)?;
            if !self.takes("<=")? && !self.takes("=")? {
                return self.beyond("an initial that is no plain value is behaviour");
            }
            self.expression(0)?;
            self.wants(";")?;
            self.module.initial_values += 1;
            self.parts = 0;
            if !many {
                return Ok(());
            }
        }
        self.step()
    }

    fn gates(&mut self, line: usize, word: &'a str) -> Read<()> {
        self.step()?;
        self.strength()?;
        self.delay()?;
        loop {
            let mut name = "";
            if !self.is("(") {
                name = self.name()?;
            }
            if self.is("[") {
                return self.beyond("several gates by one name");
            }
            self.wants("(")?;
            let mut pins = Vec::new();
            loop {
                if self.is(".") {
                    return self.wrong(format!("the pins of {word} have no names: first the output"));
                }
                pins.push(self.expression(0)?);
                if !self.takes(",")? {
                    break;
                }
            }
            self.wants(")")?;
            self.put(line, Item::Gate { word, name, pins });
            if !self.takes(",")? {
                return self.wants(";");
            }
            self.parts = 0;
        }
    }

    fn instances(&mut self, line: usize) -> Read<()> {
        let Token::Name(title, _) = self.token else { return self.wrong("a type is missing") };
        self.step()?;
        if self.is("#") {
            return self.beyond(format!("{title} with parameters"));
        }
        loop {
            let mut name = "";
            if !self.is("(") {
                name = self.name()?;
            }
            if self.is("[") {
                return self.beyond("several instances by one name");
            }
            self.wants("(")?;
            let mut pins = Vec::new();
            loop {
                self.part()?;
                if self.is(")") && pins.is_empty() {
                    break;
                }
                if self.is(".*") {
                    return self.beyond("pins that are connected by .*");
                }
                if self.takes(".")? {
                    let pin = self.name()?;
                    let mut given = Some(Expr::Name(pin));
                    if self.takes("(")? {
                        given = if self.is(")") { None } else { Some(self.expression(0)?) };
                        self.wants(")")?;
                    }
                    pins.push((Some(pin), given));
                } else if self.is(",") || self.is(")") {
                    pins.push((None, None));
                } else {
                    pins.push((None, Some(self.expression(0)?)));
                }
                if !self.takes(",")? {
                    break;
                }
            }
            self.wants(")")?;
            self.put(line, Item::Instance { title, name, pins });
            if !self.takes(",")? {
                return self.wants(";");
            }
            self.parts = 0;
        }
    }

    /// Keeps an item, or counts it.
    fn put(&mut self, line: usize, item: Item<'a>) {
        if !self.counting {
            self.module.items.push((line, item));
            return;
        }
        let width = |of: &Expr| match of {
            Expr::Name(name) => {
                let place = self.module.places.get(name);
                place.map_or(1, |&place| self.module.nets[place].width() as u64)
            }
            Expr::Part(_, left, right) => left.abs_diff(*right).saturating_add(1),
            _ => 1,
        };
        match item {
            Item::Assign { to, from: Expr::Not(_) | Expr::Many(..) | Expr::Choose(_) } => {
                let width = width(&to);
                self.module.count.gates = self.module.count.gates.saturating_add(width);
            }
            Item::Assign { .. } => self.module.count.others += 1,
            Item::Register { to, .. } => {
                let width = width(&to);
                self.module.count.gates = self.module.count.gates.saturating_add(width);
            }
            Item::Gate { word: "buf" | "not", pins, .. } => self.module.count.gates += pins.len().max(2) as u64 - 1,
            Item::Gate { .. } => self.module.count.gates += 1,
            Item::Instance { title, .. } => self.module.count.add(title, 1),
        }
    }

    /// By the order of operators: `?:` last, then `|`, `^`, `&`.
    fn expression(&mut self, depth: usize) -> Read<Expr<'a>> {
        let first = self.operands(0, depth)?;
        if let Token::Sign(sign) = self.token {
            if !["?", ",", ")", ";", "}", ":", "]"].contains(&sign) {
                return self.beyond(format!("'{sign}' is an operator that is no gate"));
            }
        }
        if !self.takes("?")? {
            return Ok(first);
        }
        let one = self.expression(deeper(self, depth)?)?;
        self.wants(":")?;
        let other = self.expression(deeper(self, depth)?)?;
        Ok(Expr::Choose(Box::new([first, one, other])))
    }

    fn operands(&mut self, level: usize, depth: usize) -> Read<Expr<'a>> {
        const LEVELS: [(Op, &[&str]); 3] = [(Op::Or, &["|"]), (Op::Xor, &["^", "~^", "^~"]), (Op::And, &["&"])];
        let Some((op, signs)) = LEVELS.get(level) else { return self.unary(depth) };
        let mut all = vec![self.operands(level + 1, depth)?];
        let mut inverted = false;
        while let Some(sign) = signs.iter().find(|sign| self.is(sign)) {
            inverted ^= sign.len() == 2;
            self.step()?;
            all.push(self.operands(level + 1, depth)?);
        }
        Ok(if all.len() == 1 { all.remove(0) } else { Expr::Many(*op, inverted, all) })
    }

    fn unary(&mut self, depth: usize) -> Read<Expr<'a>> {
        let mut inverted = false;
        while self.takes("~")? {
            inverted ^= true;
        }
        if let Token::Sign(sign @ ("&" | "|" | "^" | "~&" | "~|" | "~^" | "^~" | "!" | "+" | "-")) = self.token {
            return self.beyond(format!("'{sign}' before a net is an operator that is no gate"));
        }
        let inner = if self.takes("(")? {
            let inner = self.expression(deeper(self, depth)?)?;
            self.wants(")")?;
            inner
        } else {
            self.primary(depth)?
        };
        Ok(if inverted { Expr::Not(Box::new(inner)) } else { inner })
    }

    /// A net, a part of one, a constant, or several joined.
    fn primary(&mut self, depth: usize) -> Read<Expr<'a>> {
        self.part()?;
        match self.token {
            Token::Number(digits) => {
                let Some((bits, sized)) = constant(digits) else {
                    return self
                        .wrong(format!("{digits} is no constant of at most {} bits", grouped(MOST_NETS as u64)));
                };
                self.step()?;
                Ok(Expr::Constant(bits, sized))
            }
            Token::Name(word, false) if word.starts_with('$') => self.beyond(format!("{word} is behaviour")),
            Token::Name(..) => {
                let name = self.name()?;
                if self.is("(") {
                    return self.beyond(format!("{name} is called as a function"));
                }
                if !self.takes("[")? {
                    return Ok(Expr::Name(name));
                }
                let left = self.index()?;
                let right = if self.takes(":")? { self.index()? } else { left };
                if self.is("+:") || self.is("-:") {
                    return self.beyond("a part by its width");
                }
                self.wants("]")?;
                if self.is("[") || self.is(".") {
                    return self.beyond(format!("{name} has several words"));
                }
                Ok(Expr::Part(name, left, right))
            }
            Token::Sign("{") => {
                let depth = deeper(self, depth)?;
                self.step()?;
                if let Token::Number(_) = self.token {
                    let mut ahead = self.tokens;
                    if ahead.next()? == Token::Sign("{") {
                        let count = self.index()?;
                        self.step()?;
                        let inner = self.joined(depth)?;
                        self.wants("}")?;
                        return match usize::try_from(count).ok().filter(|&count| count <= MOST_NETS) {
                            Some(count) => Ok(Expr::Repeat(count, Box::new(inner))),
                            None => self.wrong(format!("{count} copies of a net")),
                        };
                    }
                }
                self.joined(depth)
            }
            _ => self.wrong(format!("a net or a constant is missing before {}", self.told())),
        }
    }

    fn joined(&mut self, depth: usize) -> Read<Expr<'a>> {
        let mut all = Vec::new();
        loop {
            all.push(self.expression(depth)?);
            if !self.takes(",")? {
                break;
            }
        }
        self.wants("}")?;
        Ok(Expr::Join(all))
    }
}

fn deeper(parser: &Parser, depth: usize) -> Read<usize> {
    if depth >= MOST_DEPTH {
        return parser.wrong("more than 100 brackets within each other");
    }
    Ok(depth + 1)
}

/// The bits of a constant, the lightest first, and whether it says how many there are.
fn constant(text: &str) -> Option<(Vec<Option<bool>>, bool)> {
    let clean = |text: &str| text.replace('_', "").to_ascii_lowercase();
    let Some((size, rest)) = text.split_once('\'') else {
        let whole: u64 = clean(text).parse().ok()?;
        return Some(((0..64).map(|at| Some(whole >> at & 1 == 1)).collect(), false));
    };
    let rest = clean(rest);
    let rest = rest.strip_prefix('s').unwrap_or(&rest);
    if size.is_empty() && ["0", "1", "x", "z"].contains(&rest) {
        let bit = rest.parse().ok().map(|bit: u8| bit == 1);
        return Some((vec![bit; 64], false));
    }
    let base = rest.chars().next()?;
    let digits = &rest[1..];
    let mut bits: Vec<Option<bool>> = Vec::new();
    if base == 'd' {
        let whole: u64 = digits.parse().ok()?;
        bits = (0..64).map(|at| Some(whole >> at & 1 == 1)).collect();
    } else {
        let each = match base {
            'b' => 1,
            'o' => 3,
            'h' => 4,
            _ => return None,
        };
        if digits.is_empty() || digits.len() > MOST_NETS {
            return None;
        }
        for digit in digits.chars().rev() {
            match digit {
                'x' | 'z' | '?' => bits.extend(vec![None; each]),
                _ => {
                    let value = digit.to_digit(1 << each)?;
                    bits.extend((0..each).map(|at| Some(value >> at & 1 == 1)));
                }
            }
        }
    }
    let sized = !size.is_empty();
    let size = if sized { clean(size).parse().ok()? } else { bits.len().max(32) };
    if size == 0 || size > MOST_NETS {
        return None;
    }
    // x and z fill up, other digits are filled by 0.
    let fill = if bits.last() == Some(&None) && base != 'd' { None } else { Some(false) };
    bits.resize(size, fill);
    Some((bits, sized))
}
