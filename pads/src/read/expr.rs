//! Functions as Liberty writes them: `!` and `'`, then `^`, then `*`, `&` and two terms side by side, then `+` and `|`.

#[derive(Clone, Debug, PartialEq, Eq)]
pub enum Expr {
    Constant(bool),
    Name(String),
    Not(Box<Expr>),
    Xor(Box<Expr>, Box<Expr>),
    And(Box<Expr>, Box<Expr>),
    Or(Box<Expr>, Box<Expr>),
}

const MOST_DEPTH: usize = 100;
const MOST_BYTES: usize = 4_000;

impl Expr {
    pub fn parse(text: &str) -> Result<Expr, String> {
        if text.len() > MOST_BYTES {
            return Err("the function is too long".to_string());
        }
        let mut reader = Reader { rest: text, depth: 0 };
        let expr = reader.or()?;
        match reader.peek() {
            None => Ok(expr),
            Some(c) => Err(format!("'{c}' is out of place in the function {text}")),
        }
    }

    /// The names in it, each once, in order.
    pub fn names(&self) -> Vec<String> {
        let mut names = Vec::new();
        self.collect(&mut names);
        names
    }

    fn collect(&self, names: &mut Vec<String>) {
        match self {
            Expr::Constant(_) => {}
            Expr::Name(name) => {
                if !names.contains(name) {
                    names.push(name.clone());
                }
            }
            Expr::Not(inner) => inner.collect(names),
            Expr::Xor(a, b) | Expr::And(a, b) | Expr::Or(a, b) => {
                a.collect(names);
                b.collect(names);
            }
        }
    }

    pub fn value(&self, of: &impl Fn(&str) -> bool) -> bool {
        match self {
            Expr::Constant(value) => *value,
            Expr::Name(name) => of(name),
            Expr::Not(inner) => !inner.value(of),
            Expr::Xor(a, b) => a.value(of) != b.value(of),
            Expr::And(a, b) => a.value(of) && b.value(of),
            Expr::Or(a, b) => a.value(of) || b.value(of),
        }
    }
}

struct Reader<'a> {
    rest: &'a str,
    depth: usize,
}

fn is_name(c: char) -> bool {
    c.is_alphanumeric() || "_[]$.:/".contains(c)
}

impl Reader<'_> {
    fn peek(&mut self) -> Option<char> {
        self.rest = self.rest.trim_start();
        self.rest.chars().next()
    }

    fn skip(&mut self, c: char) {
        self.rest = &self.rest[c.len_utf8()..];
    }

    fn takes(&mut self, any: &str) -> bool {
        match self.peek() {
            Some(c) if any.contains(c) => {
                self.skip(c);
                true
            }
            _ => false,
        }
    }

    fn or(&mut self) -> Result<Expr, String> {
        let mut left = self.and()?;
        while self.takes("+|") {
            left = Expr::Or(Box::new(left), Box::new(self.and()?));
        }
        Ok(left)
    }

    fn and(&mut self) -> Result<Expr, String> {
        let mut left = self.xor()?;
        loop {
            let joined = self.takes("*&") || self.peek().is_some_and(|c| is_name(c) || "(!\"".contains(c));
            if !joined {
                return Ok(left);
            }
            left = Expr::And(Box::new(left), Box::new(self.xor()?));
        }
    }

    fn xor(&mut self) -> Result<Expr, String> {
        let mut left = self.not()?;
        while self.takes("^") {
            left = Expr::Xor(Box::new(left), Box::new(self.not()?));
        }
        Ok(left)
    }

    fn not(&mut self) -> Result<Expr, String> {
        self.depth += 1;
        if self.depth > MOST_DEPTH {
            return Err("more than 100 brackets or inversions within each other".to_string());
        }
        let mut expr = if self.takes("!~") { Expr::Not(Box::new(self.not()?)) } else { self.atom()? };
        self.depth -= 1;
        while self.takes("'") {
            expr = Expr::Not(Box::new(expr));
        }
        Ok(expr)
    }

    fn atom(&mut self) -> Result<Expr, String> {
        if self.takes("(") {
            let inner = self.or()?;
            return if self.takes(")") { Ok(inner) } else { Err("a ')' is missing in a function".to_string()) };
        }
        if self.takes("\"") {
            // A name in quotes of its own.
            let end = self.rest.find('"').ok_or("a quote without its end in a function")?;
            let name = self.rest[..end].to_string();
            self.rest = &self.rest[end + 1..];
            return Ok(Expr::Name(name));
        }
        let end = {
            self.peek();
            self.rest.find(|c: char| !is_name(c)).unwrap_or(self.rest.len())
        };
        let name = self.rest[..end].to_string();
        self.rest = &self.rest[end..];
        match name.as_str() {
            "" => Err(match self.peek() {
                Some(c) => format!("'{c}' is out of place in a function"),
                None => "a function ends too early".to_string(),
            }),
            "0" => Ok(Expr::Constant(false)),
            "1" => Ok(Expr::Constant(true)),
            _ => Ok(Expr::Name(name)),
        }
    }
}

#[cfg(test)]
mod tests {
    use super::*;

    fn value(text: &str, ones: &str) -> bool {
        Expr::parse(text).unwrap().value(&|name| ones.contains(name))
    }

    #[test]
    fn precedence() {
        // XOR binds tighter than AND, other than in C.
        assert!(!value("A ^ B C", "A"));
        assert!(value("A ^ B C", "AC"));
        assert!(value("A + B * C", "A"));
        assert!(value("!A B", "B"));
        assert!(!value("A'", "A"));
        assert!(value("(A B)'", "A"));
        assert!(value("!(A&B)|C", "ABC"));
        assert!(!value("!!A''", ""));
        assert!(value("1", "") && !value("0", ""));
        assert_eq!(Expr::parse("B A+B").unwrap().names(), ["B", "A"]);
    }

    #[test]
    fn bad_functions() {
        for text in ["", "A +", "(A", "A)", "A ++ B", "?", "!", "\"A"] {
            assert!(Expr::parse(text).is_err(), "{text}");
        }
        assert!(Expr::parse(&"(".repeat(3_000)).is_err());
        assert!(Expr::parse(&"!".repeat(3_000)).is_err());
        assert!(Expr::parse(&"A'".repeat(3_000)).is_err());
    }
}
