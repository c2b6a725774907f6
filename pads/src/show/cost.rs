//! Costs as the analyser reports them. What this program adds to them are sums for ranking, by the same rules.

use std::fmt;

/// Ordered as document 01 has it: figures, then over, then never.
#[derive(Clone, Copy, Debug, PartialEq, Eq, PartialOrd, Ord, Hash)]
pub enum Cost {
    Figure(u32),
    Over,
    Never,
}

const MOST: u64 = 999_999_999;
const OVER: u64 = 1_000_000_000;
const NEVER: u64 = 1_000_000_001;

impl Cost {
    /// A cost as the report writes it.
    pub fn read(text: &str) -> Option<Cost> {
        match text {
            "over" => Some(Cost::Over),
            "never" => Some(Cost::Never),
            _ => {
                let figure: u32 = text.parse().ok()?;
                (u64::from(figure) <= MOST).then_some(Cost::Figure(figure))
            }
        }
    }

    /// A cost as the archive's tables hold it: over and never are the two numbers above all figures.
    pub fn of_number(number: u32) -> Option<Cost> {
        match u64::from(number) {
            figure if figure <= MOST => Some(Cost::Figure(number)),
            OVER => Some(Cost::Over),
            NEVER => Some(Cost::Never),
            _ => None,
        }
    }

    /// Document 01's sum: never, then over, win; a sum above 999,999,999 is over.
    pub fn and(self, other: Cost) -> Cost {
        match (self, other) {
            (Cost::Never, _) | (_, Cost::Never) => Cost::Never,
            (Cost::Over, _) | (_, Cost::Over) => Cost::Over,
            (Cost::Figure(a), Cost::Figure(b)) => {
                let sum = u64::from(a) + u64::from(b);
                if sum > MOST {
                    Cost::Over
                } else {
                    Cost::Figure(sum as u32)
                }
            }
        }
    }

    pub fn figure(self) -> Option<u32> {
        match self {
            Cost::Figure(figure) => Some(figure),
            _ => None,
        }
    }

    /// As the report writes it, for CSV.
    pub fn plain(self) -> String {
        match self {
            Cost::Figure(figure) => figure.to_string(),
            Cost::Over => "over".to_string(),
            Cost::Never => "never".to_string(),
        }
    }
}

impl fmt::Display for Cost {
    fn fmt(&self, f: &mut fmt::Formatter) -> fmt::Result {
        match self {
            Cost::Figure(figure) => f.pad(&grouped(u64::from(*figure))),
            Cost::Over => f.pad("over"),
            Cost::Never => f.pad("never"),
        }
    }
}

/// 24178 as 24,178.
pub fn grouped(number: u64) -> String {
    let digits = number.to_string();
    let mut text = String::new();
    for (at, digit) in digits.chars().enumerate() {
        if at > 0 && (digits.len() - at) % 3 == 0 {
            text.push(',');
        }
        text.push(digit);
    }
    text
}

#[cfg(test)]
mod tests {
    use super::*;

    #[test]
    fn sums_are_capped() {
        let most = Cost::Figure(999_999_999);
        assert_eq!(most.and(Cost::Figure(0)), most);
        assert_eq!(most.and(Cost::Figure(1)), Cost::Over);
        assert_eq!(Cost::Over.and(Cost::Never), Cost::Never);
        assert_eq!(Cost::Figure(1).and(Cost::Over), Cost::Over);
        assert!(most < Cost::Over && Cost::Over < Cost::Never);
    }

    #[test]
    fn costs_are_read_and_written() {
        for text in ["0", "999999999", "over", "never"] {
            assert_eq!(Cost::read(text).unwrap().plain(), text);
        }
        assert_eq!(Cost::read("1000000000"), None);
        for (number, text) in [(0, "0"), (999_999_999, "999999999"), (1_000_000_000, "over"), (1_000_000_001, "never")]
        {
            assert_eq!(Cost::of_number(number).unwrap().plain(), text);
        }
        assert_eq!(Cost::of_number(1_000_000_002), None);
        assert_eq!(Cost::Figure(24_178).to_string(), "24,178");
        assert_eq!(format!("{:>6}|", Cost::Over), "  over|");
        assert_eq!(grouped(999), "999");
        assert_eq!(grouped(1_000_000), "1,000,000");
    }
}
