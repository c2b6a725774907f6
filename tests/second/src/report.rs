//! The report's bytes.

use crate::cost::{Cost, NEVER, OVER};
use crate::netlist::Netlist;
use crate::sweep::{Counts, Numbers};

/// What stands between the report at low prices and that at high ones.
pub const HIGH: &[u8] = b"high\n";

pub fn write(netlist: &Netlist, numbers: &Numbers, counts: &Counts) -> Vec<u8> {
    let mut report = b"line,cc0,cc1,sc0,sc1,co,so\n".to_vec();
    for (line, marks) in netlist.marks.iter().enumerate() {
        if !marks.mentioned {
            continue;
        }
        decimal(&mut report, line as u32);
        let [cc0, cc1] = numbers.cc[line];
        let [sc0, sc1] = numbers.sc[line];
        for number in [cc0, cc1, sc0, sc1, numbers.co[line], numbers.so[line]] {
            report.push(b',');
            cost(&mut report, number);
        }
        report.push(b'\n');
    }
    report.extend_from_slice(b"sweeps");
    for &count in counts {
        report.push(b',');
        decimal(&mut report, count);
    }
    report.push(b'\n');
    report
}

fn cost(report: &mut Vec<u8>, cost: Cost) {
    match cost {
        OVER => report.extend_from_slice(b"over"),
        NEVER => report.extend_from_slice(b"never"),
        _ => decimal(report, cost),
    }
}

fn decimal(report: &mut Vec<u8>, mut value: u32) {
    let mut digits = [0; 10];
    let mut first = digits.len();
    loop {
        first -= 1;
        digits[first] = b'0' + (value % 10) as u8;
        value /= 10;
        if value == 0 {
            break;
        }
    }
    report.extend_from_slice(&digits[first..]);
}
