//! Ranges: what is refused, and the two reports.

use super::netlist::net_refused;
use super::{report, ROOM};
use crate::between::{at_some_prices, between, parts};
use crate::generate::{add_ranges, pair};
use crate::library;
use crate::netlist::{self, Rules};
use crate::random::Random;
use crate::{analyse, report_into, Answer};

#[test]
fn ranges() {
    for line in [
        "range",
        "range,1",
        "range,1,2",
        "range,1,2,3,4",
        "range,1,2,",
        "range,,2,3",
        "range,1,02,3",
        "range,1,2,100000",
        "Range,1,2,3",
        "range,1,2,x",
        "range,1,-2,3",
    ] {
        net_refused(&format!("input,1\n{line}\n"), 10, 2);
    }
    net_refused("range,0,0,0\n", 11, 1);
    net_refused("input,1\nrange,1001,1,2\n", 11, 2);
    // Above its input, on a gate's line, on an open one, on one that nothing names.
    net_refused("range,1,1,2\ninput,1\n", 21, 1);
    net_refused("input,1\ngate,INV,2,1\nrange,2,1,2\n", 21, 3);
    net_refused("open,1\nrange,1,0,2\n", 21, 2);
    net_refused("output,1\nrange,1,2,1\n", 21, 2);
    net_refused("range,7,1,2\n", 21, 1);
    for bounds in [
        "0,1",
        "1,0",
        "0,0",
        "1000,1000",
        "1,1000",
        "99999,99999",
        "2,1",
        "999,998",
    ] {
        net_refused(&format!("input,1\nrange,1,{bounds}\n"), 22, 2);
    }
    net_refused("input,1\nrange,1,2,3\nrange,1,2,3\n", 22, 3);
    net_refused("input,1\nrange,1,2,3\nrange,1,3,2\n", 22, 3);
    // 20 comes after all lines.
    net_refused("input,1\noutput,2\nrange,1,1,1\n", 20, 0);
    net_refused("output,2\ninput,1\nrange,1,1,1000\n", 22, 3);
    // Both reports count for 17, and the same bounds print twice, too.
    let net = "input,1\nrange,1,1,1\n";
    let one = report("", "input,1\n");
    let both = format!("{one}high\n{one}");
    assert_eq!(report("", net), both);
    let mut buffer = vec![7; both.len()];
    assert_eq!(
        report_into(b"", net.as_bytes(), &mut buffer),
        both.len() as u64
    );
    assert_eq!(buffer, both.as_bytes());
    let mut buffer = vec![7; both.len() - 1];
    assert_eq!(report_into(b"", net.as_bytes(), &mut buffer), 17_000_000);
    assert!(buffer.iter().all(|&b| b == 0));
    // The copier's rules know no range.
    let library = library::read(b"").unwrap();
    let old = netlist::read(net.as_bytes(), &library, Rules::Old);
    assert_eq!(
        old.err().map(|refusal| (refusal.number, refusal.line)),
        Some((10, 2))
    );
}

#[test]
fn prices_within_the_ranges() {
    let mut rng = Random::from(11);
    let mut two = 0;
    for round in 0..200 {
        let mut made = pair(&mut rng, 1 + round % 30);
        add_ranges(&mut rng, &mut made);
        let [whole, some] =
            [made.clone(), at_some_prices(&mut rng, &made)].map(|pair| {
                match analyse(&pair.lib.bytes(), &pair.net.bytes(), 2 * ROOM) {
                    Answer::Accepted { report, .. } => report,
                    refused => panic!("{refused:?}"),
                }
            });
        if let (Some([low, high]), Some([first, second])) = (parts(&whole), parts(&some)) {
            assert!(first == second);
            assert_eq!(between([low, first, high]), None);
            two += 1;
        }
    }
    assert!(two > 100, "{two} with ranges");
}
