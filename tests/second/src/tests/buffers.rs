//! Texts too long, and report buffers of all lengths.

use super::refused;
use crate::figures::*;
use crate::report_into;

#[test]
fn entry() {
    let most = "\n".repeat(65_535);
    let more = "\n".repeat(65_536);
    refused(&most, "", 3, 1);
    refused("", &most, 10, 1);
    refused(&more, "", 2, 0);
    refused("", &more, 2, 0);
    refused("bad", &more, 2, 0);
    refused(&more, &more, 2, 0);
}

#[test]
fn report_buffer() {
    let [lib, net] = [C1130, C1130_NET].map(str::as_bytes);
    let length = C1130_REPORT.len();
    let mut exact = vec![7; length];
    assert_eq!(report_into(lib, net, &mut exact), length as u64);
    assert_eq!(exact, C1130_REPORT.as_bytes());
    let mut short = vec![7; length - 1];
    assert_eq!(report_into(lib, net, &mut short), 17_000_000);
    assert!(short.iter().all(|&b| b == 0));
    let mut long = vec![7; length + 5];
    assert_eq!(report_into(lib, net, &mut long), length as u64);
    assert_eq!(long[length..], [7; 5]);
    let mut untouched = vec![7; 9];
    assert_eq!(report_into(&[10; 65_536], net, &mut untouched), 2_000_000);
    assert_eq!(untouched, [7; 9]);
    assert_eq!(report_into(lib, b"input,1", &mut untouched), 10_000_001);
    assert_eq!(untouched, [0; 9]);
    assert_eq!(report_into(b"", b"", &mut []), 17_000_000);
}
