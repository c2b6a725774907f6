//! Netlists that are refused, and their neighbours that are not.

use super::{printed, refused, report};
use crate::figures::*;

pub(super) fn net_refused(net: &str, number: u32, line: u32) {
    refused(&format!("{NAND2}{INV}"), net, number, line);
}

#[test]
fn open_lines() {
    refused("", "output,1\n", 20, 0);
    refused(NAND2, "gate,NAND2,3,1,2\ninput,1\n", 20, 0);
    refused("", "output,1\ninput,0\n", 11, 2);
    refused("", "open\n", 10, 1);
    refused("", "open,0\n", 11, 1);
    refused("", "input,1\nopen,1\n", 14, 2);
    refused("", "open,1\ninput,1\n", 14, 2);
    refused("", "open,1\nopen,1\n", 14, 2);
    refused(NAND2, "open,1\ngate,NAND2,1,1,1\n", 14, 2);
    let report = report("", "open,1\noutput,2\nopen,2\n");
    assert_eq!(printed(&report, 1), ["never"; 6]);
    assert_eq!(printed(&report, 2)[4..], ["0", "0"]);
}

#[test]
fn netlist_form() {
    net_refused("\n", 10, 1);
    net_refused("input,1", 10, 1);
    net_refused("input,1\n\n", 10, 2);
    for line in [
        "input",
        "input,",
        "input,1,2",
        "input,1,",
        "Input,1",
        "input,01",
        "input,100000",
        "input,x",
        "input,1 ",
        "output",
        "output,1,2",
        "output,",
        "gate",
        "gate,",
        "gate,INV",
        "gate,INV,",
        "gate,inv,1,2",
        "gate,,1,2",
        "gate,INV,1,",
        "gate,INV,1,02",
        "gate,INV,1,100000",
        "gate,ABCDEFGHI,1,2",
        "gate,INV,1,2,",
        "gates,INV,1,2",
        "wire,1",
        "gate,INV,1,2\r",
        "gate, INV,1,2",
        "input,-1",
        "gate,INV,0,9999999",
    ] {
        net_refused(&format!("{line}\n"), 10, 1);
    }
}

#[test]
fn netlist_meaning() {
    for line in [
        "input,0",
        "input,1001",
        "input,99999",
        "output,0",
        "output,1001",
        "gate,INV,0,1",
        "gate,INV,1,1001",
        "gate,X,1,1001",
        "gate,INV,1,2,3,4,5,6,7,8,9,10,0",
    ] {
        net_refused(&format!("{line}\n"), 11, 1);
    }
    net_refused("gate,X,1,2\n", 12, 1);
    net_refused("gate,X,1\n", 12, 1);
    net_refused("input,1\ngate,X,1\n", 12, 2);
    net_refused("gate,INV,1\n", 13, 1);
    net_refused("gate,INV,1,2,3\n", 13, 1);
    net_refused("gate,INV,1,2,3,4,5,6,7,8,9,10\n", 13, 1);
    net_refused("input,1\ngate,INV,1\n", 13, 2);
    net_refused("input,1\ninput,1\n", 14, 2);
    net_refused("input,1\ngate,INV,1,1\n", 14, 2);
    net_refused("gate,INV,1,1\ngate,INV,1,2\n", 14, 2);
    net_refused("gate,INV,1,1\ninput,1\n", 14, 2);
    net_refused("output,1\ninput,1\noutput,1\n", 15, 3);
    // The last line number, and the topmost bad line of two.
    net_refused("output,1000\noutput,1\noutput,1\ninput,0\n", 15, 3);
}
