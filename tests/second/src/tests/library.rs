//! Libraries that are refused, and their neighbours that are not.

use super::{refused, report};
use crate::figures::*;

fn lib_refused(lib: &str, number: u32, line: u32) {
    refused(lib, "", number, line);
    // A refused library hides the netlist.
    refused(lib, "bad", number, line);
}

#[test]
fn library_form() {
    lib_refused("\n", 3, 1);
    lib_refused("Name,A,1", 3, 1);
    lib_refused("Name,A,1\n", 3, 2);
    lib_refused(NAND2.trim_end(), 3, 6);
    lib_refused(&format!("{NAND2}\n"), 3, 7);
    lib_refused(&format!("{NAND2}Name,A,2\nCC,13,21,M,5\n"), 3, 9);
    for name in [
        "Name",
        "Name,A",
        "Name,A,1,1",
        "name,A,1",
        "Name,,1",
        "Name,A,",
        "Name,a,1",
        "Name,A_B,1",
        "Name,ABCDEFGHI,1",
        "Name,A,08",
        "Name,A,100000",
        "Name,A,x",
        "Name,A,-1",
        " Name,A,1",
        "Name,A,1\r",
        "Name,A,1,",
        "Name, A,1",
        "NameX,A,1",
    ] {
        lib_refused(&format!("{name}\n"), 3, 1);
    }
    for row in [
        "CC,",
        "CC,13,",
        "CC,13,21,",
        "CC,M,13,21",
        "CC,13,21,M",
        "CC,13,M,M,21,5",
        "CC,M",
        "CC,13,018",
        "CC,13,18",
        "CC,13,19",
        "CC,13,021",
        "CC,13,10000000",
        "CC,13,m,21",
        "CC,13, 21",
        "cc,13,21",
        "CO,13,21",
        "SC,13,21",
        "CC,13,,21",
        "CC,13,00",
        "CC13,21",
        "",
        "End",
        "CC,13,MM,21",
        "CC,13,21\r",
    ] {
        lib_refused(&format!("Name,A,2\n{row}\n"), 3, 2);
    }
    for end in ["end", "End,", "End,1", "", "END", "End "] {
        lib_refused(&NAND2.replace("End", end), 3, 6);
    }
}

#[test]
fn library_names_and_pins() {
    lib_refused(&format!("{NAND2}{NAND2}"), 4, 7);
    lib_refused(&format!("{NAND2}Name,NAND2,9\n"), 4, 7);
    for pins in ["9", "10", "99999"] {
        lib_refused(&format!("Name,A,{pins}\n"), 5, 1);
    }
    // Names that look like words or numbers are names.
    for name in ["END", "M", "007", "CC", "ABCDEFGH"] {
        report(&NAND2.replace("NAND2", name), "");
    }
}

#[test]
fn library_rows() {
    for (row, number) in [
        ("CC", 6),
        ("CC,13", 6),
        ("CC,13,21,5", 6),
        ("CC,13,M,21", 6),
        ("CC,40,21", 7),
        ("CC,1,40", 7),
        ("CC,1000000,2", 7),
        ("CC,0,21", 8),
        ("CC,13,1", 8),
        ("CC,40", 6),
        // A Z is a group by itself, and excepts the rows of the other group alone from 8.
        ("CC,Z", 6),
        ("CC,Z,Z,Z", 6),
        ("CC,Z,M,13", 3),
        ("CC,13,M,Z", 3),
        ("CC,Z,M", 3),
        ("CC,z,13", 3),
        ("CC,Z,40", 7),
        ("CC,0,M,13,21", 8),
    ] {
        lib_refused(&format!("Name,A,2\n{row}\n"), number, 2);
    }
    for (row, number) in [
        ("CO", 6),
        ("CO,203", 6),
        ("CO,203,211,211", 6),
        ("CO,203,400", 7),
        ("CO,3,400", 7),
        ("CO,203,177", 8),
        ("CO,0,203", 8),
        ("CO,Z,3", 8),
        ("CO,Z", 6),
        ("CO,Z,M,203", 3),
    ] {
        lib_refused(&format!("Name,A,2\nCC,13,21\n{row}\n"), number, 3);
        lib_refused(
            &format!("Name,A,2\nCC,13,21\nCO,203,211\nSC,13,21\nS{}\n", &row[1..]),
            number,
            5,
        );
    }
    let sixteen = ["13"; 16].join(",M,");
    lib_refused(&format!("Name,A,2\nCC,{sixteen},21\n"), 3, 3);
    lib_refused(&format!("Name,A,2\nCC,{sixteen},M,13,21\n"), 6, 2);
    lib_refused(&format!("Name,A,2\nCC,{sixteen},M,13,1\n"), 6, 2);
    // Form counts after seventeen rows, too.
    lib_refused(&format!("Name,A,2\nCC,{sixteen},M,13,8\n"), 3, 2);
    // Eight pins: seven octal digits are needed.
    let rows = ["2000000"; 8].join(",");
    let eight = format!("Name,A,8\nCC,377777,2\nCO,{rows}\nSC,2,3\nSO,{rows}\nEnd\n");
    report(&eight, "");
    lib_refused(&eight.replace("377777", "400000"), 7, 2);
    lib_refused(&eight.replacen("2000000", "4000000", 1), 7, 3);
    lib_refused(&eight.replacen("2000000", "1777777", 1), 8, 3);
}

/// Three-bit depths.
#[test]
fn depths() {
    let rows = ["10000000"; 8].join(",");
    let eight = format!("Name3,A,8\nCC,1777770,17\nCO,{rows}\nSC,10,20\nSO,{rows}\nEnd\n");
    report(&eight, "");
    lib_refused(&eight.replace("1777770", "10000000"), 7, 2);
    lib_refused(&eight.replace("1777770", "100000000"), 3, 2);
    lib_refused(&eight.replace("1777770", "7"), 8, 2);
    lib_refused(&eight.replacen("10000000", "7777777", 1), 8, 3);
    lib_refused(&eight.replace("Name3", "Name"), 7, 2);
    lib_refused("Name,A,8\nCC,10000000,2\n", 3, 2);
    for word in ["Name33", "Name1", "name3", "3", "Name 3"] {
        lib_refused(&eight.replace("Name3", word), 3, 1);
    }
    lib_refused(&format!("{C1130_DEEP}{C1130}"), 4, 7);
    lib_refused(&format!("{C1130}{C1130_DEEP}"), 4, 7);
}

/// Cells without pins, and groups without rows.
#[test]
fn ties() {
    let rest = "\nCO\nSC,Z,Z\nSO\nEnd\n";
    for row in ["CC,Z,Z", "CC,0,Z", "CC,Z,1", "CC,Z,0,M,1"] {
        report(&format!("Name,A,0\n{row}{rest}"), "gate,A,7\n");
    }
    for (row, number) in [("CC,0,1", 8), ("CC,Z,2", 7), ("CC", 6)] {
        lib_refused(&format!("Name,A,0\n{row}{rest}"), number, 2);
    }
    for (row, number) in [("CO,Z", 6), ("CO,", 3), ("CO,0", 6)] {
        lib_refused(&format!("Name,A,0\nCC,Z,Z\n{row}\n"), number, 3);
    }
    // With pins the exception holds as well.
    report(
        "Name,A,1\nCC,0,Z\nCO,Z\nSC,Z,2,M,0\nSO,Z\nEnd\n",
        "gate,A,1,1\n",
    );
    refused(TIES, "gate,TIE0,1,1\n", 13, 1);
    refused(TIES, "gate,AND2,1\n", 13, 1);
}

#[test]
fn library_entries() {
    let entries = |count: u32| -> String {
        (0..count)
            .map(|cell| NAND2.replace("NAND2", &format!("C{cell}")))
            .collect()
    };
    report(&entries(32), "");
    let full = entries(32);
    lib_refused(&entries(33), 9, 193);
    lib_refused(&format!("{full}Name,A,1\n"), 9, 193);
    lib_refused(&format!("{full}Name,A,9\n"), 5, 193);
    lib_refused(&format!("{full}Name,C3,2\n"), 4, 193);
    lib_refused(&format!("{full}Name,A,1"), 3, 193);
}
