//! Clock gates, cells that stay closed, prices, genlib.

use crate::common::load;
use crate::formats::{by_name, Room};
use scoap_pads::ask::model::Model;
use scoap_pads::ask::pads::{self, Privacy, USUAL_DEPTH};
use scoap_pads::read::load::Source;
use scoap_pads::read::names;
use scoap_pads::show::cost::Cost;

pub const ICG: &str = r#"library (icg) {
  cell (ICG) {
    clock_gating_integrated_cell : "latch_posedge";
    statetable ("CLK GATE", "M0") { table : "L L : - : L, L H : - : H, H - : - : N"; }
    pin (CLK) { direction : input; clock_gate_clock_pin : true; }
    pin (GATE) { direction : input; clock_gate_enable_pin : true; }
    pin (M0) { direction : internal; internal_node : "M0"; }
    pin (GCLK) { direction : output; clock_gate_out_pin : true; state_function : "CLK*M0"; }
  }
  cell (ICGL) {
    latch (M0, M1) { enable : "CLK'"; data_in : "GATE"; }
    pin (CLK) { direction : input; } pin (GATE) { direction : input; }
    pin (GCLK) { direction : output; function : "CLK & M0"; }
  }
  cell (DFF) { ff (IQ, IQN) { next_state : "D"; clocked_on : "CK"; }
    pin (D) { direction : input; } pin (CK) { direction : input; } pin (Q) { direction : output; function : "IQ"; } }
  cell (IOPAD) { pin (A) { direction : input; } pin (EN) { direction : input; }
    pin (PAD) { direction : inout; function : "A"; three_state : "!EN"; }
    pin (Y) { direction : output; function : "PAD"; } }
}
"#;

pub const GATED: &str = ".model icg\n.inputs clk en d\n.outputs q\n.gate ICG CLK=clk GATE=en GCLK=gclk\n\
                         .gate DFF D=d CK=gclk Q=q\n.end\n";

pub const GENLIB: &str = "GATE inv 1 O=!a; PIN a INV 1 999 1 0 1 0\nGATE nand2 2 O=!(a*b); PIN * INV 1 999 1 0 1 0\n\
                          GATE aoi21 3 O=!(a1*a2+b); PIN * INV 1 999 1 0 1 0\nLATCH dff 8 Q=D; PIN D NONINV 1 999 1 1 1 1\n  \
                          SEQ D ANY RISING_EDGE\n  CONTROL CLK 1 999 1 1 1 1\n";

pub const MAPPED: &str =
    ".model g\n.inputs a b clk\n.outputs q\n.gate nand2 a=a b=b O=n\n.gate aoi21 a1=a a2=q b=n O=m\n\
                          .gate inv a=m O=k\n.mlatch dff D=k Q=q clk 0\n.end\n";

pub const BOXED: &str = ".model chip\n.inputs clk a[0] a[1]\n.outputs y\n\
                         .subckt SRAM A[0]=addr A[1]=a[1] CK=clk Q[0]=q[0] Q[1]=q[1]\n.subckt $_NAND_ A=a[0] B=a[1] Y=addr\n\
                         .subckt $_AND_ A=q[0] B=q[1] Y=y\n.end\n";

pub const PRICES: &str = "net,LOW,HIGH\nq[0],5,9\nq[1],2,2 # fixed\nclk,1,4\n";

fn read(source: &Source) -> (Model, String) {
    let (loaded, said) = load(source);
    (loaded.unwrap_or_else(|| panic!("{said}")).model, said)
}

/// A latch that is open while the clock is 0, and an AND: the same numbers as these two by hand.
#[test]
fn a_clock_gate_is_a_latch_and_an_and() {
    let room = Room::new("icg");
    let library = room.file("icg.lib", ICG).path;
    let hand = ".model icg\n.inputs clk en d\n.outputs q\n.latch en gclk.M0 al clk 2\n.names clk gclk.M0 gclk\n11 1\n\
                .latch d q re gclk 2\n.end\n";
    let wanted = by_name(&read(&room.file("hand.blif", hand)).0);
    assert_eq!(wanted.len(), 6);
    for title in ["ICG", "ICGL"] {
        let source = room.file("gated.blif", &GATED.replace("ICG", title));
        let (model, said) = read(&Source { libraries: vec![library.clone()], ..source });
        assert_eq!(said, "");
        assert_eq!(by_name(&model), wanted, "{title}");
    }
    // Another gate has other numbers.
    let other = by_name(&read(&room.file("hand.blif", &hand.replace("11 1", "1- 1\n-1 1"))).0);
    assert_ne!(other, wanted);
}

/// A pad in both directions: an input and, apart, what is driven.
#[test]
fn a_pad_cell_reads_and_drives() {
    let room = Room::new("pad");
    let library = room.file("icg.lib", ICG).path;
    let json = r#"{"modules": {"c": {"ports": {"a": {"direction": "input", "bits": [2]}, "e": {"direction": "input", "bits": [3]},
        "io": {"direction": "inout", "bits": [4]}, "y": {"direction": "output", "bits": [5]}},
        "cells": {"p": {"type": "IOPAD", "connections": {"A": [2], "EN": [3], "PAD": [4], "Y": [5]}}}}}}"#;
    let (model, _) = read(&Source { libraries: vec![library], ..room.file("pad.json", json) });
    let names: Vec<&str> = model.names.iter().map(|name| name.net.as_str()).collect();
    assert_eq!(names, ["a", "e", "io", "io (drive)", "y"]);
    assert!(model.is_output[4] && model.is_output[5]);
}

#[test]
fn a_box_gives_inputs_and_takes_outputs() {
    let room = Room::new("box");
    let boxes = vec!["SRAM".to_string()];
    let hand = ".model chip\n.inputs clk a[0] a[1] q[0] q[1]\n.outputs y addr a[1] clk\n.names a[0] a[1] addr\n11 0\n\
                .names q[0] q[1] y\n11 1\n.end\n";
    let wanted = by_name(&read(&room.file("hand.blif", hand)).0);
    let (blif, said) = read(&Source { boxes: boxes.clone(), ..room.file("box.blif", BOXED) });
    assert!(said.contains("note: --box SRAM: 1 cell closed; 2 pins became inputs and 3 pins outputs."), "{said}");
    assert_eq!(by_name(&blif), wanted);
    assert_eq!(blif.closed, ["SRAM"]);
    let json = r#"{"modules": {"chip": {"ports": {"clk": {"direction": "input", "bits": [2]},
        "a": {"direction": "input", "bits": [3, 4]}, "y": {"direction": "output", "bits": [5]}}, "cells": {
        "u_ram": {"type": "SRAM", "DIRECTIONS": 1, "connections": {"A": [6, 4], "CK": [2], "Q": [7, 8]}},
        "n": {"type": "$_NAND_", "connections": {"A": [3], "B": [4], "Y": [6]}},
        "g": {"type": "$_AND_", "connections": {"A": [7], "B": [8], "Y": [5]}}},
        "netnames": {"addr": {"bits": [6]}, "q": {"bits": [7, 8]}}}}}"#;
    let known = r#""port_directions": {"A": "input", "Q": "output", "CK": "input"}"#;
    for text in [json.to_string(), json.replace(r#""DIRECTIONS": 1"#, known)] {
        let (model, _) = read(&Source { boxes: boxes.clone(), ..room.file("box.json", &text) });
        assert_eq!(by_name(&model), wanted);
        let addr = model.names.iter().find(|name| name.net == "addr").unwrap();
        assert_eq!(addr.aliases, ["u_ram.A[0]"]);
    }
    // Two boxes on one net, and nothing that says which of them drives it.
    let twice = BOXED.replace(".subckt $_AND_", ".subckt SRAM A[0]=addr Q[0]=q[0]\n.subckt $_AND_");
    let (loaded, said) = load(&Source { boxes: boxes.clone(), ..room.file("twice.blif", &twice) });
    assert!(
        loaded.is_none() && said.contains("twice.blif:6: error: SRAM: whether pin Q[0] drives q[0] is not known"),
        "{said}"
    );
    // A library says it, also of a bus; then two that drive are told.
    let library = "library(m) { cell(SRAM) { bus(A) { direction : input; } bus(Q) { direction : output; } pin(CK) { direction : input; } } }";
    let libraries = vec![room.file("m.lib", library).path];
    let (model, _) =
        read(&Source { boxes: boxes.clone(), libraries: libraries.clone(), ..room.file("box.blif", BOXED) });
    assert_eq!(by_name(&model), wanted);
    let (loaded, said) = load(&Source { boxes: boxes.clone(), libraries, ..room.file("twice.blif", &twice) });
    assert!(loaded.is_none() && said.contains("q[0] is an input twice"), "{said}");
    let (_, said) = load(&Source { boxes: vec!["ROM".to_string()], ..room.file("hand.blif", hand) });
    assert!(said.contains("--box ROM is not used: no cell has this type"), "{said}");
}

#[test]
fn what_a_box_takes_is_not_seen_by_privacy() {
    let room = Room::new("boxed-privacy");
    let text = ".model chip\n.inputs a b en k clk\n.outputs y\n.subckt $_AND_ A=a B=b Y=secret\n.subckt SRAM D=secret CK=clk Q=q\n\
                .subckt $_AND_ A=secret B=en Y=g\n.subckt $_XOR_ A=g B=k Y=h\n.subckt $_AND_ A=h B=q Y=y\n.end\n";
    let (model, _) = read(&Source { boxes: vec!["SRAM".to_string()], ..room.file("leak.blif", text) });
    let line = |net: &str| names::find(&model.names, net).unwrap()[0];
    // The box takes it, so that no pad lowers its CO; both pads show it for less than the way to the chip's output.
    assert_eq!(model.numbers.of(line("secret"))[4], Cost::Figure(0));
    let privacy = Privacy::new(&model, Vec::new(), vec![line("secret")], USUAL_DEPTH);
    let effects = pads::effects(&model, &[line("g"), line("h")], &privacy).unwrap();
    assert_eq!(effects.len(), 2);
    for effect in &effects {
        assert_eq!(effect.touched, [line("secret")], "{}", model.net_name(effect.line));
        assert!(!privacy.allows(effect));
    }
}

#[test]
fn prices_are_ranges() {
    let room = Room::new("price");
    let boxed = Source { boxes: vec!["SRAM".to_string()], ..room.file("box.blif", BOXED) };
    let price = Some(room.file("prices", PRICES).path);
    let (model, _) = read(&Source { price, ..boxed.clone() });
    let net = String::from_utf8(model.net.clone()).unwrap();
    assert!(model.ranges && net.contains("\nrange,4,5,9\nrange,5,2,2\nrange,1,1,4\ngate,"), "{net}");
    let bad = "q[0],0,9\nq[0],9,3\naddr,1,2\nnobody,1,1\nq[0],1\nq[1],2,2\nq[1],3,3\nq*,1,1\nq[0],1,1000\n";
    let (loaded, said) = load(&Source { price: Some(room.file("bad", bad).path), ..boxed });
    assert!(loaded.is_none());
    for (line, words) in [
        (1, "'0' is no price: 1 to 999"),
        (2, "LOW 9 is above HIGH 3"),
        (3, "addr is no input"),
        (4, "there is no such net"),
        (5, "net,LOW,HIGH"),
        (7, "already, on line 6"),
        (8, "this means 2"),
        (9, "'1000' is no price"),
    ] {
        let told = said.lines().any(|told| told.contains(&format!("bad:{line}: error: ")) && told.contains(words));
        assert!(told, "{line} {words}: {said}");
    }
}

#[test]
fn genlib_gives_the_numbers_of_its_functions() {
    let room = Room::new("genlib");
    let hand =
        ".model g\n.inputs a b clk\n.outputs q\n.names a b n\n11 0\n.names a q n m\n11- 0\n--1 0\n.names m k\n0 1\n\
                .latch k q re clk 0\n.end\n";
    let wanted = by_name(&read(&room.file("hand.blif", hand)).0);
    for name in ["c.genlib", "c.lib"] {
        let libraries = vec![room.file(name, GENLIB).path];
        let (model, _) = read(&Source { libraries, ..room.file("g.blif", MAPPED) });
        assert_eq!(by_name(&model), wanted);
    }
    // What is missing is said once, by cell.
    let (loaded, said) = load(&Source {
        libraries: vec![],
        ..room.file("g.blif", &MAPPED.replace("aoi21 a1=a a2=q b=n", "nand2 a=q b=n"))
    });
    assert!(loaded.is_none());
    assert_eq!(said.matches("no library is given").count(), 1, "{said}");
    assert!(said.contains("nand2 (2), inv (1), dff (1)"), "{said}");
}

/// x in BLIF is open, as in JSON.
#[test]
fn undefined_is_open() {
    let room = Room::new("undef");
    let blif = ".model x\n.inputs a\n.outputs y\n.subckt $_AND_ A=a B=$undef Y=y\n.end\n";
    let (model, said) = read(&room.file("x.blif", blif));
    let json = r#"{"modules": {"x": {"ports": {"a": {"direction": "input", "bits": [2]}, "y": {"direction": "output", "bits": [3]}},
        "cells": {"g": {"type": "$_AND_", "connections": {"A": [2], "B": ["x"], "Y": [3]}}}}}}"#;
    let (other, told) = read(&room.file("x.json", json));
    assert_eq!(by_name(&model), by_name(&other));
    assert!(said.contains("open lines, which can never be set") && told.contains("open lines"), "{said}{told}");
}
