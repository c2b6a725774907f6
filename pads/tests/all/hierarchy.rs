//! Blocks within blocks and structural Verilog: equal numbers by name, however a design is written.

use crate::common::{load, model, worked, Random};
use crate::formats::{by_name, Room};
use scoap_pads::ask::archive::Six;
use scoap_pads::ask::model::Model;
use scoap_pads::read::load::Source;
use scoap_pads::read::structural::{self, Answer};
use scoap_pads::rows::types::Types;
use scoap_pads::rows::writer;
use scoap_pads::show::messages::Messages;
use std::collections::BTreeMap;

fn numbers(source: &Source) -> BTreeMap<String, Six> {
    let (loaded, said) = load(source);
    let model = loaded.unwrap_or_else(|| panic!("{}: {said}", source.path)).model;
    by_name(&model).into_iter().filter(|(name, _)| !name.starts_with('(')).collect()
}

const C17: &str =
    "// c17\nmodule c17 (N1,N2,N3,N6,N7,N22,N23);\ninput N1,N2,N3,N6,N7;\noutput N22,N23;\nwire N10,N11,N16,N19;\n\
nand NAND2_1 (N10, N1, N3);\nnand NAND2_2 (N11, N3, N6);\nnand NAND2_3 (N16, N2, N11);\nnand NAND2_4 (N19, N11, N7);\n\
nand NAND2_5 (N22, N10, N16);\nnand NAND2_6 (N23, N16, N19);\nendmodule\n";

/// ISCAS' own c17.v against the folder, and the same netlist in every format.
#[test]
fn c17_through_every_format() {
    let room = Room::new("c17");
    let folder: BTreeMap<String, Six> =
        by_name(&model("c17")).into_iter().map(|(name, six)| (format!("N{name}"), six)).collect();
    assert_eq!(folder.len(), 11);
    let mut bench = String::new();
    let mut blif = ".model c17\n.inputs N1 N2 N3 N6 N7\n.outputs N22 N23\n".to_string();
    let mut cells = Vec::new();
    for port in ["N1", "N2", "N3", "N6", "N7"] {
        bench += &format!("INPUT({port})\n");
    }
    bench += "OUTPUT(N22)\nOUTPUT(N23)\n";
    for line in C17.lines().filter(|line| line.starts_with("nand")) {
        let inner = line.split_once('(').unwrap().1.trim_end_matches(");");
        let nets: Vec<&str> = inner.split(", ").collect();
        bench += &format!("{} = NAND({}, {})\n", nets[0], nets[1], nets[2]);
        blif += &format!(".names {} {} {}\n11 0\n", nets[1], nets[2], nets[0]);
        let [y, a, b] = [nets[0], nets[1], nets[2]].map(|net| &net[1..]);
        cells.push(format!(
            "\"g{y}\": {{\"type\": \"$_NAND_\", \"connections\": {{\"A\": [{a}], \"B\": [{b}], \"Y\": [{y}]}}}}"
        ));
    }
    let port = |net: &u32, way: &str| format!("\"N{net}\": {{\"direction\": \"{way}\", \"bits\": [{net}]}}");
    let ins = [1, 2, 3, 6, 7].iter().map(|net| port(net, "input"));
    let ports: Vec<String> = ins.chain([22, 23].iter().map(|net| port(net, "output"))).collect();
    let names: Vec<String> =
        [10, 11, 16, 19].iter().map(|net| format!("\"N{net}\": {{\"hide_name\": 0, \"bits\": [{net}]}}")).collect();
    let json = format!(
        "{{\"modules\": {{\"c17\": {{\"ports\": {{{}}}, \"cells\": {{{}}}, \"netnames\": {{{}}}}}}}}}",
        ports.join(", "),
        cells.join(", "),
        names.join(", ")
    );
    for (name, text) in [("c.v", C17), ("c.bench", &bench), ("c.blif", &blif), ("c.json", &json)] {
        assert_eq!(numbers(&room.file(name, text)), folder, "{name}");
    }
    let other = C17.replacen("nand NAND2_6", "nor NAND2_6", 1);
    assert_ne!(numbers(&room.file("d.v", &other)), folder);
}

const S27: &str = "module s27(CK,G0,G1,G17,G2,G3);\ninput CK,G0,G1,G2,G3;\noutput G17;\nwire G5,G10,G6,G11,G7,G13,G14,G8,G15,G12,\
G16,G9;\ndff DFF_0(CK,G5,G10);\ndff DFF_1(CK,G6,G11);\ndff DFF_2(CK,G7,G13);\nnot NOT_0(G14,G0);\nnot NOT_1(G17,G11);\n\
and AND2_0(G8,G14,G6);\nor OR2_0(G15,G12,G8);\nor OR2_1(G16,G3,G8);\nnand NAND2_0(G9,G16,G15);\nnor NOR2_0(G10,G14,G11);\n\
nor NOR2_1(G11,G5,G9);\nnor NOR2_2(G12,G1,G7);\nnor NOR2_3(G13,G2,G12);\nendmodule\n";

/// ISCAS' s27 through every format; in Verilog its flip-flop as a plain register, and as a cell of a library whose module has the order of its pins.
#[test]
fn s27_with_its_flip_flops() {
    let room = Room::new("s27");
    let mut bench = "INPUT(CK)\nOUTPUT(G17)\n".to_string();
    let mut blif = ".model s27\n.inputs CK G0 G1 G2 G3\n.outputs G17\n".to_string();
    let mut known: Vec<&str> = vec!["CK", "G17"];
    let mut cells = Vec::new();
    for input in ["G0", "G1", "G2", "G3"] {
        bench += &format!("INPUT({input})\n");
        known.push(input);
    }
    for line in S27.lines().skip(4).filter(|line| line.contains("_")) {
        let (word, rest) = line.split_once(' ').unwrap();
        let nets: Vec<&str> = rest.split_once('(').unwrap().1.trim_end_matches(");").split(',').collect();
        bench += &match word {
            "dff" => format!("{} = DFF({})\n", nets[1], nets[2]),
            _ => format!("{} = {word}({})\n", nets[0], nets[1..].join(", ")),
        };
        let rows = match word {
            "not" => "0 1",
            "and" => "11 1",
            "or" => "1- 1\n-1 1",
            "nand" => "0- 1\n-0 1",
            _ => "00 1",
        };
        blif += &match word {
            "dff" => format!(".latch {} {} re CK 3\n", nets[2], nets[1]),
            _ => format!(".names {} {}\n{rows}\n", nets[1..].join(" "), nets[0]),
        };
        let pins: &[&str] = if word == "dff" { &["C", "Q", "D"] } else { &["Y", "A", "B"] };
        let mut joined = Vec::new();
        for (pin, &net) in pins.iter().zip(&nets) {
            if !known.contains(&net) {
                known.push(net);
            }
            joined.push(format!("\"{pin}\": [{}]", 2 + known.iter().position(|&other| other == net).unwrap()));
        }
        let title = if word == "dff" { "$_DFF_P_".to_string() } else { format!("$_{}_", word.to_uppercase()) };
        cells.push(format!(
            "\"c{}\": {{\"type\": \"{title}\", \"connections\": {{{}}}}}",
            cells.len(),
            joined.join(", ")
        ));
    }
    let bits = |net: &str| 2 + known.iter().position(|&other| other == net).unwrap();
    let ports = known[..6].iter().map(|net| {
        let way = if *net == "G17" { "output" } else { "input" };
        format!("\"{net}\": {{\"direction\": \"{way}\", \"bits\": [{}]}}", bits(net))
    });
    let names = known.iter().map(|net| format!("\"{net}\": {{\"bits\": [{}]}}", bits(net)));
    let json = format!(
        "{{\"modules\": {{\"s27\": {{\"ports\": {{{}}}, \"cells\": {{{}}}, \"netnames\": {{{}}}}}}}}}",
        ports.collect::<Vec<_>>().join(", "),
        cells.join(", "),
        names.collect::<Vec<_>>().join(", ")
    );
    let wanted = numbers(&Source { clock: Some("CK".to_string()), ..room.file("s.bench", &bench) });
    assert_eq!(wanted.len(), 18);
    assert_eq!(numbers(&room.file("s.blif", &format!("{blif}.end\n"))), wanted);
    assert_eq!(numbers(&room.file("s.json", &json)), wanted);
    let behaviour = "module dff(CK,Q,D);\ninput CK,D; output Q; reg Q;\nalways @(posedge CK) Q <= D;\nendmodule\n";
    assert_eq!(numbers(&room.file("a.v", &format!("{S27}{behaviour}"))), wanted);
    let transistors = "module dff(CK,Q,D);\ninput CK,D; output Q;\ntrireg M;\nnmos N7 (M,D,CK);\nendmodule\n";
    let lib = "library(d) { cell(dff) { ff(IQ,IQN) { next_state : \"D\"; clocked_on : \"CK\"; } pin(CK) { direction : input; } \
               pin(D) { direction : input; } pin(Q) { direction : output; function : \"IQ\"; } } }";
    let lib = room.file("d.lib", lib).path;
    let source = room.file("b.v", &format!("{transistors}{S27}"));
    assert_eq!(numbers(&Source { libraries: vec![lib.clone()], ..source.clone() }), wanted);
    // Without the library its parts are told; without its module, that the order is not known.
    let (_, said) = load(&source);
    assert!(said.contains("b.v:4: error: nmos is a part of transistors"), "{said}");
    let (_, said) = load(&Source { libraries: vec![lib], ..room.file("c.v", S27) });
    assert!(said.contains("c.v:5: error: the order of the pins of dff is not known"), "{said}");
    // By name, as a netlist of a synthesis tool has it.
    let named = S27.replace("(CK,G5,G10)", "(.D(G10), .CK(CK), .Q(G5))");
    assert!(load(&room.file("e.v", &named)).1.contains("this cell and 2 more has the type dff"));
}

const HIER: &str = "module chip(input [3:0] a, b, input clk, cin, output [3:0] s, output co, q, output [1:0] k);
  wire [3:0] c;
  fa u0(.x(a[0]), .y(b[0]), .ci(cin), .s(s[0]), .co(c[0]));
  fa u1(.x(a[1]), .y(b[1]), .ci(c[0]), .s(s[1]), .co(c[1]));
  pair u_pair(a[3:2], b[3:2], c[1], s[3:2], co, clk, q);
  thru t(.i({co, 1'b1}), .o(k));
endmodule
module pair(x, y, ci, s, co, clk, q);
  input [1:0] x, y; input ci, clk; output [1:0] s; output co, q;
  wire m;
  fa lo(x[0], y[0], ci, s[0], m);
  fa hi(x[1], y[1], m, s[1], co);
  \\$_DFF_P_ r(.D(co), .C(clk), .Q(q));
endmodule
module fa(input x, y, ci, output s, co);
  wire h, g, t;
  xor x1(h, x, y), x2(s, h, ci);
  and (g, x, y);
  and a2(t, h, ci);
  or #(1:2:3) o1(co, g, t);
endmodule
module thru(input [1:0] i, output [1:0] o); assign o = i; endmodule
";

const HIER_BLIF: &str = ".model chip
.inputs a[0] a[1] a[2] a[3] b[0] b[1] b[2] b[3] clk cin
.outputs s[0] s[1] s[2] s[3] co q k[0] k[1]
.subckt fa x=a[0] y=b[0] ci=cin s=s[0] co=c[0]
.cname u0
.subckt fa x=a[1] y=b[1] ci=c[0] s=s[1] co=c[1]
.cname u1
.subckt pair x[0]=a[2] x[1]=a[3] y[0]=b[2] y[1]=b[3] ci=c[1] s[0]=s[2] s[1]=s[3] co=co clk=clk q=q
.cname u_pair
.names $true
1
.subckt thru i[0]=$true i[1]=co o[0]=k[0] o[1]=k[1]
.end
.model pair
.inputs x[0] x[1] y[0] y[1] ci clk
.outputs s[0] s[1] co q
.subckt fa x=x[0] y=y[0] ci=ci s=s[0] co=m
.cname lo
.subckt fa x=x[1] y=y[1] ci=m s=s[1] co=co
.cname hi
.latch co q re clk 2
.end
.model fa
.inputs x y ci
.outputs s co
.names x y h
10 1
01 1
.names h ci s
10 1
01 1
.names x y g
11 1
.names h ci t
11 1
.names g t co
1- 1
-1 1
.end
.model thru
.inputs i[0] i[1]
.outputs o[0] o[1]
.names i[0] o[0]
1 1
.names i[1] o[1]
1 1
.end
";

/// The same as JSON, not flattened.
fn hier_json() -> String {
    let port =
        |name: &str, way: &str, bits: &str| format!("\"{name}\": {{\"direction\": \"{way}\", \"bits\": [{bits}]}}");
    let cell = |name: &str, title: &str, pins: &[(&str, &str)]| {
        let pins: Vec<String> = pins.iter().map(|(pin, bits)| format!("\"{pin}\": [{bits}]")).collect();
        format!("\"{name}\": {{\"type\": \"{title}\", \"connections\": {{{}}}}}", pins.join(", "))
    };
    let name = |name: &str, bits: &str| format!("\"{name}\": {{\"hide_name\": 0, \"bits\": [{bits}]}}");
    let module = |title: &str, ports: &[String], cells: &[String], names: &[String]| {
        format!(
            "\"{title}\": {{\"ports\": {{{}}}, \"cells\": {{{}}}, \"netnames\": {{{}}}}}",
            ports.join(", "),
            cells.join(", "),
            names.join(", ")
        )
    };
    let fa = |of: &str, x: &str, y: &str, ci: &str, s: &str, co: &str| {
        cell(of, "fa", &[("x", x), ("y", y), ("ci", ci), ("s", s), ("co", co)])
    };
    let two = |of: &str, title: &str, a: &str, b: &str, y: &str| cell(of, title, &[("A", a), ("B", b), ("Y", y)]);
    let modules = [
        module(
            "thru",
            &[port("i", "input", "2, 3"), port("o", "output", "2, 3")],
            &[],
            &[name("i", "2, 3"), name("o", "2, 3")],
        ),
        module(
            "chip",
            &[
                port("a", "input", "2, 3, 4, 5"),
                port("b", "input", "6, 7, 8, 9"),
                port("clk", "input", "10"),
                port("cin", "input", "11"),
                port("s", "output", "12, 13, 14, 15"),
                port("co", "output", "16"),
                port("q", "output", "17"),
                port("k", "output", "18, 19"),
            ],
            &[
                fa("u0", "2", "6", "11", "12", "20"),
                fa("u1", "3", "7", "20", "13", "21"),
                cell(
                    "u_pair",
                    "pair",
                    &[
                        ("x", "4, 5"),
                        ("y", "8, 9"),
                        ("ci", "21"),
                        ("s", "14, 15"),
                        ("co", "16"),
                        ("clk", "10"),
                        ("q", "17"),
                    ],
                ),
                cell("t", "thru", &[("i", "\"1\", 16"), ("o", "18, 19")]),
            ],
            &[name("c", "20, 21")],
        ),
        module(
            "pair",
            &[
                port("x", "input", "2, 3"),
                port("y", "input", "4, 5"),
                port("ci", "input", "6"),
                port("clk", "input", "7"),
                port("s", "output", "8, 9"),
                port("co", "output", "10"),
                port("q", "output", "11"),
            ],
            &[
                fa("lo", "2", "4", "6", "8", "12"),
                fa("hi", "3", "5", "12", "9", "10"),
                cell("r", "$_DFF_P_", &[("D", "10"), ("C", "7"), ("Q", "11")]),
            ],
            &[name("m", "12")],
        ),
        module(
            "fa",
            &[
                port("x", "input", "2"),
                port("y", "input", "3"),
                port("ci", "input", "4"),
                port("s", "output", "5"),
                port("co", "output", "6"),
            ],
            &[
                two("x1", "$_XOR_", "2", "3", "7"),
                two("x2", "$_XOR_", "7", "4", "5"),
                two("a1", "$_AND_", "2", "3", "8"),
                two("a2", "$_AND_", "7", "4", "9"),
                two("o1", "$_OR_", "8", "9", "6"),
            ],
            &[name("h", "7"), name("g", "8"), name("t", "9")],
        ),
    ];
    format!("{{\"modules\": {{{}}}}}", modules.join(", "))
}

/// The flattened chip by hand, in .bench.
fn flat_bench() -> String {
    let mut text = String::new();
    for input in ["a[0]", "a[1]", "a[2]", "a[3]", "b[0]", "b[1]", "b[2]", "b[3]", "clk", "cin"] {
        text += &format!("INPUT({input})\n");
    }
    for output in ["s[0]", "s[1]", "s[2]", "s[3]", "co", "q", "k[0]"] {
        text += &format!("OUTPUT({output})\n");
    }
    for (of, x, y, ci, s, co) in [
        ("u0.", "a[0]", "b[0]", "cin", "s[0]", "c[0]"),
        ("u1.", "a[1]", "b[1]", "c[0]", "s[1]", "c[1]"),
        ("u_pair.lo.", "a[2]", "b[2]", "c[1]", "s[2]", "u_pair.m"),
        ("u_pair.hi.", "a[3]", "b[3]", "u_pair.m", "s[3]", "co"),
    ] {
        text += &format!(
            "{of}h = XOR({x}, {y})\n{s} = XOR({of}h, {ci})\n{of}g = AND({x}, {y})\n{of}t = AND({of}h, {ci})\n{co} = OR({of}g, {of}t)\n"
        );
    }
    text + "q = DFF(co)\nk[0] = vdd\n"
}

#[test]
fn a_chip_of_blocks_is_the_flattened_one() {
    let room = Room::new("hier");
    let json = hier_json();
    let flat = numbers(&Source { clock: Some("clk".to_string()), ..room.file("h.bench", &flat_bench()) });
    assert_eq!(flat.len(), 31);
    for (name, text) in [("h.v", HIER), ("h.blif", HIER_BLIF), ("h.json", &json)] {
        assert_eq!(numbers(&room.file(name, text)), flat, "{name}");
        // A block by itself, with what is in it.
        let pair = Source { top: Some("pair".to_string()), ..room.file(name, text) };
        let own = numbers(&pair);
        assert!(own.contains_key("hi.g") && own.contains_key("m") && own.len() == 17, "{name}: {own:?}");
        let wrong = Source { top: Some("nobody".to_string()), ..room.file(name, text) };
        let (_, said) = load(&wrong);
        assert!(said.contains("error: no block is called nobody\n  blocks here: "), "{name}: {said}");
    }
    let (_, said) =
        load(&room.file("two.v", &format!("{HIER}module other(input a, output y); not (y, a); endmodule\n")));
    assert!(
        said.contains("These are in no other one: say --top NAME\n  blocks here: chip (31 lines), other (2 lines)"),
        "{said}"
    );
    for (name, text) in [
        ("r.v", HIER.replace("wire h, g, t;", "wire h, g, t; pair p();")),
        ("r.blif", HIER_BLIF.replace(".names x y h", ".subckt pair q=q9\n.names x y h")),
        ("r.json", json.replace("\"a1\": {\"type\": \"$_AND_\"", "\"a1\": {\"type\": \"pair\"")),
    ] {
        let (_, said) = load(&room.file(name, &text));
        assert!(said.contains("a block contains itself: pair > fa > pair"), "{name}: {said}");
    }
}

/// Every way to write a connection: the same chip.
#[test]
fn ways_to_write_a_netlist() {
    let room = Room::new("ways");
    let plain =
        "module m(input a0, a1, a2, a3, output y, z, w, v);\nwire n, p;\nnand (n, a0, a1);\nxnor (p, n, a2, a3);\n\
                 not (y, p); buf (z, p);\nand (w, a3, a3); or (v, a0, n);\nendmodule\n";
    let wanted = numbers(&room.file("plain.v", plain));
    assert_eq!(wanted.len(), 10);
    for (name, text) in [
        (
            "ports.v",
            "`timescale 1ns/1ps\n(* top = 1, src = \"a.v:1\" *)\nmodule m(a0, a1, a2, a3, y, z, w, v); /* x */\ninput a0, a1;\n\
             input wire a2; input a3;\noutput y, z; output w, v; wire y;\nsupply1 one;\nwire n, p;\nnand #3 (n, a0, a1);\n\
             xnor (strong0, strong1) #(1, 2) g (p, n, a2, a3);\nnot u1(y, p); buf (z, p);\nand (w, a3, a3), o(v2, a0, one);\n\
             or (v, a0, n);\nendmodule // m\n",
        ),
        (
            "assign.v",
            "module m(input a0, a1, a2, a3, output y, z, w, v);\nwire n = ~(a0 & a1);\nwire p;\nassign p = n ~^ a2 ^ a3, y = ~p;\n\
             buf (z, p);\nand (w, a3, a3);\nassign v = a0 | n;\nendmodule\n",
        ),
        (
            "wired.v",
            "module m(input a0, a1, a2, a3, output y, z, w, v);\nwire n, p;\nnand (n, a0, a1);\nxnor (p, n, a2, a3);\n\
             not (y, p); buf (z, p);\nand (w, a3, a3);\nwor v;\nassign v = a0; assign v = n;\nendmodule\n",
        ),
    ] {
        let mut own = numbers(&room.file(name, text));
        own.retain(|net, _| wanted.contains_key(net));
        assert_eq!(own, wanted, "{name}");
    }
    // Buses, concatenations and parts; a name with a bracket; a constant at a pin.
    let bus = "module top(input [3:0] d, output [0:2] q, output \\y[9] );\nwire [7:4] t;\nleaf l(.i({d[0], d[3:1]}), .o(t), .k(1'b1));\n\
               assign {q, \\y[9] } = {t[6:4], t[7]};\nendmodule\n\
               module leaf(i, o, k); input [3:0] i; output [3:0] o; input k;\nnand (o[0], i[0], k); not (o[2], o[3], i[2]);\n\
               buf (o[1], i[1]);\nendmodule\n";
    let own = numbers(&room.file("bus.v", bus));
    let names: Vec<&str> = own.keys().map(String::as_str).collect();
    assert_eq!(names, ["d[0]", "d[1]", "d[2]", "d[3]", "q[0]", "q[1]", "q[2]", "y[9]"]);
    // i is {d0, d3, d2, d1}: o0 = nand(d1, 1) = q[2], o1 = d2 = q[1], o2 = not d3 = q[0], o3 = not d3 = y[9].
    let seen = |net: &str| own[net][4].plain();
    assert_eq!([seen("d[0]"), seen("d[1]"), seen("d[2]"), seen("d[3]")], ["never", "2", "1", "1"].map(String::from));
}

fn said_of(text: &str) -> String {
    let mut messages = Messages::new();
    match structural::read("c.v", text, &structural::Wanted::default(), &mut Types::default(), &mut messages) {
        Answer::Beyond(faults) => {
            faults.iter().map(|fault| format!("c.v:{}: beyond: {}\n", fault.line, fault.words)).collect()
        }
        _ => messages.text(),
    }
}

#[test]
fn what_is_no_netlist_is_told_by_line() {
    for (text, words) in [
        ("module m(input a, output y);\nassign y = a + a;\nendmodule", "c.v:2: beyond: '+' is an operator"),
        ("module m(input a, output y);\nassign y = &a;\nendmodule", "c.v:2: beyond: '&' before a net"),
        ("module m(input a, output reg y);\n\nalways @(a) y = a;\nendmodule", "c.v:3: beyond: an always that is no plain"),
        ("module m(input a, output y);\nparameter W = 1;\nendmodule", "c.v:2: beyond: parameter is behaviour"),
        ("module m #(parameter W = 1)(input a);\nendmodule", "c.v:1: beyond: a module with parameters"),
        ("`ifdef X\nmodule m(input a);\nendmodule\n`endif", "c.v:1: beyond: `ifdef is not worked out here"),
        ("module m(input a, output y);\nnot g [3:0] (y, a);\nendmodule", "c.v:2: beyond: several gates by one name"),
        ("module m(input a, output y);\nfoo #(3) g(y, a);\nendmodule", "c.v:2: beyond: foo with parameters"),
        ("module m(input a, output y);\nnot (y, a)\nendmodule", "c.v:3: error: a ';' is missing before 'endmodule'"),
        ("module m(input a, output y);\nnot (y, a);\n", "error: the module m has no endmodule"),
        ("module m(input a, output y);\nnot (y, a); /* x\nendmodule", "c.v:2: error: a comment without its end"),
        ("module m(input a, output y);\nnot (y);\nendmodule", "c.v:2: error: not has 1 pins"),
        ("module m(input [1:0] a, output y);\nnot (y, a);\nendmodule", "c.v:2: error: a pin of not has 2 bits"),
        ("module m(input [1:0] a, output y);\nnot (y, a[2]);\nendmodule", "c.v:2: error: a has no bit 2"),
        ("module m(input [1:0] a, output y);\nnot (y, a[0:1]);\nendmodule", "c.v:2: error: a[0:1] runs against"),
        ("module m(input a, output y);\nnot (y, a);\nbuf (y, a);\nendmodule", "c.v:3: error: y is driven already, by line 2"),
        ("module m(input a, output y);\nnot (a, y);\nendmodule", "c.v:2: error: a is driven already, by an input"),
        ("module m(input a, output y);\nnot (y, b);\nendmodule", "c.v:2: error: nothing drives b"),
        ("module m(input a, output y);\nnot (1'b0, a);\nendmodule", "c.v:2: error: a constant is driven"),
        ("module m(input a, output y);\nassign y = y;\nendmodule", "c.v:2: error: y is assigned to itself"),
        ("module m(input a, output y);\nFOO u(.A(a), .Y(y));\nFOO v(.A(a), .Y(y));\nendmodule", "c.v:2: error: this cell and 1 more has the type FOO, and no library is given"),
        ("module m(a, y);\ninput a;\nnot (y, a);\nendmodule", "c.v:1: error: the port y has no direction"),
        ("module m(input a, output y);\ntri1 t;\nnot (y, a);\nendmodule", "c.v:2: error: tri1 is a pull"),
        ("module m(input a, output y);\nnot (highz0, strong1) (y, a);\nendmodule", "c.v:2: error: a gate that drives one value alone"),
        ("module m(input a, output y);\nl u(.p(a), .z(y));\nendmodule\nmodule l(input p, output q); buf (q, p); endmodule", "c.v:2: error: l has no port z"),
        ("module m(input a, output y);\nl u(a, y, y);\nendmodule\nmodule l(input p, output q); buf (q, p); endmodule", "c.v:2: error: 3 connections, l has 2 ports"),
        ("hello", "c.v:1: error: a 'module' is missing here"),
        ("", "error: no module: is it Verilog?"),
    ] {
        let said = said_of(text);
        assert!(said.contains(words), "{text}\n{said}");
    }
    // All at once.
    let said = said_of("module m(input a, output y);\nnot (y a);\nand ();\nwire 3;\nnmos (y, a, a);\nendmodule\n");
    for line in 2..=5 {
        assert!(said.contains(&format!("c.v:{line}: error: ")), "{said}");
    }
}

/// What is small in the file and large when it is built, and what is deep, in words and in little time.
#[test]
fn blocks_that_multiply_are_refused() {
    let room = Room::new("multiply");
    let mut verilog = "module b0(input a, output y); not (y, a); endmodule\n".to_string();
    let mut blif = ".model b0\n.inputs a\n.outputs y\n.names a y\n0 1\n.end\n".to_string();
    for at in 1..40 {
        let below = at - 1;
        verilog += &format!("module b{at}(input a, output y); wire [9:0] t;\n");
        blif += &format!(".model b{at}\n.inputs a\n.outputs y\n");
        for copy in 0..10 {
            verilog += &format!("b{below} u{copy}(a, t[{copy}]);\n");
            blif += &format!(".subckt b{below} a=a y=t{copy}\n");
        }
        verilog += "buf (y, t[0]); endmodule\n";
        blif += ".names t0 y\n1 1\n.end\n";
    }
    let brackets = format!("module m(input a, output y); assign y = {}a; endmodule", "(".repeat(1 << 20));
    let braces = format!("module m(input a, output y); assign y = {}a; endmodule", "{".repeat(1 << 20));
    let wide = "module m(input [2000000000:0] a, output y); not (y, a[0]); endmodule".to_string();
    let copies = "module m(input a, output y); wire [9:0] t; assign t = {40000{{40000{a}}}}; endmodule".to_string();
    let long = format!("module m(input a, output y); and (y{}); endmodule", ", a".repeat(1 << 20));
    let names = format!("module m(input a, output y); wire {}; endmodule", "n,".repeat(1 << 20));
    let chain: String = (0..20_000).map(|at| format!("module c{at}(input a); c{} u(a); endmodule\n", at + 1)).collect();
    for (name, text, words) in [
        ("a.v", verilog, "lines or a few more, the analyser takes"),
        ("a.blif", blif, "lines or a few more, the analyser takes"),
        ("b.v", brackets, "more than 100 brackets"),
        ("c.v", braces, "more than 100 brackets"),
        ("d.v", wide, "2,000,000,002 lines or a few more"),
        ("e.v", copies, "bits, far above what is read"),
        ("f.v", long, "a statement of more than"),
        ("g.v", names, "error: "),
        ("h.v", chain, "blocks within each other"),
    ] {
        let begun = worked();
        let (loaded, said) = load(&room.file(name, &text));
        assert!(loaded.is_none() && said.contains(words), "{name}: {said}");
        assert!(worked() - begun < 5.0, "{name}: {} s", worked() - begun);
    }
}

/// Damaged hierarchies and damaged Verilog: refused in words or read, never worse. FUZZ_SECONDS says for how long.
#[test]
fn damaged_blocks_end_well() {
    let room = Room::new("damaged_blocks");
    let seconds = std::env::var("FUZZ_SECONDS").ok().and_then(|text| text.parse().ok()).unwrap_or(3.0);
    let mut random = Random(0x5eed ^ (seconds as u64) << 20);
    let gates = std::fs::read_to_string(crate::common::example("recorder/breath.gates.v")).unwrap();
    let whole = [HIER.to_string(), C17.to_string(), format!("{S27}{HIER}"), gates, HIER_BLIF.to_string(), hier_json()];
    let words = [
        "module ",
        "endmodule",
        "wire ",
        "[3:0]",
        "assign ",
        " = ",
        "nand ",
        "(",
        ")",
        ";",
        ",",
        "{",
        "}",
        ".",
        "1'b0",
        "4'hx",
        "~",
        "&",
        "?",
        ":",
        "always @(posedge clk) ",
        "begin ",
        "end ",
        "supply0 ",
        "wand ",
        "input ",
        "inout ",
        "#",
        "\\$_TBUF_ ",
        "bufif1 ",
        "(* ",
        "*)",
        "/*",
        "`define",
        "fa ",
        "pair ",
        "chip ",
        ".model chip",
        ".subckt pair ",
        "\"type\": \"pair\"",
        "-1",
        "99999999999",
    ];
    let begun = worked();
    let (mut turns, mut refused) = (0, 0);
    while worked() - begun < seconds {
        turns += 1;
        let at = random.below(whole.len());
        let mut text = whole[at].clone().into_bytes();
        for _ in 0..1 + random.below(5) {
            let place = random.below(text.len());
            match random.below(6) {
                0 => text[place] = random.next() as u8,
                1 => text.truncate(place.max(1)),
                2 => drop(text.drain(place..(place + random.below(80)).min(text.len()))),
                3 => {
                    let part = text[place..(place + random.below(200)).min(text.len())].to_vec();
                    let to = random.below(text.len());
                    drop(text.splice(to..to, part));
                }
                _ => drop(text.splice(place..place, words[random.below(words.len())].bytes())),
            }
            if text.is_empty() {
                text.push(b'x');
            }
        }
        let one = worked();
        let said = if at < 4 {
            let text = String::from_utf8_lossy(&text).into_owned();
            by_verilog(&text)
        } else {
            let name = if at == 4 { "d.blif" } else { "d.json" };
            let path = room.0.join(name);
            std::fs::write(&path, &text).unwrap();
            let (loaded, said) = load(&crate::common::source(&path.display().to_string()));
            loaded.is_none().then_some(said)
        };
        assert!(worked() - one < 2.0);
        if let Some(said) = said {
            refused += 1;
            assert!(said.contains("error: ") && !said.contains("internal error"), "{said}");
        }
    }
    println!("{turns} damaged netlists, {refused} refused");
    assert!(turns > 50 && refused > turns / 8, "{refused} of {turns} refused");
}

/// Reads without Yosys: what is said of a text that is refused.
fn by_verilog(text: &str) -> Option<String> {
    let mut messages = Messages::new();
    let library = crate::common::example("recorder/recorder.lib");
    let lib = std::fs::read_to_string(&library).unwrap();
    let mut types = Types::new(vec![scoap_pads::read::liberty::read(&library, &lib, &mut messages)]);
    let wanted = structural::Wanted { top: None, allow_open: text.len() % 2 == 0 };
    let mut design = match structural::read("d.v", text, &wanted, &mut types, &mut messages) {
        Answer::Read(design) if messages.errors() == 0 => *design,
        Answer::Beyond(faults) => {
            assert!(faults.iter().any(|fault| fault.beyond));
            return Some("error: beyond".to_string());
        }
        _ => return Some(messages.text()),
    };
    let Ok(texts) = writer::write(&mut design, &mut messages) else { return Some(messages.text()) };
    let made = Model::new("d", texts.lib.clone().into_bytes(), texts.net.clone().into_bytes(), texts.names);
    assert!(made.is_ok(), "{text}\n{}", texts.net);
    None
}
