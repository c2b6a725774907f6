//! What `--help` and `--recipes` print.

pub const GENERAL: &str = "\
scoap_pads: from a chip's netlist to its pads

    scoap_pads import SOURCE -o DIR     write lib.txt, net.txt and names.csv
    scoap_pads check  SOURCE            counts, limits used, cells, warnings; no numbers
    scoap_pads report SOURCE            the hardest nets
    scoap_pads why    SOURCE NET        the reason for a number, step by step
    scoap_pads pad    SOURCE NET..      numbers before and after these pads together
    scoap_pads advise SOURCE            which nets should get pads
    scoap_pads page   SOURCE -o FILE    a page to look at: profiles, table, reasons, pads
    scoap_pads --recipes                command lines of Yosys that make a netlist

'scoap_pads COMMAND --help' says more of each.

SOURCE is a netlist (.json of Yosys, .blif, .bench, .v of gates and cells; other Verilog through Yosys) of at most
128 MB, or a folder with lib.txt, net.txt and, if there, names.csv. Options of a netlist:
    -l FILE         a Liberty or genlib library; may stand several times
    --top NAME      the block to take, with all blocks in it; else the one that is in no other
    --clock NAME    the input that clocks registers whose format has no clock
    --open          nets without a driver become open lines
    --box TYPE      cells of this type stay closed, a memory or a converter: what they give becomes inputs, what they
                    take outputs; may stand several times
    --price FILE    what inputs and outputs of boxes cost: lines net,LOW,HIGH, each price 1 to 999; # starts a comment
    --format WORD   json, blif, bench or v, whatever the file's ending
Every command takes --json: the same answer as JSON on standard output, refusals too (docs/JSON.md).
NET is a name, an alias, line:N, or a pattern with * where several nets are meant. A net that the designer did not name is
called by what it feeds: rx[2].d~3 is the third of such nets before pin D of rx[2]; its own name is an alias.

Every number comes from the proved analyser; sums, orders and counts are this program's own.
Exit status: 0 done; 1 the input is refused; 2 usage, or a file can't be read or written; 3 --fail-above is broken.
";

pub const IMPORT: &str = "\
scoap_pads import SOURCE -o DIR

Writes the analyser's texts of a netlist into the folder DIR: lib.txt, net.txt and names.csv, which has one record
for each line: line,net,kind,cell,instance,output,pins,aliases,source. The folder is a SOURCE of every command; a
names.csv of your own needs the columns line and net, by the words of its head, in any order.
";

pub const CHECK: &str = "\
scoap_pads check SOURCE

Counts lines by kind, says which limits of the analyser are used how far, lists the cells with the types that share
them, and tells warnings. No numbers. Where the netlist has more functions than the analyser takes, it says how many are
written by others, with pins in another order and inverters of depth 0: every number of every net is the same.
";

pub const REPORT: &str = "\
scoap_pads report SOURCE [--by KEY] [--worst N] [--min N] [--registers] [--csv FILE] [--fail-above N]
                         [--protect FILE] [--protect-depth N] [--inputs-too]

The nets in order: never, over, then the hardest fault, the larger of CC1 + CO and CC0 + CO.
    --by KEY          fault (as above), cc0, cc1, sc0, sc1, co, so, or gain
    --worst N         so many nets (20 if not said)
    --min N           only nets whose hardest fault is at least N
    --registers       only registers
    --csv FILE        every line of the netlist:
                      net,line,kind,cc0,cc1,sc0,sc1,co,so,hardest,gain,aliases,protected,upstream,source
    --fail-above N    exit status 3 where a net that is read has CO or hardest fault above N, over or never
    --protect FILE    mark these nets, what carries their values, and how far upstream of them the others are; with
                      --protect-depth N and --inputs-too as 'advise' has them
Gain is how much the CO figures of all nets fall together if this net gets a pad; +2 says that two nets besides are
freed of never or over; a dash stands where no pad can be. Constants, parts of split gates and nets that nothing reads
are not ranked. With ranges every number is the one at LOW.
";

pub const WHY: &str = "\
scoap_pads why SOURCE NET [--of NUMBER] [--steps N]

The reason for a number: the gate, the pins' values, and the terms that add up to it; then the same of the dearest
term, N steps in all (4 if not said).
    --of NUMBER       cc0, cc1, sc0, sc1, co or so; else the dearer part of the net's hardest fault
";

pub const PAD: &str = "\
scoap_pads pad SOURCE NET.. [--protect FILE] [--protect-depth N]

Numbers before and after, if these nets get pads together: which nets become easier to see, and by how much. Of several
nets, as of a pattern 'rx*', a table before it says what each alone would do. With
--protect it says which of them are protected, which pads carry a protected value, how far upstream the others are, and
which of them 'advise' would rule out, by --protect-depth N as it has it.
A pad is an output: it changes CO and SO alone.
";

pub const ADVISE: &str = "\
scoap_pads advise SOURCE [--pads N] [--forbid FILE] [--protect FILE] [--protect-depth N] [--inputs-too] [--csv FILE]

Pads one after another (N, 1 if not said), each the one that leaves the fewest nets never seen, then over, then the
smallest largest CO, then the smallest sum of CO; the lowest line among equals.
    --forbid FILE     these nets get no pad
    --protect FILE    no pad may make one of these nets easier to see (CO or SO), or carry its value: the data of its
                      register, and what buffers and inverters only hand on
    --protect-depth N how far upstream of a protected net no pad may be: 0 that net alone, 1 what carries its value (if
                      not said), 2 and more so many less one real gates or registers further
    --inputs-too      inputs may get a pad; else nets that a gate drives and something reads, and registers
    --csv FILE        every candidate for the first pad: net, instance, gain, largest CO after, nets that become
                      easier to see, protected ones that it touches, whether it is allowed, how far upstream it is, line
A FILE of nets has one net or pattern a line; # starts a comment. With ranges a pad touches a protected net where the
net's CO at HIGH without it is above that at LOW with this pad alone. Below each pad stands the answer of the proved
adviser, scoap_advise, beside the pads before it and among the lines that are left: by the largest CO alone.
";

pub const PAGE: &str = "\
scoap_pads page SOURCE -o FILE.html [--pad NET].. [--forbid FILE] [--protect FILE] [--protect-depth N] [--inputs-too]

Writes one self-contained page: the six profiles, the table of nets, and of each net the reasons for its numbers as a
tree and what a pad on it would change. It needs no network. What is shown stands in the address behind #, so that a
view can be sent.
    --pad NET         this net has a pad already; may stand several times
    --forbid FILE     nets that get no pad, marked
    --protect FILE    nets that no pad may make easier to see, marked; --protect-depth N and --inputs-too as 'advise' has
                      them
";

pub const RECIPES: &str = "\
# RTL, generic gates
yosys -p \"read_verilog CHIP.v; hierarchy -check -top CHIP; proc; tribuf; synth -flatten -top CHIP; opt_clean -purge; autoname; write_json CHIP.json\"
# RTL, a cell library; use the Verilog written here for layout, so that names agree
yosys -p \"read_liberty -lib L; read_verilog CHIP.v; hierarchy -check -top CHIP; proc; tribuf; synth -flatten -top CHIP; dfflibmap -liberty L; abc -liberty L; opt_clean -purge; autoname; write_json CHIP.json; write_verilog -noattr -noexpr CHIP.gates.v\"
# a gate-level netlist that you have
yosys -p \"read_liberty -lib L; read_verilog -icells CHIP.v; hierarchy -check -top CHIP; flatten; write_json CHIP.json\"
";

/// The help of a command.
pub fn of(command: &str) -> Option<&'static str> {
    Some(match command {
        "import" => IMPORT,
        "check" => CHECK,
        "report" => REPORT,
        "why" => WHY,
        "pad" => PAD,
        "advise" => ADVISE,
        "page" => PAGE,
        _ => return None,
    })
}
