//! Names the proved archives to the linker, and writes the list of them: their calls, their sizes out of their headers, and
//! the same calls as WebAssembly for the page; where there is no WebAssembly the page is still. All names are relative to this
//! folder:
//!     SCOAP_ARCHIVE   the published archive, else ../target/staticlib/libscoap_c.a
//!     SCOAP_HEADER    its header, else ../include/scoap.h
//!     SCOAP_JS        its WebAssembly, else ../target/wasm/scoap.js
//!     SCOAP_LARGE     folders large-N of larger analysers, with spaces between them, else none; `make pads` names what
//!                     `make large` has built

use std::env;
use std::fmt::Write;
use std::fs;
use std::path::{Path, PathBuf};

/// An archive, its header, its WebAssembly, and the N in the names of its calls, if there is one.
struct Files {
    archive: PathBuf,
    header: PathBuf,
    js: PathBuf,
    named: String,
}

/// What the list says of an analyser, by the header's name for it.
const SIZES: [(&str, &str); 9] = [
    ("lines", "LINES"),
    ("bytes", "MOST_TEXT"),
    ("report_room", "MOST_REPORTS"),
    ("entry_room", "MOST_ENTRY"),
    ("refused", "REFUSED"),
    ("standing", "STANDING"),
    ("standing_numbers", "STANDING_NUMBERS"),
    ("observed", "OBSERVED"),
    ("plan_stack", "PLAN_STACK"),
];

fn main() {
    let here = PathBuf::from(env::var("CARGO_MANIFEST_DIR").unwrap());
    let named = |name: &str, usual: &str| {
        println!("cargo:rerun-if-env-changed={name}");
        env::var(name).unwrap_or_else(|_| usual.to_string())
    };
    println!("cargo:rerun-if-changed=build.rs");
    let mut all = vec![Files {
        archive: here.join(named("SCOAP_ARCHIVE", "../target/staticlib/libscoap_c.a")),
        header: here.join(named("SCOAP_HEADER", "../include/scoap.h")),
        js: here.join(named("SCOAP_JS", "../target/wasm/scoap.js")),
        named: String::new(),
    }];
    for place in named("SCOAP_LARGE", "").split_whitespace() {
        let lines = place.trim_end_matches('/').rsplit_once("large-").map_or("", |(_, lines)| lines);
        let place = here.join(place);
        all.push(Files {
            archive: place.join(format!("lib/libscoap_{lines}_c.a")),
            header: place.join(format!("include/scoap_{lines}.h")),
            js: place.join(format!("lib/scoap_{lines}.js")),
            named: format!("{lines}_"),
        });
    }
    let mut analysers: Vec<(usize, String)> = all.iter().map(|files| analyser(files, &all[0].header)).collect();
    analysers.sort();
    let list: String = analysers.iter().map(|(_, words)| words.as_str()).collect();
    let text = format!("pub static ANALYSERS: [Analyser; {}] = [\n{list}];\n", analysers.len());
    fs::write(out("analysers.rs"), text).expect("a file in the folder of the build");
}

fn out(name: &str) -> PathBuf {
    Path::new(&env::var("OUT_DIR").unwrap()).join(name)
}

/// A change of the file builds the program anew.
fn read(file: &Path) -> Option<String> {
    println!("cargo:rerun-if-changed={}", file.display());
    fs::read_to_string(file).ok()
}

/// The lines of an analyser, and its entry in the list.
fn analyser(files: &Files, published: &Path) -> (usize, String) {
    let header = read(&files.header).unwrap_or_else(|| panic!("{}: can't be read", files.header.display()));
    // What was built of another state of the calls would be called by wrong declarations.
    let own = read(published).unwrap_or_default();
    if prototypes(&header, &files.named) != prototypes(&own, "") {
        panic!("{}: has other calls than {}: build it again", files.header.display(), published.display());
    }
    println!("cargo:rerun-if-changed={}", files.archive.display());
    println!("cargo:rustc-link-arg={}", files.archive.display());
    let js = out(&format!("scoap_{}.js", files.named));
    fs::write(&js, read(&files.js).unwrap_or_default()).expect("a file in the folder of the build");
    let mut entry = format!("Analyser {{\n    calls: scoap_calls::linked!(\"scoap_{}\"),\n", files.named);
    for (field, name) in SIZES {
        let size = number(&header, &format!("SCOAP_{}{name}", files.named.to_uppercase()));
        let size = size.unwrap_or_else(|| panic!("{}: has no {name}", files.header.display()));
        let _ = writeln!(entry, "    {field}: {size},");
    }
    let _ = writeln!(entry, "    js: include_str!({js:?}),\n}},");
    (number(&header, &format!("SCOAP_{}LINES", files.named)).unwrap_or(0), entry)
}

/// The number of `#define NAME NUMBERu`.
fn number(header: &str, name: &str) -> Option<usize> {
    let rest = header.lines().find_map(|line| line.strip_prefix("#define ")?.strip_prefix(name)?.strip_prefix(' '))?;
    rest.trim_end_matches('u').parse().ok()
}

/// What a header declares, without the N in the names.
fn prototypes(header: &str, named: &str) -> Vec<String> {
    let begin = format!("\nuint64_t scoap_{named}");
    let declared = header.split(&begin).skip(1).filter_map(|rest| rest.split_once(';'));
    declared.map(|(call, _)| call.split_whitespace().collect::<Vec<_>>().join(" ")).collect()
}
