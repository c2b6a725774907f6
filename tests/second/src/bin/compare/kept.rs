//! Calls on which the two sides once differed: each is kept in a folder of tests/second/kept, and compared again in
//! every run.

use crate::advice;
use crate::budgets;
use crate::comparison::Comparison;
use crate::numbered;
use crate::pads::calls::{Call, Lending};
use crate::pads::tally::Lists;
use crate::tables;
use second::kept::Case;
use std::path::{Path, PathBuf};

/// So many are kept of one run: a wrong archive differs everywhere.
const MOST: usize = 5;

fn folder() -> PathBuf {
    Path::new(env!("CARGO_MANIFEST_DIR")).join("kept")
}

impl Comparison {
    /// Compares a call; where that fails, the call is kept.
    pub fn keeping<T>(
        &mut self,
        case: impl FnOnce() -> Case,
        compare: impl FnOnce(&mut Self) -> T,
    ) -> T {
        let failed = self.failed;
        let result = compare(self);
        if self.failed > failed && self.kept < MOST {
            self.kept += 1;
            match case().write(&folder()) {
                Ok(name) => println!("  kept in tests/second/kept/{name}"),
                Err(error) => println!("  not kept: {error}"),
            }
        }
        result
    }
}

/// A kept call on both sides.
fn compare(all: &mut Comparison, label: &str, case: &Case) -> Option<()> {
    let (lib, net) = (&case.lib[..], &case.net[..]);
    let numbered = || numbered::Lending {
        lib: case.lib.clone(),
        net: case.net.clone(),
        read: case.numbers.clone(),
        room: case.room,
    };
    let standing = |call: Call| Lending {
        lib: case.lib.clone(),
        new_lib: case.new_lib.clone(),
        net: case.net.clone(),
        table: case.numbers.clone(),
        answer: if call.index() == 1 { case.room } else { 0 },
        report: if call.index() == 0 { case.room } else { 0 },
    };
    let call = match (&case.call[..], &case.words[..]) {
        ("report", []) => {
            all.check(label, lib, net, case.room, None);
            return Some(());
        }
        ("qualifies", []) => {
            all.check_qualifies(label, lib, net);
            return Some(());
        }
        ("plan", &[line, value, kind]) => {
            all.check_plan(label, [lib, net], [line, value, kind], case.room);
            return Some(());
        }
        ("cell", []) => {
            tables::table(all, lib, case.room);
            return Some(());
        }
        ("built_in", []) => {
            tables::built_in(all, case.room);
            return Some(());
        }
        ("best", &[budget]) => {
            budgets::check(all, label, &numbered(), budget);
            return Some(());
        }
        ("advise", []) => {
            advice::Call::Advise.check(all, label, &numbered());
            return Some(());
        }
        ("rank", []) => {
            advice::Call::Rank.check(all, label, &numbered());
            return Some(());
        }
        ("stand", []) => Call::Stand,
        ("ask", &[line]) => Call::Ask { line },
        ("commit", &[line, count]) => Call::Commit { line, count },
        ("change", []) => Call::Change,
        _ => return None,
    };
    Lists::of(all).check(label, &standing(call), call);
    Some(())
}

/// All kept calls.
pub fn kept(all: &mut Comparison) {
    let mut folders: Vec<PathBuf> = std::fs::read_dir(folder())
        .map(|entries| entries.flatten().map(|entry| entry.path()).collect())
        .unwrap_or_default();
    folders.retain(|path| path.is_dir());
    folders.sort();
    for folder in &folders {
        let name = folder.file_name().unwrap_or_default();
        let label = format!("kept/{}", name.to_string_lossy());
        let found = Case::read(folder).and_then(|case| compare(all, &label, &case));
        let problem = found.is_none().then(|| "is no case".to_string());
        all.verdict(&label, problem);
    }
    println!("{} kept calls", folders.len());
}
