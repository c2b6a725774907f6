//! The calls of the proved archive; include/scoap.h describes them, and ../../calls declares them. Only programs that link
//! the archive may make them.
#![allow(dead_code)] // each of these programs makes some

use second::record::{self, Given};

static CALLS: scoap_calls::Calls = scoap_calls::linked!("scoap_");

/// Makes a call, and writes it down where it is to be recorded.
macro_rules! recorded {
    ($name:literal, [$($given:ident),*], $call:expr) => {{
        let mut before = record::wanted().then(Vec::new);
        if let Some(before) = &mut before {
            $($given.put(before);)*
        }
        let answer = $call;
        if let Some(before) = before {
            let mut after = Vec::with_capacity(before.len());
            $($given.put(&mut after);)*
            record::write($name, &before, &after, answer);
        }
        answer
    }};
}

pub fn scoap_report(lib: &[u8], net: &[u8], report: &mut [u8]) -> u64 {
    recorded!(
        "scoap_report",
        [lib, net, report],
        CALLS.report(lib, net, report)
    )
}

pub fn scoap_cell(line: &[u8], entry: &mut [u8]) -> u64 {
    recorded!("scoap_cell", [line, entry], CALLS.cell(line, entry))
}

pub fn scoap_built_in(text: &mut [u8]) -> u64 {
    recorded!("scoap_built_in", [text], CALLS.built_in(text))
}

pub fn scoap_plan(
    lib: &[u8],
    net: &[u8],
    line: u64,
    value: u64,
    kind: u64,
    text: &mut [u8],
) -> u64 {
    recorded!(
        "scoap_plan",
        [lib, net, line, value, kind, text],
        CALLS.plan(lib, net, line, value, kind, text)
    )
}

pub fn scoap_qualifies(lib: &[u8], net: &[u8]) -> u64 {
    recorded!("scoap_qualifies", [lib, net], CALLS.qualifies(lib, net))
}

pub fn scoap_stand(lib: &[u8], net: &[u8], standing: &mut [u32], report: &mut [u8]) -> u64 {
    recorded!(
        "scoap_stand",
        [lib, net, standing, report],
        CALLS.stand(lib, net, standing, report)
    )
}

pub fn scoap_ask(lib: &[u8], net: &[u8], standing: &[u32], line: u64, answer: &mut [u32]) -> u64 {
    recorded!(
        "scoap_ask",
        [lib, net, standing, line, answer],
        CALLS.ask(lib, net, standing, line, answer)
    )
}

pub fn scoap_commit(lib: &[u8], net: &[u8], standing: &mut [u32], line: u64, count: u64) -> u64 {
    recorded!(
        "scoap_commit",
        [lib, net, standing, line, count],
        CALLS.commit(lib, net, standing, line, count)
    )
}

pub fn scoap_change(lib: &[u8], new_lib: &[u8], net: &[u8], standing: &mut [u32]) -> u64 {
    recorded!(
        "scoap_change",
        [lib, new_lib, net, standing],
        CALLS.change(lib, new_lib, net, standing)
    )
}

pub fn scoap_best(lib: &[u8], net: &[u8], budget: u64, best: &mut [u32]) -> u64 {
    recorded!(
        "scoap_best",
        [lib, net, budget, best],
        CALLS.best(lib, net, budget, best)
    )
}

pub fn scoap_advise(lib: &[u8], net: &[u8], forbidden: &[u32], answer: &mut [u32]) -> u64 {
    recorded!(
        "scoap_advise",
        [lib, net, forbidden, answer],
        CALLS.advise(lib, net, forbidden, answer)
    )
}

pub fn scoap_rank(lib: &[u8], net: &[u8], forbidden: &[u32], ranks: &mut [u32]) -> u64 {
    recorded!(
        "scoap_rank",
        [lib, net, forbidden, ranks],
        CALLS.rank(lib, net, forbidden, ranks)
    )
}
