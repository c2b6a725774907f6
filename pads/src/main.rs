//! The program: runs a command, prints what it answers on standard output and all messages on standard error.

use scoap_pads::ask::archive;
use scoap_pads::show::commands;
use scoap_pads::show::messages::{printable, Messages};
use scoap_pads::show::text::{self, Stop};
use std::process::ExitCode;

/// All is done in a thread with a stack that is large enough for the calls, whatever the shell gives.
fn main() -> ExitCode {
    let stack = archive::stack();
    match std::thread::Builder::new().stack_size(stack).spawn(run).map(|thread| thread.join()) {
        Ok(Ok(status)) => status,
        // It has said why it panicked.
        Ok(Err(_)) => ExitCode::from(101),
        Err(e) => {
            eprintln!("scoap_pads: no thread with {} MB of stack: {e}", stack >> 20);
            ExitCode::from(2)
        }
    }
}

fn run() -> ExitCode {
    let given: Vec<String> = std::env::args_os().skip(1).map(|word| word.to_string_lossy().into_owned()).collect();
    let mut messages = Messages::new();
    let answer = commands::run(&given, &mut messages);
    messages.print();
    if let Some(json) = answer.as_ref().err().and_then(|stop| commands::stopped(&given, stop, &messages)) {
        // What cannot be printed is told below, as any other refusal.
        let _ = text::print(json.as_bytes());
    }
    let told = answer.and_then(|done| {
        let text = printable(&done.text);
        if done.aside {
            eprint!("{text}");
        } else {
            text::print(text.as_bytes())?;
        }
        Ok(done.status)
    });
    match told {
        Ok(status) => ExitCode::from(status),
        Err(Stop::Refused) => ExitCode::from(1),
        Err(Stop::Usage(words)) => {
            eprintln!("scoap_pads: {}", printable(&words));
            ExitCode::from(2)
        }
    }
}
