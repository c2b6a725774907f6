//! What the tests share.

use scoap_pads::ask::archive::{self, Numbers};
use scoap_pads::ask::model::Model;
use scoap_pads::read::load::{self, Loaded, Source};
use scoap_pads::show::messages::Messages;
use std::path::{Path, PathBuf};

pub fn root() -> PathBuf {
    Path::new(env!("CARGO_MANIFEST_DIR")).join("..")
}

pub fn example(name: &str) -> String {
    root().join("examples").join(name).display().to_string()
}

pub fn source(path: &str) -> Source {
    Source { path: path.to_string(), libraries: vec![example("recorder/recorder.lib")], ..Source::default() }
}

/// Loads a source, with what was said of it.
pub fn load(source: &Source) -> (Option<Loaded>, String) {
    let mut messages = Messages::new();
    let loaded = load::load(source, &mut messages).ok();
    (loaded, messages.text())
}

pub fn model(name: &str) -> Model {
    let (loaded, said) = load(&source(&example(name)));
    loaded.unwrap_or_else(|| panic!("{name}: {said}")).model
}

/// The numbers of a new report, with these lines as outputs: what pads on them must come to.
pub fn reported(model: &Model, pads: &[usize]) -> Numbers {
    let mut net = model.net.clone();
    for pad in pads {
        net.extend_from_slice(format!("output,{pad}\n").as_bytes());
    }
    archive::report(&model.lib, &net).expect("a pad that is accepted")
}

/// Everything that is checked in: netlists of each format, and folders of the analyser's texts.
pub const ALL: [&str; 14] = [
    "shift_register/c1.blif",
    "shift_register/c2.blif",
    "shift_register/c3.blif",
    "eight_inputs/eight_inputs.bench",
    "recorder/breath.json",
    "recorder/breath.blif",
    "recorder/afe_spi.json",
    "recorder/decim.json",
    "recorder/uart_log.json",
    "recorder/i2c_id.json",
    "c17",
    "c1130",
    "latch",
    "range",
];

/// A fixed sequence of numbers.
pub struct Random(pub u64);

impl Random {
    pub fn next(&mut self) -> u64 {
        self.0 ^= self.0 << 13;
        self.0 ^= self.0 >> 7;
        self.0 ^= self.0 << 17;
        self.0
    }

    pub fn below(&mut self, bound: usize) -> usize {
        (self.next() % bound.max(1) as u64) as usize
    }
}

/// Seconds that this thread has worked, whatever else the machine does.
pub fn worked() -> f64 {
    let stat = std::fs::read_to_string("/proc/thread-self/schedstat").unwrap_or_default();
    let nanoseconds: f64 = stat.split(' ').next().and_then(|field| field.parse().ok()).unwrap_or(0.0);
    nanoseconds / 1e9
}
