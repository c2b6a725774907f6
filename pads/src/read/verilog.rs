//! Verilog that is more than a netlist, read and flattened by Yosys where it is installed. Nothing is synthesised.

use crate::show::messages::Messages;
use crate::show::text::{self, Stop};
use std::path::Path;
use std::process::{Child, Command, Stdio};
use std::time::{Duration, Instant};

/// Yosys is given this long.
const MOST_TIME: Duration = Duration::from_secs(120);

/// Largest file that is handed to it.
pub const MOST_BYTES: usize = 16 << 20;
pub const NEEDED: &str = "Yosys would read this and is not installed (apt-get install --no-install-recommends yosys), or the \
                          file is above 16 MB: write a netlist of gates, or JSON where Yosys is, see 'scoap_pads --recipes'";

/// Whether Yosys is installed.
pub fn is_there() -> bool {
    let paths = std::env::var_os("PATH").unwrap_or_default();
    std::env::split_paths(&paths).any(|path| path.join("yosys").is_file())
}

pub fn to_json(path: &str, libraries: &[String], top: Option<&str>, messages: &mut Messages) -> Result<String, Stop> {
    let room = std::env::temp_dir().join(format!("scoap_pads.{}", std::process::id()));
    std::fs::create_dir_all(&room).map_err(|e| Stop::Usage(format!("{}: {e}", room.display())))?;
    let answer = run(path, libraries, top, &room, messages);
    let _ = std::fs::remove_dir_all(&room);
    answer
}

fn run(
    path: &str,
    libraries: &[String],
    top: Option<&str>,
    room: &Path,
    messages: &mut Messages,
) -> Result<String, Stop> {
    let json = room.join("netlist.json");
    let log = room.join("log");
    let script = script(path, libraries, top, &json.display().to_string())?;
    let made = std::fs::File::create(&log).and_then(|file| {
        Command::new("yosys")
            .args(["-q", "-p", &script])
            .stdin(Stdio::null())
            .stdout(file.try_clone()?)
            .stderr(file)
            .spawn()
    });
    let child = match made {
        Ok(child) => child,
        Err(e) if e.kind() == std::io::ErrorKind::NotFound => {
            messages.error(path, NEEDED);
            return Err(Stop::Refused);
        }
        Err(e) => return Err(Stop::Usage(format!("yosys: {e}"))),
    };
    let ended = wait(child);
    let said = std::fs::read(&log).map(|bytes| String::from_utf8_lossy(&bytes).into_owned()).unwrap_or_default();
    match ended {
        Some(true) => text::read(&json.display().to_string(), crate::read::blocks::MOST_BYTES, messages),
        other => {
            let why = if other.is_none() { "takes more than 120 seconds" } else { "does not read it" };
            let lines: Vec<&str> = said.lines().filter(|line| !line.trim().is_empty()).collect();
            let last = lines[lines.len().saturating_sub(5)..].join("\n  ");
            messages.error(path, format!("Yosys {why}:\n  {last}"));
            Err(Stop::Refused)
        }
    }
}

/// Quotes would end a name of the script.
fn script(path: &str, libraries: &[String], top: Option<&str>, json: &str) -> Result<String, Stop> {
    let mut script = String::new();
    for name in libraries.iter().map(String::as_str).chain([path]).chain(top) {
        if name.contains(['"', '\n', ';', '\\']) {
            return Err(Stop::Usage(format!("{name}: such a name can't be handed to Yosys")));
        }
    }
    for library in libraries {
        script += &format!("read_liberty -lib -ignore_miss_func \"{library}\"; ");
    }
    script += &format!("read_verilog -sv -icells \"{path}\"; ");
    script += &match top {
        Some(top) => format!("hierarchy -top {top}; "),
        None => "hierarchy -auto-top; ".to_string(),
    };
    script += &format!("proc; flatten; write_json \"{json}\"");
    Ok(script)
}

/// Whether it ended well; None where it took too long and was stopped.
fn wait(mut child: Child) -> Option<bool> {
    let begun = Instant::now();
    let mut told = false;
    loop {
        match child.try_wait() {
            Ok(Some(status)) => return Some(status.success()),
            Ok(None) if begun.elapsed() > MOST_TIME => {
                let _ = child.kill();
                let _ = child.wait();
                return None;
            }
            Ok(None) => {
                if begun.elapsed() > Duration::from_secs(1) && !std::mem::replace(&mut told, true) {
                    eprintln!("Yosys reads the Verilog ..");
                }
                std::thread::sleep(Duration::from_millis(10));
            }
            Err(_) => return Some(false),
        }
    }
}

#[cfg(test)]
mod tests {
    use super::*;

    #[test]
    fn names_that_would_end_the_script() {
        assert!(script("a\"; shell x; \".v", &[], None, "o.json").is_err());
        assert!(script("a.v", &["l;x".to_string()], None, "o.json").is_err());
        assert!(script("a b.v", &[], Some("chip"), "o.json").unwrap().contains("\"a b.v\""));
    }
}
