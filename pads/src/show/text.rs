//! Reading and writing files: bounded, line ends of other systems taken with a note, written through a new file.

use crate::ask::archive::lines_told;
use crate::show::messages::Messages;
use std::fs::{self, File, OpenOptions, Permissions};
use std::io::{ErrorKind, Read, Write};
use std::path::{Path, PathBuf};

/// A file cannot be read or written, or the command line is wrong: exit status 2. A refused input has its errors in the
/// messages: exit status 1.
#[derive(Debug, PartialEq, Eq)]
pub enum Stop {
    Usage(String),
    Refused,
}

/// The content of a file of at most `most` bytes, without a byte-order mark, lines ended by LF.
pub fn read(path: &str, most: usize, messages: &mut Messages) -> Result<String, Stop> {
    let cannot = |e: std::io::Error| Stop::Usage(format!("{path}: can't be read: {e}"));
    let file = File::open(path).map_err(cannot)?;
    if file.metadata().map_err(cannot)?.is_dir() {
        return Err(Stop::Usage(format!("{path}: can't be read: it is a folder")));
    }
    let bytes = whole(file, most).map_err(cannot)?;
    if bytes.len() > most {
        let words = format!("more than {} MB, which is far above what {} take", most >> 20, lines_told());
        messages.error(path, words);
        return Err(Stop::Refused);
    }
    Ok(cleaned(path, bytes, messages))
}

/// The bytes of a file, at most one more than `most`; memory grows by as much as is read, never by doubling.
fn whole(mut file: File, most: usize) -> std::io::Result<Vec<u8>> {
    const STEP: usize = 1 << 20;
    let mut bytes = Vec::new();
    let length = file.metadata()?.len().min(most as u64) as usize;
    bytes.reserve_exact(length + 1);
    while bytes.len() <= most {
        let step = STEP.min(most + 1 - bytes.len());
        if bytes.capacity() - bytes.len() < step {
            bytes.reserve_exact(step);
        }
        if (&mut file).take(step as u64).read_to_end(&mut bytes)? == 0 {
            break;
        }
    }
    Ok(bytes)
}

/// Takes a byte-order mark and CR LF away, and says so; bytes that are no UTF-8 become question marks. All in place.
pub fn cleaned(path: &str, mut bytes: Vec<u8>, messages: &mut Messages) -> String {
    if bytes.starts_with(b"\xef\xbb\xbf") {
        bytes.drain(..3);
        messages.note(format!("{path} begins with a byte-order mark, which is passed over"));
    }
    if bytes.contains(&b'\r') {
        messages.note(format!("{path} has lines that end with CR LF, which is passed over"));
        // A CR alone ends a line, too.
        for at in 0..bytes.len() {
            if bytes[at] == b'\r' && bytes.get(at + 1) != Some(&b'\n') {
                bytes[at] = b'\n';
            }
        }
        bytes.retain(|&b| b != b'\r');
    }
    let mut from = 0;
    let mut odd = false;
    while let Err(e) = std::str::from_utf8(&bytes[from..]) {
        let at = from + e.valid_up_to();
        let end = e.error_len().map_or(bytes.len(), |length| at + length);
        bytes[at..end].fill(b'?');
        (from, odd) = (end, true);
    }
    if odd {
        messages.note(format!("{path} has bytes that are no UTF-8; they are shown as ?"));
    }
    String::from_utf8(bytes).unwrap_or_default()
}

/// A file of the command line that means standard output.
pub fn is_standard_output(path: &str) -> bool {
    ["-", "/dev/stdout", "/dev/fd/1", "/proc/self/fd/1"].contains(&path)
}

/// Writes a file, or standard output for `-`. A regular file is written anew and renamed, so that a half-written one never
/// stands under the name; what is none, a device or a FIFO, is opened and written.
pub fn write(path: &str, content: &[u8]) -> Result<(), Stop> {
    if is_standard_output(path) {
        return print(content);
    }
    let cannot = |e: std::io::Error| Stop::Usage(format!("{path}: can't be written: {e}"));
    let place = resolved(Path::new(path)).map_err(cannot)?;
    match fs::metadata(&place) {
        Ok(there) if there.is_file() => replace(&place, content, Some(there.permissions())),
        Ok(_) => OpenOptions::new().write(true).open(&place).and_then(|mut file| file.write_all(content)),
        Err(e) if e.kind() == ErrorKind::NotFound => replace(&place, content, None),
        Err(e) => Err(e),
    }
    .map_err(cannot)
}

/// Writes to standard output. A reader that has seen enough may close its end; that is no error.
pub fn print(content: &[u8]) -> Result<(), Stop> {
    let mut out = std::io::stdout().lock();
    match out.write_all(content).and_then(|()| out.flush()) {
        Err(e) if e.kind() != ErrorKind::BrokenPipe => {
            Err(Stop::Usage(format!("standard output: can't be written: {e}")))
        }
        _ => Ok(()),
    }
}

/// Where a name leads through links, there or not.
fn resolved(path: &Path) -> std::io::Result<PathBuf> {
    const MOST_LINKS: usize = 40;
    let mut place = path.to_path_buf();
    for _ in 0..MOST_LINKS {
        match fs::symlink_metadata(&place) {
            // What a link of /proc names need not be a path.
            Ok(there) if there.is_symlink() && !place.starts_with("/proc") => {
                let to = fs::read_link(&place)?;
                place = place.parent().unwrap_or(Path::new("")).join(to);
            }
            _ => return Ok(place),
        }
    }
    Err(std::io::Error::other("too many links"))
}

fn replace(place: &Path, content: &[u8], permissions: Option<Permissions>) -> std::io::Result<()> {
    let name = place.file_name().ok_or_else(|| std::io::Error::other("it is no name of a file"))?;
    let mut new = name.to_os_string();
    new.push(format!(".new{}", std::process::id()));
    let new = place.with_file_name(new);
    let written = File::create(&new).and_then(|mut file| {
        file.write_all(content)?;
        permissions.map_or(Ok(()), |permissions| file.set_permissions(permissions))?;
        // What does not fit on the disk may be told only here.
        file.sync_all()
    });
    let done = written.and_then(|()| fs::rename(&new, place));
    if done.is_err() {
        let _ = fs::remove_file(&new);
    }
    done
}

#[cfg(test)]
mod tests {
    use super::*;

    #[test]
    fn marks_and_line_ends() {
        let mut messages = Messages::new();
        let text = cleaned("a", b"\xef\xbb\xbfone\r\ntwo".to_vec(), &mut messages);
        assert_eq!(text, "one\ntwo");
        assert_eq!(messages.text().lines().count(), 2);
        assert_eq!(cleaned("a", b"x\xff\xc3\xa4\xc3".to_vec(), &mut messages), "x?ä?");
        assert_eq!(cleaned("a", b"a\rb\r\nc".to_vec(), &mut messages), "a\nb\nc");
    }

    #[test]
    fn links_are_kept_and_devices_written() {
        let room = std::env::temp_dir().join(format!("scoap_pads.text.{}", std::process::id()));
        fs::create_dir_all(&room).unwrap();
        let at = |name: &str| room.join(name).display().to_string();
        write(&at("a"), b"one").unwrap();
        std::os::unix::fs::symlink("a", at("link")).unwrap();
        std::os::unix::fs::symlink("b", at("dangling")).unwrap();
        write(&at("link"), b"two").unwrap();
        write(&at("dangling"), b"three").unwrap();
        let is_link = |name: &str| fs::symlink_metadata(at(name)).unwrap().is_symlink();
        assert!(is_link("link") && is_link("dangling"));
        assert_eq!([fs::read(at("a")).unwrap(), fs::read(at("b")).unwrap()], [b"two".to_vec(), b"three".to_vec()]);
        write("/dev/null", b"x").unwrap();
        assert!(matches!(write("/dev/full", b"x"), Err(Stop::Usage(_))));
        assert!(matches!(write(&room.display().to_string(), b"x"), Err(Stop::Usage(_))));
        std::os::unix::fs::symlink("ring", at("ring")).unwrap();
        assert!(matches!(write(&at("ring"), b"x"), Err(Stop::Usage(_))));
        // Nothing of the way is left.
        assert_eq!(fs::read_dir(&room).unwrap().count(), 5);
        fs::remove_dir_all(&room).unwrap();
    }

    #[test]
    fn no_file() {
        let mut messages = Messages::new();
        assert!(matches!(read("/nowhere/at/all", 10, &mut messages), Err(Stop::Usage(_))));
        assert!(matches!(read("/", 10, &mut messages), Err(Stop::Usage(_))));
    }
}
