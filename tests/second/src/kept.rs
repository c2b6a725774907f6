//! A call with all that was lent to it, as a folder of files: the cases of tests/second/kept.

use std::fs;
use std::io;
use std::path::Path;

#[derive(Clone, Debug, Default, PartialEq, Eq)]
pub struct Case {
    /// The call's name without `scoap_`.
    pub call: String,
    /// Its numbers in the order of the header: line, value and kind; line and count; a budget.
    pub words: Vec<u64>,
    /// How much it may write: bytes of a text, or numbers of an answer.
    pub room: usize,
    pub lib: Vec<u8>,
    pub net: Vec<u8>,
    pub new_lib: Vec<u8>,
    /// The standing table as it is, or the forbidden lines.
    pub numbers: Vec<u32>,
}

impl Case {
    pub fn of(call: &str, [lib, net]: [&[u8]; 2], room: usize) -> Self {
        Case {
            call: call.to_string(),
            room,
            lib: lib.to_vec(),
            net: net.to_vec(),
            ..Case::default()
        }
    }

    /// `call.txt`: the name, its numbers, and last the room.
    fn head(&self) -> String {
        let numbers = self.words.iter().copied().chain([self.room as u64]);
        let numbers: String = numbers.map(|number| format!(" {number}")).collect();
        format!("{}{numbers}\n", self.call)
    }

    fn listed(&self) -> String {
        self.numbers
            .iter()
            .map(|number| format!("{number}\n"))
            .collect()
    }

    /// The same case always has the same name.
    fn name(&self) -> String {
        let (head, listed) = (self.head(), self.listed());
        let parts: [&[u8]; 5] = [
            head.as_bytes(),
            &self.lib,
            &self.net,
            &self.new_lib,
            listed.as_bytes(),
        ];
        // FNV-1a, a byte 0 after each part.
        let bytes = parts.into_iter().flat_map(|part| part.iter().chain([&0]));
        let hash = bytes.fold(0xcbf2_9ce4_8422_2325u64, |hash, &byte| {
            (hash ^ u64::from(byte)).wrapping_mul(0x0100_0000_01b3)
        });
        format!("{}-{hash:016x}", self.call)
    }

    /// Writes the case to a folder of its own within a folder, and answers its name.
    pub fn write(&self, within: &Path) -> io::Result<String> {
        let folder = within.join(self.name());
        fs::create_dir_all(&folder)?;
        fs::write(folder.join("call.txt"), self.head())?;
        for (file, text) in [
            ("lib.txt", &self.lib),
            ("net.txt", &self.net),
            ("new_lib.txt", &self.new_lib),
        ] {
            fs::write(folder.join(file), text)?;
        }
        fs::write(folder.join("numbers.txt"), self.listed())?;
        Ok(self.name())
    }

    /// Reads the case of a folder; none where a file is missing or has another form.
    pub fn read(folder: &Path) -> Option<Self> {
        let file = |name: &str| fs::read(folder.join(name)).ok();
        let text = |name: &str| String::from_utf8(file(name)?).ok();
        let head = text("call.txt")?;
        let mut parts = head.split_whitespace();
        let call = parts.next()?.to_string();
        let mut words: Vec<u64> = parts.map(|word| word.parse().ok()).collect::<Option<_>>()?;
        let room = words.pop()? as usize;
        let numbers = text("numbers.txt")?;
        Some(Case {
            call,
            words,
            room,
            lib: file("lib.txt")?,
            net: file("net.txt")?,
            new_lib: file("new_lib.txt")?,
            numbers: numbers
                .lines()
                .map(|line| line.parse().ok())
                .collect::<Option<_>>()?,
        })
    }
}

#[cfg(test)]
mod tests {
    use super::*;

    #[test]
    fn a_case_is_read_as_it_was_written() {
        let room = std::env::temp_dir().join(format!("kept-{}", std::process::id()));
        let plain = Case::of("report", [b"Name\0,\r\n\xff", b""], 65_536);
        let mut plan = Case::of("plan", [b"", b"input,1\n"], 0);
        plan.words = vec![u64::MAX, 2, 0];
        let mut change = Case::of("change", [b"a", b"b"], 0);
        change.new_lib = b"c\n".to_vec();
        change.numbers = vec![0, 7, u32::MAX];
        let cases = [plain, plan, change];
        let mut folders = Vec::new();
        for case in &cases {
            let name = case.write(&room).unwrap();
            let folder = room.join(&name);
            assert_eq!(Case::read(&folder).as_ref(), Some(case));
            assert_eq!(case.write(&room).unwrap(), name);
            folders.push(folder);
        }
        folders.dedup();
        assert_eq!(folders.len(), cases.len());
        fs::write(folders[0].join("call.txt"), "report\n").unwrap();
        assert_eq!(Case::read(&folders[0]), None);
        fs::remove_dir_all(&room).unwrap();
    }
}
