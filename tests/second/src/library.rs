//! The cell library: at most 32 entries of six lines.

use crate::refusal::{
    BIT_ABOVE, CELLS_MANY, GROUPS_BAD, LIBRARY_FORM, NAME_USED, PINS_BAD, ROW_IDLE,
};
use crate::text::{self, Line, Lines, Name};
use crate::Refusal;

pub const MOST_CELLS: usize = 32;
pub const MOST_PINS: usize = 8;
pub const MOST_ROWS: usize = 16;

/// The rows of a group: where they stand in the library's one list of rows. A group may have none.
#[derive(Clone, Copy, Default)]
pub struct Group {
    start: u32,
    end: u32,
}

impl Group {
    fn is_empty(&self) -> bool {
        self.start == self.end
    }
}

/// The numbers of one kind, combinational or sequential: how a cell's output is set to 0 and to 1,
/// and how each pin is observed.
#[derive(Clone, Copy, Default)]
pub struct Ways {
    pub set: [Group; 2],
    pub observe: [Group; MOST_PINS],
}

/// One way to set or observe: what it adds to the sum of its columns, and the columns that it names,
/// whatever bits its entry gives to the depth.
#[derive(Clone, Copy, PartialEq)]
pub struct Row {
    pub depth: u32,
    /// From bit 0: the last pin at 1, the last pin at 0, and on to the output.
    pub columns: u32,
}

pub struct Cell {
    pub name: Name,
    pub pins: usize,
    /// The lowest bits of each row, as the entry writes it, that are its depth.
    pub depth_bits: u32,
    /// None of its rows names both values of one pin.
    pub one_wire: bool,
    pub combinational: Ways,
    pub sequential: Ways,
}

#[derive(Default)]
pub struct Library {
    pub cells: Vec<Cell>,
    rows: Vec<Row>,
}

impl Library {
    pub fn rows(&self, group: Group) -> &[Row] {
        &self.rows[group.start as usize..group.end as usize]
    }

    /// The index of the cell of this name.
    pub fn find(&self, name: &Name) -> Option<usize> {
        self.cells.iter().position(|cell| cell.name == *name)
    }
}

/// What a line's rows are for.
#[derive(Clone, Copy, PartialEq)]
enum Use {
    Set,
    Observe,
}

pub fn read(text: &[u8]) -> Result<Library, Refusal> {
    let mut library = Library::default();
    let mut lines = Lines::of(text);
    // The groups of the line read last; one list serves every line.
    let mut groups = Vec::new();
    while let Some(line) = lines.next() {
        let (name, pins, form) = name_line(&line, &library).map_err(at(line.number))?;
        let first = library.rows.len();
        let mut cell = Cell {
            name,
            pins,
            depth_bits: form.depth_bits,
            one_wire: true,
            combinational: Ways::default(),
            sequential: Ways::default(),
        };
        for (word, purpose) in [
            ("CC", Use::Set),
            ("CO", Use::Observe),
            ("SC", Use::Set),
            ("SO", Use::Observe),
        ] {
            let line = within(&mut lines)?;
            let rows = &mut library.rows;
            rows_line(&line, word, purpose, pins, form, rows, &mut groups)
                .map_err(at(line.number))?;
            let ways = match word {
                "CC" | "CO" => &mut cell.combinational,
                _ => &mut cell.sequential,
            };
            match purpose {
                Use::Set => ways.set.copy_from_slice(&groups),
                Use::Observe => ways.observe[..pins].copy_from_slice(&groups),
            }
        }
        let line = within(&mut lines)?;
        if !line.ended || line.bytes != b"End" {
            return Err(Refusal {
                number: LIBRARY_FORM,
                line: line.number,
            });
        }
        cell.one_wire = !library.rows[first..]
            .iter()
            .any(|row| both_values(row.columns, pins));
        library.cells.push(cell);
    }
    Ok(library)
}

/// Whether columns name a pin at 0 and at 1.
fn both_values(columns: u32, pins: usize) -> bool {
    (0..pins).any(|pin| columns >> (2 * pin) & 3 == 3)
}

fn at(line: u32) -> impl Fn(u32) -> Refusal {
    move |number| Refusal { number, line }
}

/// The next line of an entry. An entry broken off by the end is bad form at the line after the last.
fn within<'a>(lines: &mut Lines<'a>) -> Result<Line<'a>, Refusal> {
    let after = lines.number() + 1;
    lines.next().ok_or(Refusal {
        number: LIBRARY_FORM,
        line: after,
    })
}

/// How the rows of an entry are written.
#[derive(Clone, Copy)]
struct Form {
    depth_bits: u32,
    most_digits: usize,
}

/// `Name,NAME,n` or `Name3,NAME,n`.
fn name_line(line: &Line, library: &Library) -> Result<(Name, usize, Form), u32> {
    let mut fields = text::fields(line.bytes);
    let form = match fields.next() {
        Some(b"Name") => Some(Form {
            depth_bits: 1,
            most_digits: 7,
        }),
        Some(b"Name3") => Some(Form {
            depth_bits: 3,
            most_digits: 8,
        }),
        _ => None,
    };
    let name = fields.next().and_then(text::name);
    let pins = fields.next().and_then(text::decimal);
    let (Some(form), Some(name), Some(pins), None, true) =
        (form, name, pins, fields.next(), line.ended)
    else {
        return Err(LIBRARY_FORM);
    };
    if library.find(&name).is_some() {
        return Err(NAME_USED);
    }
    let pins = pins as usize;
    if pins > MOST_PINS {
        return Err(PINS_BAD);
    }
    if library.cells.len() == MOST_CELLS {
        return Err(CELLS_MANY);
    }
    Ok((name, pins, form))
}

/// A line of rows. The rows are added to the list and the groups replaced.
fn rows_line(
    line: &Line,
    word: &str,
    purpose: Use,
    pins: usize,
    form: Form,
    rows: &mut Vec<Row>,
    groups: &mut Vec<Group>,
) -> Result<(), u32> {
    groups.clear();
    let first = rows.len();
    let mut fields = text::fields(line.bytes);
    if fields.next() != Some(word.as_bytes()) || !line.ended {
        return Err(LIBRARY_FORM);
    }
    // An M joins the row after it to the group before it, so it needs both. A Z is a whole group.
    let mut joined = false;
    for field in fields {
        if field == b"M" {
            if joined || groups.last().is_none_or(Group::is_empty) {
                return Err(LIBRARY_FORM);
            }
            joined = true;
            continue;
        }
        if field == b"Z" {
            if joined {
                return Err(LIBRARY_FORM);
            }
            let start = rows.len() as u32;
            groups.push(Group { start, end: start });
            continue;
        }
        let row = text::octal(field, form.most_digits).ok_or(LIBRARY_FORM)?;
        if !joined {
            let start = rows.len() as u32;
            groups.push(Group { start, end: start });
        }
        rows.push(Row {
            depth: row & ((1 << form.depth_bits) - 1),
            columns: row >> form.depth_bits,
        });
        groups.last_mut().unwrap().end = rows.len() as u32;
        joined = false;
    }
    if joined {
        return Err(LIBRARY_FORM);
    }
    let wanted = match purpose {
        Use::Set => 2,
        Use::Observe => pins,
    };
    if groups.len() != wanted
        || groups
            .iter()
            .any(|group| (group.end - group.start) as usize > MOST_ROWS)
    {
        return Err(GROUPS_BAD);
    }
    // How many columns there are: up to pin 1 at 0 where the output is set, else up to "observe the
    // output".
    let width = match purpose {
        Use::Set => 2 * pins,
        Use::Observe => 2 * pins + 3,
    };
    let rows = &rows[first..];
    if rows.iter().any(|row| row.columns >> width != 0) {
        return Err(BIT_ABOVE);
    }
    // Where one group of a CC or SC line is Z, the rows of the other need not name a pin.
    let alone = groups.iter().any(Group::is_empty);
    let unnamed = |row: &Row| match purpose {
        Use::Set => row.columns == 0 && !alone,
        Use::Observe => row.columns >> (width - 1) == 0,
    };
    if rows.iter().any(unnamed) {
        return Err(ROW_IDLE);
    }
    Ok(())
}
