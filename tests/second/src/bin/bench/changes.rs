//! What a change of library costs: the archive's own scoap_change over its scoap_report.

use crate::{archive, call, failed, median, rounds, ROOM};
use second::change::{change_into, BEGUN_AGAIN, WENT_ON};
use second::shapes::{grown, Grown};
use second::standing::STANDING;

/// The libraries of one column of the table, taken in turn, and what a change to each must answer.
struct Column<'a> {
    libs: Vec<&'a [u8]>,
    answer: u64,
}

/// Both sides answer so, and leave the same table.
fn agreed(made: &Grown, fresh: &[u32], column: &Column) -> Result<(), String> {
    let case = &made.case;
    for lib in &column.libs {
        let mut tables = [fresh.to_vec(), fresh.to_vec()];
        let said = archive::scoap_change(&case.lib, lib, &case.net, &mut tables[0]);
        let other = change_into(&case.lib, lib, &case.net, &mut tables[1]);
        if said != column.answer || other != said || tables[0] != tables[1] {
            return Err(format!(
                "change: the archive answers {said}, the second {other}, {} was meant",
                column.answer
            ));
        }
    }
    Ok(())
}

/// Medians in microseconds: of a change, and of a report timed beside it.
fn measure(made: &Grown, column: &Column) -> Result<[f64; 2], String> {
    let case = &made.case;
    let mut report = vec![0; ROOM];
    let mut fresh = vec![0; STANDING];
    archive::scoap_stand(&case.lib, &case.net, &mut fresh, &mut report);
    agreed(made, &fresh, column)?;
    let mut table = fresh.clone();
    let mut turn = 0;
    let times = rounds(|side| match side {
        // Each is the first change.
        0 => {
            table.copy_from_slice(&fresh);
            turn += 1;
            let lib = column.libs[turn % column.libs.len()];
            archive::scoap_change(&case.lib, lib, &case.net, &mut table)
        }
        _ => call(archive::scoap_report, case, &mut report),
    });
    Ok(times.map(median))
}

/// A change to the same library, to one with one row more, and to one whose entries were moved, each as a share of an
/// analysis with its report.
pub fn changes() -> bool {
    println!("changes of library, by the archive alone: a call's time over that of scoap_report beside it");
    println!(
        "{:<27} {:>5} {:>11} {:>11} {:>7} {:>11} {:>7} {:>11} {:>7}",
        "shape", "gates", "report", "the same", "ratio", "a row more", "ratio", "anew", "ratio"
    );
    let mut sound = true;
    for made in grown() {
        let columns = [
            (vec![&made.case.lib], WENT_ON),
            (made.with_a_row.iter().collect(), WENT_ON),
            (vec![&made.moved], BEGUN_AGAIN),
        ]
        .map(|(libs, answer)| Column {
            libs: libs.into_iter().map(|lib| &lib[..]).collect(),
            answer,
        });
        let times: Result<Vec<_>, _> = columns
            .iter()
            .map(|column| measure(&made, column))
            .collect();
        match times {
            Ok(times) => {
                let told: String = times
                    .iter()
                    .map(|[change, beside]| format!(" {change:>11.1} {:>7.4}", change / beside))
                    .collect();
                println!(
                    "{:<27} {:>5} {:>11.1}{told}",
                    made.case.label,
                    made.case.gates(),
                    times[0][1],
                );
            }
            Err(problem) => {
                failed(&made.case, &problem);
                sound = false;
            }
        }
    }
    sound
}
