//! The lines that `try_form` must write, by the reference implementation.

use crate::plan::Case;
use crate::text::{joined, shown, Check};
use reference::form::{best_response, payoff_table, value_count, Row};
use reference::game::{check_game, Player};
use reference::plan::check_plan;
use reference::Refusal;

/// A table of more rows is shown by its ends.
const MOST_SHOWN: usize = 12;
const SHOWN_OF_AN_END: usize = 2;

/// The buffers that some tables are made in have from none to so many entries.
const MOST_ROOM: usize = 8;

/// What each entry of a buffer is before the call.
const HELD: i128 = 7;

/// As many rows as the longest table has.
const MOST_ROWS: usize = 4095;

/// The table, the same as rows and the values of a game with a plan, made in buffers that are
/// long enough.
pub fn check_lines(case: &Case) -> String {
    let table = table_of(case);
    let answer = heading(&table);
    let rows = table.map(|rows| row_lines(&rows)).unwrap_or_default();
    let (table, held) = in_rows(case, MOST_ROWS);
    let as_rows = heading(&table);
    let check = Check::of(&held.concat());
    let values = shown(values_of(case), |values| values);
    let name = case.name();
    format!("{name}: {answer}\n{rows}{name} as rows: {as_rows} check {check}\n{name}: {values}\n")
}

fn heading(table: &Result<Vec<Row>, Refusal>) -> String {
    let count = table.as_ref().map(Vec::len).map_err(|&refusal| refusal);
    shown(count, |count| format!("table of {count}"))
}

/// Each row, or the first two, the last two and a check of each column.
fn row_lines(rows: &[Row]) -> String {
    if rows.len() <= MOST_SHOWN {
        return rows.iter().map(row_line).collect();
    }
    let first = rows[..SHOWN_OF_AN_END].iter();
    let last = rows[rows.len() - SHOWN_OF_AN_END..].iter();
    let ends: String = first.chain(last).map(row_line).collect();
    let checks = columns(rows).map(|column| Check::of(&column));
    format!(
        "{ends}checks{}\n",
        joined(&checks, |check| check.to_string())
    )
}

fn row_line(row: &Row) -> String {
    let ([s, t], [one, two]) = (row.sequences, row.sums);
    format!("row {s} {t} sums {one} {two}\n")
}

/// Player 1's sequence, player 2's, player 1's sum and player 2's.
fn numbers(row: &Row) -> [i128; 4] {
    let ([s, t], [one, two]) = (row.sequences, row.sums);
    [s as i128, t as i128, one, two]
}

/// The columns of these numbers.
fn columns(rows: &[Row]) -> [Vec<i128>; 4] {
    [0, 1, 2, 3].map(|field| rows.iter().map(|row| numbers(row)[field]).collect())
}

fn table_of(case: &Case) -> Result<Vec<Row>, Refusal> {
    Ok(payoff_table(&check_game(&case.game)?))
}

/// The table where buffers of these lengths have room for it.
fn table_in(case: &Case, rooms: &[usize]) -> Result<Vec<Row>, Refusal> {
    let rows = table_of(case)?;
    match rooms.iter().all(|&room| rows.len() <= room) {
        true => Ok(rows),
        false => Err(18),
    }
}

/// The table as rows where there is room for it, and what so many rows hold afterwards.
fn in_rows(case: &Case, room: usize) -> (Result<Vec<Row>, Refusal>, Vec<[i128; 4]>) {
    let table = table_in(case, &[room]);
    let mut held = vec![[HELD; 4]; room];
    for (place, row) in held.iter_mut().zip(table.iter().flatten()) {
        *place = numbers(row);
    }
    (table, held)
}

/// Both values, both best values, then D0, D1 and D2.
fn values_of(case: &Case) -> Result<String, Refusal> {
    let game = check_game(&case.game)?;
    let plan = check_plan(&game, &case.plan)?;
    let [value1, value2] = Player::BOTH.map(|player| value_count(&plan, player));
    let [best1, best2] = Player::BOTH.map(|player| best_response(&plan, player).count());
    let [d1, d2] = Player::BOTH.map(|player| plan.denominator(player));
    let d0 = game.root_weight();
    Ok(format!(
        "values {value1} {value2} best {best1} {best2} over {d0} {d1} {d2}"
    ))
}

/// A heading, then for each length the line of four buffers of that length, and those where
/// one buffer has it and the others are as long as they get; then the lines of rows.
pub fn room_lines(case: &Case) -> String {
    let mut lines = format!("rooms of {}\n", case.name());
    for room in 0..=MOST_ROOM {
        lines += &room_line(case, [room; 4]);
        for short in 0..4 {
            let mut rooms = [MOST_ROOM; 4];
            rooms[short] = room;
            lines += &room_line(case, rooms);
        }
    }
    for room in 0..=MOST_ROOM {
        lines += &rows_line(case, room);
    }
    lines
}

/// The line of so many rows.
fn rows_line(case: &Case, room: usize) -> String {
    let (table, held) = in_rows(case, room);
    let answer = heading(&table);
    let held: String = held
        .iter()
        .map(|row| format!(";{}", joined(row, i128::to_string)))
        .collect();
    format!("rows {room}: {answer}{held}\n")
}

fn room_line(case: &Case, rooms: [usize; 4]) -> String {
    let table = table_in(case, &rooms);
    let mut buffers = rooms.map(|room| vec![HELD; room]);
    if let Ok(rows) = &table {
        for (buffer, column) in buffers.iter_mut().zip(columns(rows)) {
            buffer[..column.len()].copy_from_slice(&column);
        }
    }
    let answer = heading(&table);
    let names = ["sequence1", "sequence2", "sum1", "sum2"];
    let named: String = names
        .iter()
        .zip(&buffers)
        .map(|(name, buffer)| format!(" {name}{}", joined(buffer, i128::to_string)))
        .collect();
    let rooms = joined(&rooms, usize::to_string);
    format!("room{rooms}: {answer}{named}\n")
}
