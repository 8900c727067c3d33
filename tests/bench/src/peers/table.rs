//! Reading a table: its bytes into numbers, with all checks of their ranges.

#![forbid(unsafe_code)]

use super::number::Cursor;
use super::{refuse, Answer, Refusal};

/// "A table has at most 6,348 numbers."
pub const MOST_NUMBERS: usize = 6348;

/// Reads a table into the lent room. `scratch` is kept between calls, so that nothing is allocated.
pub fn read_table(code: &[u8], out: &mut [u16], scratch: &mut Vec<u16>) -> Answer {
    numbers_of(code, scratch)?;
    let count = scratch.len();
    if out.len() < count {
        return refuse(10, count);
    }
    out[..count].copy_from_slice(scratch);
    Ok((count, 0))
}

/// The numbers of an accepted table, in order.
pub fn numbers_of(code: &[u8], numbers: &mut Vec<u16>) -> Result<(), Refusal> {
    numbers.clear();
    numbers.reserve(MOST_NUMBERS);
    let mut cursor = Cursor::new(code);

    let inputs = cursor.allowed(|count| count <= 32)?;
    let internals = cursor.allowed(|count| count <= 32 - inputs)?;
    let outputs = cursor.allowed(|count| count <= 32 - inputs - internals)?;
    numbers.extend_from_slice(&[inputs, internals, outputs]);
    let after_internals = inputs + internals;
    let total = after_internals + outputs;
    let is_internal = |variable: u16| inputs <= variable && variable < after_internals;
    for _ in 0..outputs {
        numbers.push(cursor.allowed(is_internal)?);
    }

    let tests = cursor.allowed(|count| count <= 32)?;
    numbers.push(tests);
    let first_test = numbers.len();
    let mut test_places = [(0, 0); 32];
    for place in &mut test_places[..tests as usize] {
        let kind = cursor.allowed(|kind| kind <= 2)?;
        let place_a = cursor.at;
        let a = cursor.allowed(|a| kind == 2 || a < total)?;
        let place_b = cursor.at;
        let b = cursor.number()?;
        *place = (place_a, place_b);
        numbers.extend_from_slice(&[kind, a, b]);
    }

    let processes = cursor.allowed(|count| (1..=8).contains(&count))?;
    numbers.push(processes);
    let mut state_counts = [0; 8];
    for process in 1..=processes {
        let states = cursor.allowed(|count| (1..=8).contains(&count))?;
        numbers.push(states);
        state_counts[process as usize - 1] = states;
        for state in 1..=states {
            let actions = cursor.allowed(|count| (1..=16).contains(&count))?;
            numbers.push(actions);
            for _ in 0..actions {
                let op = cursor.allowed(|op| (1..=12).contains(&op) && (op != 10 || state < states))?;
                let x = cursor.allowed(|x| match op {
                    1..=3 => is_internal(x),
                    4 => (1..=4095).contains(&x),
                    6 | 7 => (1..=processes).contains(&x) && x != process,
                    9 => (1..=states).contains(&x),
                    _ => x == 0,
                })?;
                let y = cursor.allowed(|y| match op {
                    1 | 3 => true,
                    2 => y < total,
                    _ => y == 0,
                })?;
                let branches = matches!(op, 1..=4 | 6 | 7);
                let most_guard = if branches { tests } else { 0 };
                let guard = cursor.allowed(|guard| guard <= most_guard)?;
                let most_next = if branches { actions } else { 0 };
                let next_if = cursor.allowed(|next| next <= most_next)?;
                let most_else = if guard > 0 { actions } else { 0 };
                let next_else = cursor.allowed(|next| next <= most_else)?;
                numbers.extend_from_slice(&[op, x, y, guard, next_if, next_else]);
            }
        }
    }
    cursor.end()?;

    for (test, (place_a, place_b)) in numbers[first_test..].chunks_exact(3).zip(&test_places[..tests as usize]) {
        let [kind, a, b] = [test[0], test[1], test[2]];
        if kind == 2 {
            if a < 1 || a > processes {
                return refuse(2, *place_a);
            }
            if b > state_counts[a as usize - 1] && b != 255 {
                return refuse(2, *place_b);
            }
        }
    }
    Ok(())
}
