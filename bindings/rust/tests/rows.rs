//! Rows as a caller sees them.

mod patterns;

use malekoco::{format_row, row_room, Buffer, RowError, ROW_LIMIT};
use patterns::patterns;

/// What every byte holds before a call: no text has this byte.
const FILL: u8 = 0xa5;

/// The output stands between two fences of so many bytes, which no call may touch.
const FENCE: usize = 64;

fn numbers() -> Vec<f32> {
    patterns().map(|bits| f32::from_bits(bits as u32)).collect()
}

/// The texts of the numbers one by one, with a space between two.
fn joined(numbers: &[f32]) -> String {
    numbers.iter().map(|number| Buffer::new().format(*number).to_owned()).collect::<Vec<_>>().join(" ")
}

/// Prints into an output of so many bytes, and hands back the answer, and all bytes with those of the fences.
fn call(numbers: &[f32], room: usize) -> (Result<String, RowError>, Vec<u8>) {
    let mut bytes = vec![FILL; FENCE + room + FENCE];
    let answer = format_row(numbers, &mut bytes[FENCE..FENCE + room]).map(str::to_owned);
    (answer, bytes)
}

/// All bytes as they are to be after a call with this text.
fn bytes_with(text: &str, room: usize) -> Vec<u8> {
    let mut bytes = vec![FILL; FENCE + room + FENCE];
    bytes[FENCE..FENCE + text.len()].copy_from_slice(text.as_bytes());
    bytes
}

/// The row is printed as its numbers are one by one, and every byte outside its text stays.
fn assert_printed(numbers: &[f32], room: usize) {
    let (count, wanted) = (numbers.len(), joined(numbers));
    let (answer, bytes) = call(numbers, room);
    assert!(answer.as_deref() == Ok(&wanted), "{count} numbers, output of {room} bytes: the text is another");
    assert!(bytes == bytes_with(&wanted, room), "{count} numbers, output of {room} bytes: a byte outside the text was changed");
}

/// The row is refused, and every byte stays.
fn assert_refused(numbers: &[f32], room: usize, why: RowError) {
    let (count, (answer, bytes)) = (numbers.len(), call(numbers, room));
    assert_eq!(answer, Err(why), "{count} numbers, output of {room} bytes");
    assert!(bytes == bytes_with("", room), "{count} numbers, output of {room} bytes: a byte was changed");
}

#[test]
fn prints_numbers_of_every_kind() {
    let numbers = [2.5, f32::NAN, -0.0, f32::INFINITY, 1e-45, f32::NEG_INFINITY, -f32::NAN, f32::MAX, -1e20];
    let text = "2.5 NaN -0.0 inf 1e-45 -inf NaN 3.4028235e38 -100000000000000000000.0";
    assert_eq!(format_row(&numbers, &mut vec![0; row_room(numbers.len())]), Ok(text));
}

#[test]
fn prints_no_numbers_as_no_text() {
    for room in [0, 1, 25, 4096] {
        assert_printed(&[], room);
    }
    assert_eq!(format_row(&[], &mut []), Ok(""));
}

#[test]
fn prints_one_number_as_its_own_text() {
    for number in numbers() {
        assert_printed(&[number], row_room(1));
    }
}

#[test]
fn prints_rows_of_many_lengths() {
    let numbers = numbers();
    for count in (2..64).chain((64..=ROW_LIMIT).step_by(127)) {
        let row = &numbers[count * 13..][..count];
        assert_printed(row, row_room(count));
        assert_printed(row, row_room(count) + count);
    }
}

#[test]
fn prints_the_longest_row() {
    let numbers = numbers();
    assert_printed(&numbers[..ROW_LIMIT], row_room(ROW_LIMIT));
    assert_printed(&[-1e20; ROW_LIMIT], row_room(ROW_LIMIT));
}

#[test]
fn refuses_a_row_that_is_too_long() {
    let numbers = [0.5; ROW_LIMIT + 1];
    for room in [0, row_room(ROW_LIMIT), row_room(ROW_LIMIT + 1) - 1, row_room(ROW_LIMIT + 1), 1 << 20] {
        assert_refused(&numbers, room, RowError::TooMany);
    }
    assert_refused(&[0.5; 2 * ROW_LIMIT], row_room(2 * ROW_LIMIT), RowError::TooMany);
}

#[test]
fn refuses_an_output_that_is_too_short() {
    let numbers = [0.5; ROW_LIMIT];
    for count in [1, 2, 3, 100, ROW_LIMIT] {
        for room in [0, count * 4 - 1, row_room(count - 1), row_room(count) - 1] {
            assert_refused(&numbers[..count], room, RowError::TooShort);
        }
    }
}

#[test]
fn what_is_printed_parses_as_the_same_numbers() {
    let (numbers, mut out) = (numbers(), vec![0; row_room(ROW_LIMIT)]);
    for row in numbers.chunks(ROW_LIMIT) {
        let text = format_row(row, &mut out).unwrap();
        assert_eq!(text.split(' ').count(), row.len());
        for (item, number) in text.split(' ').zip(row) {
            let parsed: f32 = item.parse().unwrap();
            assert!(parsed.to_bits() == number.to_bits() || parsed.is_nan() && number.is_nan(), "{item}");
        }
    }
}

#[test]
fn an_output_serves_again_and_again() {
    let mut out = [0; row_room(2)];
    assert_eq!(format_row(&[-1.25e-30, 1.0], &mut out), Ok("-1.25e-30 1.0"));
    assert_eq!(format_row(&[7.0, 8.0, 9.0], &mut out), Err(RowError::TooShort));
    assert_eq!(format_row(&[7.0], &mut out), Ok("7.0"));
    assert_eq!(format_row(&[], &mut out), Ok(""));
}

#[test]
fn says_how_much_room_a_row_takes() {
    assert_eq!([row_room(0), row_room(1), row_room(ROW_LIMIT)], [0, 26, 106_496]);
    assert_eq!(row_room(usize::MAX / 26), usize::MAX / 26 * 26);
    assert_eq!(row_room(usize::MAX / 26 + 1), usize::MAX);
}

#[test]
fn says_why_a_row_is_refused() {
    let say = |error: RowError| -> String { Box::<dyn std::error::Error>::from(error).to_string() };
    assert_eq!(say(RowError::TooMany), "the row has more than 4096 numbers");
    assert_eq!(say(RowError::TooShort), "the output has fewer than 26 bytes for each number of the row");
}
