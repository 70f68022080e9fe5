//! Reading as a caller sees it.

mod patterns;

use malekoco::{format_row, parse, row_room, Buffer, ReadError, LONGEST, ROW_LIMIT};
use patterns::patterns;

/// The patterns that a text is read as, at both widths.
fn both(text: &str) -> (Result<u32, ReadError>, Result<u64, ReadError>) {
    (parse(text).map(f32::to_bits), parse(text).map(f64::to_bits))
}

fn assert_refused(text: impl AsRef<[u8]>, why: ReadError) {
    let text = text.as_ref();
    assert_eq!(parse::<f32>(text), Err(why), "{}", text.escape_ascii());
    assert_eq!(parse::<f64>(text), Err(why), "{}", text.escape_ascii());
}

#[test]
fn reads_at_both_widths() {
    assert_eq!(both("2.71828"), (Ok(0x402d_f84d), Ok(0x4005_bf09_95aa_f790)));
    assert_eq!(both("-0.1"), (Ok(0xbdcc_cccd), Ok(0xbfb9_9999_9999_999a)));
    assert_eq!(both("0.30000001192092898"), (Ok(0x3e99_999a), Ok(0x3fd3_3333_4000_0000)));
}

#[test]
fn reads_every_layout() {
    for text in ["12.5", "12.50", "012.5", "125e-1", "1.25e1", "1250e-2", "0.125e2", "0.00125e0004", "12.5e0", "12.5e-0000"] {
        assert_eq!(both(text), (Ok(0x4148_0000), Ok(0x4029_0000_0000_0000)), "{text}");
    }
}

#[test]
fn keeps_the_sign_of_zero() {
    for text in ["0", "0.0", "000", "0e9999", "0.000e-1", "1e-9999", "0.001e-400"] {
        assert_eq!(both(text), (Ok(0), Ok(0)), "{text}");
        assert_eq!(both(&format!("-{text}")), (Ok(1 << 31), Ok(1 << 63)), "-{text}");
    }
}

#[test]
fn rounds_what_is_halfway_to_even() {
    let f64s = [("9007199254740992", 0), ("9007199254740993", 0), ("9007199254740994", 1), ("9007199254740995", 2)];
    for (text, step) in f64s {
        assert_eq!(both(text).1, Ok(0x4340_0000_0000_0000 + step), "{text}");
    }
    let f32s = [("16777216", 0), ("16777217", 0), ("16777218", 1), ("16777219", 2)];
    for (text, step) in f32s {
        assert_eq!(both(text).0, Ok(0x4b80_0000 + step), "{text}");
    }
    // the last of 64 bytes decides
    assert_eq!(parse("9007199254740993.0000000000000000000000000000000000000000000001"), Ok(9007199254740994.0));
    assert_eq!(parse("16777217.0000000000000000000000000000000000000000000000000000001"), Ok(16777218.0f32));
}

#[test]
fn reads_the_smallest_and_the_largest() {
    assert_eq!(parse("1e-45"), Ok(f32::from_bits(1)));
    assert_eq!(parse("1.1754944e-38"), Ok(f32::MIN_POSITIVE));
    assert_eq!(parse("3.4028235e38"), Ok(f32::MAX));
    assert_eq!(parse("5e-324"), Ok(f64::from_bits(1)));
    assert_eq!(parse("2.4703282292062327e-324"), Ok(0.0));
    assert_eq!(parse("2.4703282292062328e-324"), Ok(f64::from_bits(1)));
    assert_eq!(parse("2.2250738585072014e-308"), Ok(f64::MIN_POSITIVE));
    assert_eq!(parse("-1.7976931348623157e308"), Ok(f64::MIN));
}

#[test]
fn reads_the_infinity_from_half_a_step_above_the_largest_on() {
    assert_eq!(parse("340282356779733661637539395458142568447"), Ok(f32::MAX));
    assert_eq!(parse("340282356779733661637539395458142568448"), Ok(f32::INFINITY));
    assert_eq!(parse("1.797693134862315807e308"), Ok(f64::MAX));
    assert_eq!(parse("-1.797693134862315808e308"), Ok(f64::NEG_INFINITY));
    assert_eq!(both("1e9999"), (Ok(0x7f80_0000), Ok(0x7ff0_0000_0000_0000)));
}

#[test]
fn reads_the_names() {
    assert_eq!(both("NaN"), (Ok(0x7fc0_0000), Ok(0x7ff8_0000_0000_0000)));
    assert_eq!(both("inf"), (Ok(0x7f80_0000), Ok(0x7ff0_0000_0000_0000)));
    assert_eq!(both("-inf"), (Ok(0xff80_0000), Ok(0xfff0_0000_0000_0000)));
    for text in ["nan", "NAN", "-NaN", "Na", "NaNs", "Inf", "INF", "+inf", "in", "infinity", "-infinity", "--inf", "inf0"] {
        assert_refused(text, ReadError::WrongForm);
    }
}

#[test]
fn refuses_what_has_not_the_form() {
    let begun =
        ["-", ".", "e", ".5", "-.5", "5.", "5.e1", "5e", "5e-", "e5", "1.2.3", "1..2", "--1", "1-", "1-1", "1e5e5", "1e5.0"];
    let taken_by_others =
        ["+1", "1E5", "1e+5", "1_000", "1,5", "0x1", "1f", " 1", "1 ", "1\n", "1\0", "1e00005", "1e-10000", "½", "１"];
    for text in begun.iter().chain(&taken_by_others) {
        assert_refused(text, ReadError::WrongForm);
    }
    for byte in (0..=255u8).filter(|byte| !byte.is_ascii_digit()) {
        assert_refused([byte], ReadError::WrongForm);
        assert_refused([b'1', byte], ReadError::WrongForm);
        assert_refused([byte, byte, b'1'], ReadError::WrongForm);
    }
}

#[test]
fn refuses_a_length_before_it_looks_at_the_form() {
    for length in [0, LONGEST + 1, 100, 256, 4096, 1 << 16] {
        assert_refused("1".repeat(length), ReadError::WrongLength);
        assert_refused("x".repeat(length), ReadError::WrongLength);
        assert_refused(vec![0; length], ReadError::WrongLength);
    }
    assert_eq!(parse(format!("{:0>LONGEST$}", 1.5)), Ok(1.5));
    assert_refused("x".repeat(LONGEST), ReadError::WrongForm);
}

#[test]
fn takes_strings_and_bytes() {
    let owned = String::from("0.5");
    assert_eq!(parse(&owned), Ok(0.5f32));
    assert_eq!(parse(owned.as_bytes()), Ok(0.5f32));
    assert_eq!(parse(owned.clone().into_bytes()), Ok(0.5f64));
    assert_eq!(parse(owned), Ok(0.5f64));
    assert_eq!(parse(*b"0.5"), Ok(0.5f64));
    // a part of a text is read as if it were all
    assert_eq!(parse(&"1234.5678"[1..6]), Ok(234.5f32));
}

#[test]
fn what_is_printed_is_read_as_the_same_number() {
    let mut buffer = Buffer::new();
    for bits in patterns() {
        if let Some(text) = buffer.format_finite(f64::from_bits(bits)) {
            assert_eq!(both(text).1, Ok(bits), "{text}");
        }
        if let Some(text) = buffer.format_finite(f32::from_bits(bits as u32)) {
            assert_eq!(both(text).0, Ok(bits as u32), "{text}");
        }
    }
}

#[test]
fn reads_as_the_standard_library_does() {
    for bits in patterns() {
        let (digits, exponent) = (bits >> (bits % 60), (bits >> 32) as i32 % 400);
        let text = format!("{digits}e{exponent}");
        let (narrow, wide) = (text.parse::<f32>().unwrap(), text.parse::<f64>().unwrap());
        assert_eq!(both(&text), (Ok(narrow.to_bits()), Ok(wide.to_bits())), "{text}");
    }
}

#[test]
fn reads_a_row_number_by_number() {
    let numbers: Vec<f32> = patterns().map(|bits| f32::from_bits(bits as u32)).take(ROW_LIMIT).collect();
    let mut out = vec![0; row_room(numbers.len())];
    let row = format_row(&numbers, &mut out).unwrap();
    for (text, number) in row.split(' ').zip(numbers) {
        let read: f32 = parse(text).unwrap();
        assert!(read.to_bits() == number.to_bits() || read.is_nan() && number.is_nan(), "{text}");
    }
}

#[test]
fn says_why_a_text_is_refused() {
    let say = |error: ReadError| -> String { Box::<dyn std::error::Error>::from(error).to_string() };
    assert_eq!(say(ReadError::WrongLength), "the text is empty or has more than 64 bytes");
    assert_eq!(say(ReadError::WrongForm), "the text has not the form of a number");
}
