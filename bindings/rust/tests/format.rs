//! The binding as a caller sees it.

// 2.71828 is a number like any other here.
#![allow(clippy::approx_constant)]

mod patterns;

use malekoco::{Buffer, Float};
use patterns::patterns;

fn text<F: Float>(number: F) -> String {
    Buffer::new().format(number).to_owned()
}

#[test]
fn prints_at_both_widths() {
    assert_eq!(text(2.71828f64), "2.71828");
    assert_eq!(text(2.71828f32), "2.71828");
    assert_eq!(text(0.3f32), "0.3");
    assert_eq!(text(f64::from(0.3f32)), "0.30000001192092898");
}

#[test]
fn keeps_the_sign_of_zero() {
    assert_eq!(text(0.0f32), "0.0");
    assert_eq!(text(-0.0f32), "-0.0");
    assert_eq!(text(0.0f64), "0.0");
    assert_eq!(text(-0.0f64), "-0.0");
}

#[test]
fn prints_the_smallest_and_the_largest() {
    assert_eq!(text(f32::from_bits(1)), "1e-45");
    assert_eq!(text(f32::MIN_POSITIVE), "1.1754944e-38");
    assert_eq!(text(f32::MAX), "3.4028235e38");
    assert_eq!(text(f64::from_bits(1)), "5e-324");
    assert_eq!(text(f64::MIN_POSITIVE), "2.2250738585072014e-308");
    assert_eq!(text(f64::MIN), "-1.7976931348623157e308");
}

#[test]
fn changes_layout_where_the_original_does() {
    assert_eq!(text(1e20), "100000000000000000000.0");
    assert_eq!(text(1e21), "1e21");
    assert_eq!(text(1e-6), "0.000001");
    assert_eq!(text(1e-7), "1e-7");
    assert_eq!(text(1234.5e30), "1.2345e33");
}

#[test]
fn fills_the_buffer_with_the_longest_text() {
    let longest = f64::from_bits(0xbec2_c86d_907e_c0e7);
    assert_eq!(text(longest), "-0.0000022390987659202535");
    assert_eq!(text(longest).len(), 25);
}

#[test]
fn names_what_is_not_finite() {
    assert_eq!(text(f32::NAN), "NaN");
    assert_eq!(text(-f64::NAN), "NaN");
    assert_eq!(text(f64::from_bits(0xfff0_0000_0000_0001)), "NaN");
    assert_eq!(text(f32::INFINITY), "inf");
    assert_eq!(text(f64::NEG_INFINITY), "-inf");
}

#[test]
fn refuses_what_is_not_finite_where_only_that_is_taken() {
    let mut buffer = Buffer::new();
    assert_eq!(buffer.format_finite(f32::NAN), None);
    assert_eq!(buffer.format_finite(-f64::NAN), None);
    assert_eq!(buffer.format_finite(f32::NEG_INFINITY), None);
    assert_eq!(buffer.format_finite(f64::INFINITY), None);
    assert_eq!(buffer.format_finite(f64::MAX), Some("1.7976931348623157e308"));
}

#[test]
fn a_buffer_serves_again_and_again() {
    let mut buffer = Buffer::default();
    assert_eq!(buffer.format(-1.25e-300), "-1.25e-300");
    assert_eq!(buffer.format_finite(f64::NAN), None);
    let mut copy = buffer;
    assert_eq!(buffer.format(7.0f32), "7.0");
    assert_eq!(copy.format_finite(8.0f32), Some("8.0"));
}

#[test]
fn both_entries_print_the_same_text() {
    let (mut one, mut other) = (Buffer::new(), Buffer::new());
    for bits in patterns() {
        let (wide, narrow) = (f64::from_bits(bits), f32::from_bits(bits as u32));
        assert_eq!(other.format_finite(wide), wide.is_finite().then(|| one.format(wide)));
        assert_eq!(other.format_finite(narrow), narrow.is_finite().then(|| one.format(narrow)));
    }
}

#[test]
fn what_is_printed_parses_as_the_same_number() {
    let mut buffer = Buffer::new();
    for bits in patterns() {
        if let Some(text) = buffer.format_finite(f64::from_bits(bits)) {
            assert_eq!(text.parse::<f64>().unwrap().to_bits(), bits, "{text}");
        }
        if let Some(text) = buffer.format_finite(f32::from_bits(bits as u32)) {
            assert_eq!(text.parse::<f32>().unwrap().to_bits(), bits as u32, "{text}");
        }
    }
}

#[test]
fn threads_print_side_by_side() {
    let printed =
        |from: u64| patterns().skip(from as usize).step_by(4).map(|bits| text(f64::from_bits(bits))).collect::<Vec<_>>();
    let together: Vec<_> = std::thread::scope(|scope| {
        let running: Vec<_> = (0..4).map(|from| scope.spawn(move || printed(from))).collect();
        running.into_iter().map(|thread| thread.join().unwrap()).collect()
    });
    for (from, texts) in together.iter().enumerate() {
        assert_eq!(texts, &printed(from as u64));
    }
}
