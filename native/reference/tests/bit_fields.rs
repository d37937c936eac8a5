//! Bit fields and two's complement.

use reference::bits::{fits, from_twos_complement, to_twos_complement, BitReader, BitWriter};
use reference::deliver;

#[test]
fn fields_are_read_most_significant_bit_first() {
    let mut reader = BitReader::new(&[0b1010_0101, 0xff, 0x00]);
    assert_eq!(reader.read(3), Some(0b101));
    assert_eq!(reader.read(7), Some(0b001_0111));
    assert_eq!(reader.remaining(), 14);
    assert_eq!(reader.read(0), Some(0));
    assert_eq!(reader.read(14), Some(0b11_1111_0000_0000));
    assert_eq!(reader.read(1), None);
}

#[test]
fn a_field_past_the_end_is_nothing() {
    assert_eq!(BitReader::new(&[0xff]).read(9), None);
    assert_eq!(BitReader::new(&[]).read(1), None);
    assert_eq!(BitReader::new(&[0xff; 9]).read(72), Some(u64::MAX));
}

#[test]
fn written_fields_fill_the_last_byte_with_zeros() {
    let mut writer = BitWriter::new();
    writer.write(1, 4);
    writer.write(0xabc, 12);
    writer.write(0b1, 1);
    assert_eq!(writer.into_bytes(), [0x1a, 0xbc, 0x80]);
    let mut writer = BitWriter::new();
    writer.write(u64::MAX, 72);
    let expected = [0, 0xff, 0xff, 0xff, 0xff, 0xff, 0xff, 0xff, 0xff];
    assert_eq!(writer.into_bytes(), expected);
}

#[test]
fn widths_bound_what_fits() {
    assert!(fits(0, 0) && !fits(1, 0));
    assert!(fits(4_095, 12) && !fits(4_096, 12));
    assert!(fits(u64::MAX, 64) && fits(u64::MAX, 70));
    assert!(!fits(u64::MAX, 63));
}

#[test]
fn twos_complement_goes_both_ways() {
    for value in -32_768..=32_767 {
        let bits = to_twos_complement(value).unwrap();
        assert!(bits <= 0xffff);
        assert_eq!(from_twos_complement(bits), value);
    }
    assert_eq!(to_twos_complement(-1), Some(0xffff));
    assert_eq!(to_twos_complement(-32_768), Some(0x8000));
    assert_eq!(to_twos_complement(32_768), None);
    assert_eq!(to_twos_complement(-32_769), None);
}

#[test]
fn results_are_delivered_whole_or_not_at_all() {
    let mut buffer = [9, 9, 9];
    assert_eq!(deliver(&[1, 2], &mut buffer), Ok(2));
    assert_eq!(buffer, [1, 2, 9]);
    assert_eq!(deliver(&[1, 2, 3, 4], &mut buffer), Err(18));
    assert_eq!(buffer, [1, 2, 9]);
}
