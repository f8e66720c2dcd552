//! The reader and the writer: every record both ways, every refusal, and their order.

mod common;

use common::{bytes, header_bytes, headers, narrow, steps, wide, wide_headers};
use second::{read_record, write_record, Header, Record, Refusal};

const ABSURD: [u32; 6] = [0, 33, 255, 256, 257, u32::MAX];

fn refusal<T>(number: u32, value: usize) -> Result<T, Refusal> {
    Err(Refusal { number, value })
}

fn header_record(header: Header) -> Record {
    Record {
        kind: header.kind,
        first: header.n,
        second: header.votes,
    }
}

fn write(buffer: &mut [u8], place: usize, record: Record) -> Result<usize, Refusal> {
    write_record(buffer, place, record.kind, record.first, record.second)
}

fn assert_write_then_read(record: Record, before: Option<Header>) {
    let mut buffer = [0xEE; 9];
    let after = write(&mut buffer, 2, record).expect("written");
    assert_eq!(buffer[..2], [0xEE; 2]);
    assert!(buffer[after..].iter().all(|&byte| byte == 0xEE));
    let read = read_record(&buffer[2..], before);
    assert_eq!(read, Ok((record, after - 2)));
}

#[test]
fn write_then_read() {
    for header in headers().into_iter().chain(wide_headers()) {
        assert_write_then_read(header_record(header), None);
    }
    for n in 1..=8 {
        for record in steps(n) {
            assert_write_then_read(record, Some(narrow(n, 0)));
        }
    }
    for n in 1..=32 {
        for record in steps(n) {
            assert_write_then_read(record, Some(wide(n, 0)));
        }
    }
}

#[test]
fn read_then_write() {
    let (eight, thirty_two) = (narrow(8, 0), wide(32, 0));
    for number in 0..1 << 24 {
        let given = [(number >> 16) as u8, (number >> 8) as u8, number as u8];
        if given[0] > 11 {
            continue;
        }
        for before in [None, Some(eight), Some(thirty_two)] {
            let Ok((record, length)) = read_record(&given, before) else {
                continue;
            };
            let mut written = [0xEE; 3];
            assert_eq!(write(&mut written, 0, record), Ok(length));
            assert_eq!(written[..length], given[..length]);
        }
    }
}

#[test]
fn reader_refuses() {
    let three = Some(narrow(3, 0));
    let cases = [
        ("", None, 1),
        ("", three, 1),
        ("00", None, 2),
        ("0C", three, 2),
        ("FF 01 01", None, 2),
        ("01 03", None, 3),
        ("01 03", three, 3),
        ("06 01", None, 3),
        ("08", three, 3),
        ("02", None, 4),
        ("06 00 00", None, 4),
        ("01 00 00", three, 4),
        ("01 00 00", None, 5),
        ("01 03 08", None, 5),
        ("01 08 FF", three, 4),
        ("03 00 01", three, 5),
        ("03 06 01", three, 5),
        ("04 01 00", three, 5),
        ("05 01 04", three, 5),
        ("06 04 01", three, 5),
        ("07 00 00", three, 5),
        ("07 00 04", three, 5),
        ("08 04", three, 5),
        ("0A FF", three, 5),
    ];
    for (text, before, number) in cases {
        let read = read_record(&bytes(text), before);
        assert_eq!(read, refusal(number, 0), "{text}");
    }
}

#[test]
fn reader_told_a_header_out_of_range() {
    for header in [
        (0, 0),
        (9, 0),
        (2, 4),
        (8, 256),
        (u32::MAX, 0),
        (1, u32::MAX),
    ] {
        let (n, votes) = header;
        assert_told_out_of_range(narrow(n, votes));
    }
    for header in [
        (0, 0),
        (33, 0),
        (9, 1 << 9),
        (31, 1 << 31),
        (u32::MAX, 0),
        (1, u32::MAX),
    ] {
        let (n, votes) = header;
        assert_told_out_of_range(wide(n, votes));
    }
    for kind in [0, 2, 0x0A, 0x0C, 0x101, 0x10B, u32::MAX] {
        let (n, votes) = (1, 1);
        assert_told_out_of_range(Header { kind, n, votes });
    }
}

/// A told header out of range is refused after all that concerns the record's kind.
fn assert_told_out_of_range(header: Header) {
    let cases = [
        ("02", 5),
        ("08 00", 5),
        ("0C", 2),
        ("08", 3),
        ("0B 01 01", 3),
        ("01 01 01", 4),
        ("0B 01 01 00 00 00", 4),
    ];
    for (text, number) in cases {
        let read = read_record(&bytes(text), Some(header));
        assert_eq!(read, refusal(number, 0), "{text} {header:?}");
    }
}

#[test]
fn wide_header_both_ways() {
    let cases = [
        (wide(1, 0), "0B 01 00 00 00 00"),
        (wide(9, 0x0000_0101), "0B 09 01 01 00 00"),
        (wide(31, 0x7FFF_FFFF), "0B 1F FF FF FF 7F"),
        (wide(32, 0x8765_4321), "0B 20 21 43 65 87"),
        (wide(32, u32::MAX), "0B 20 FF FF FF FF"),
    ];
    for (header, text) in cases {
        let record = header_record(header);
        assert_eq!(read_record(&bytes(text), None), Ok((record, 6)));
        let mut buffer = [0xEE; 8];
        assert_eq!(write(&mut buffer, 1, record), Ok(7));
        assert_eq!(buffer[1..7], bytes(text));
        assert_eq!((buffer[0], buffer[7]), (0xEE, 0xEE));
        assert_eq!(header_bytes(header), bytes(text));
    }
}

#[test]
fn reader_refuses_wide_headers() {
    let whole = bytes("0B 20 FF FF FF FF");
    let (one, thirty_two) = (narrow(1, 0), wide(32, 0));
    for before in [None, Some(one), Some(thirty_two)] {
        for length in 1..6 {
            assert_eq!(read_record(&whole[..length], before), refusal(3, 0));
        }
    }
    for before in [one, thirty_two] {
        assert_eq!(read_record(&whole, Some(before)), refusal(4, 0));
        assert_eq!(read_record(&bytes("01 01 01"), Some(before)), refusal(4, 0));
    }
    for text in [
        "0B 00 00 00 00 00",
        "0B 21 00 00 00 00",
        "0B FF 00 00 00 00",
        "0B 01 02 00 00 00",
        "0B 08 00 01 00 00",
        "0B 09 00 02 00 00",
        "0B 10 00 00 01 00",
        "0B 1F 00 00 00 80",
    ] {
        assert_eq!(read_record(&bytes(text), None), refusal(5, 0), "{text}");
    }
}

#[test]
fn reader_at_the_edges_of_a_wide_header() {
    let read = |text: &str, n: u32| read_record(&bytes(text), Some(wide(n, 0)));
    for n in [1_u32, 8, 9, 31, 32] {
        let (last, beyond) = (format!("{n:02X}"), format!("{:02X}", n + 1));
        for record in [
            "03 01 X", "04 05 X", "05 01 X", "06 00 X", "07 01 X", "06 X 01",
        ] {
            assert!(read(&record.replace('X', &last), n).is_ok());
            assert_eq!(read(&record.replace('X', &beyond), n), refusal(5, 0));
        }
        for record in ["08 X", "09 X", "0A X"] {
            assert!(read(&record.replace('X', &last), n).is_ok());
            assert_eq!(read(&record.replace('X', &beyond), n), refusal(5, 0));
        }
    }
}

#[test]
fn reader_takes_one_record_of_more_bytes() {
    let mut long = vec![0xFF; 40_000];
    long[0] = 0x08;
    long[1] = 0x02;
    let record = Record {
        kind: 0x08,
        first: 2,
        second: 0,
    };
    let before = Some(narrow(2, 0));
    assert_eq!(read_record(&long, before), Ok((record, 2)));
}

#[test]
fn writer_refuses() {
    let cases = [
        (0x00, 0, 0, 2),
        (0x0C, 0, 0, 2),
        (0x10B, 1, 1, 2),
        (u32::MAX, 9, 9, 2),
        (0x102, 0, 0, 2),
        (0x01, 0, 0, 5),
        (0x01, 9, 0, 5),
        (0x01, 2, 4, 5),
        (0x01, 8, 256, 5),
        (0x02, 1, 0, 5),
        (0x02, 0, 1, 5),
        (0x03, 0, 1, 5),
        (0x03, 6, 1, 5),
        (0x04, 1, 0, 5),
        (0x05, 1, 33, 5),
        (0x06, 33, 1, 5),
        (0x06, 0, 0, 5),
        (0x07, 32, 33, 5),
        (0x08, 33, 0, 5),
        (0x09, 0, 1, 5),
        (0x0A, 256, 0, 5),
        (0x0B, 0, 0, 5),
        (0x0B, 33, 0, 5),
        (0x0B, 257, 0, 5),
        (0x0B, 1, 2, 5),
        (0x0B, 9, 1 << 9, 5),
        (0x0B, 31, 1 << 31, 5),
    ];
    for (kind, first, second, number) in cases {
        for place in [0, 7, 32_768, 32_769, usize::MAX] {
            let written = write_record(&mut [], place, kind, first, second);
            assert_eq!(written, refusal(number, place));
        }
    }
}

#[test]
fn writer_at_its_places() {
    let mut buffer = vec![0xEE; 32_771];
    assert_eq!(write_record(&mut buffer, 32_768, 0x06, 0, 32), Ok(32_771));
    assert_eq!(buffer[32_768..], [0x06, 0x00, 0x20]);
    let wide = write_record(&mut buffer, 32_768, 0x0B, 32, u32::MAX);
    assert_eq!(wide, refusal(6, 32_774));
    for place in [32_769, usize::MAX - 1, usize::MAX] {
        let written = write_record(&mut buffer, place, 0x06, 0, 8);
        assert_eq!(written, refusal(5, place));
    }
    assert!(buffer[..32_768].iter().all(|&byte| byte == 0xEE));
}

#[test]
fn writer_needs_room() {
    let mut buffer = [0xEE; 4];
    let cases = [(0x01, 3), (0x02, 1), (0x05, 3), (0x07, 3), (0x0A, 2)];
    for (kind, length) in cases {
        let (first, second) = match kind {
            0x01 | 0x05 | 0x07 => (1, 1),
            _ => (0, 0),
        };
        for place in [5 - length, 4, 32_768] {
            let written = write_record(&mut buffer, place, kind, first, second);
            assert_eq!(written, refusal(6, place + length));
        }
    }
    assert_eq!(buffer, [0xEE; 4]);
}

#[test]
fn writer_on_absurd_numbers() {
    let mut buffer = [0; 3];
    for kind in 0..12 {
        for first in ABSURD {
            for second in ABSURD {
                let written = write_record(&mut buffer, 0, kind, first, second);
                let is_header = kind == 0x01;
                let is_alone = (0x08..=0x0A).contains(&kind) || kind == 0x02;
                let in_range = !is_header && is_alone && first == 0 && second == 0;
                assert_eq!(written.is_ok(), in_range, "{kind} {first} {second}");
            }
        }
    }
}

#[test]
fn writer_knows_no_n() {
    for number in 1..=32 {
        let mut buffer = [0xEE; 3];
        let mut written = |kind, first, second| {
            let after = write_record(&mut buffer, 0, kind, first, second).expect("in range");
            buffer[..after].to_vec()
        };
        let byte = number as u8;
        assert_eq!(written(0x03, 5, number), [0x03, 5, byte]);
        assert_eq!(written(0x06, number, 1), [0x06, byte, 1]);
        assert_eq!(written(0x07, 0, number), [0x07, 0, byte]);
        assert_eq!(written(0x0A, number, 0), [0x0A, byte]);
    }
    let mut buffer = [0; 6];
    let mut written = |kind, n, votes| write_record(&mut buffer, 0, kind, n, votes);
    for n in 1..=32 {
        let narrow = if n <= 8 { Ok(3) } else { refusal(5, 0) };
        assert_eq!(written(0x01, n, 1), narrow);
        assert_eq!(written(0x0B, n, 1), Ok(6));
    }
}

#[test]
fn writer_needs_room_for_a_wide_header() {
    for length in 0..6 {
        let mut buffer = vec![0xEE; length];
        let written = write_record(&mut buffer, 0, 0x0B, 32, u32::MAX);
        assert_eq!(written, refusal(6, 6));
        assert!(buffer.iter().all(|&byte| byte == 0xEE));
    }
}
