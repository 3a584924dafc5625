//! Document 01, "Session lines": lines written and read, and the session program.

use yaropesk_model::model::*;

#[test]
fn lines_are_written_and_read_back() {
    for (kind, byte, wait, line) in [
        (0, 0x38, 15_000, "I\t38\t15000\n"),
        (1, 0xFF, u32::MAX, "D\tFF\t4294967295\n"),
        (2, 0x00, 0, "S\t00\t0\n"),
        (3, 0x00, 10, "R\t00\t10\n"),
    ] {
        let mut out = [0xEE; 20];
        assert_eq!(write_line(kind, byte, wait, &mut out), (DONE, line.len()));
        assert_eq!(out[..line.len()], *line.as_bytes());
        assert!(out[line.len()..].iter().all(|&byte| byte == 0xEE));
        let text = format!("{line}anything");
        let expected = Line {
            kind,
            byte,
            wait,
            length: line.len(),
            offset: 0,
        };
        assert_eq!(read_line(text.as_bytes()), (DONE, expected));
    }
}

#[test]
fn writer_refuses() {
    let mut out = [0xEE; 16];
    for (kind, byte) in [(4, 0), (2, 1), (3, 1)] {
        assert_eq!(write_line(kind, byte, 0, &mut out[..3]), (WRONG_KIND, 0));
    }
    assert_eq!(write_line(0, 0, 0, &mut out[..15]), (TOO_SHORT, 0));
    assert_eq!(out, [0xEE; 16]);
}

#[test]
fn sessions() {
    let header = "no\tanswer\tbyte\tbusy\n";
    let report = |text: &str| String::from_utf8(session(text.as_bytes())).unwrap();
    assert_eq!(report(""), header);
    // A bad line ends it, with the number of the field.
    assert_eq!(report("\n"), format!("{header}1\t16\t00\t10000\n"));
    assert_eq!(report("S\t00\t01"), format!("{header}1\t18\t00\t10000\n"));
    assert_eq!(report("S\t00\t1"), format!("{header}1\t19\t00\t10000\n"));
    assert_eq!(
        report("S\t00\t1\nS\t01\t5\nS\t00\t0\n"),
        format!("{header}1\t0\t80\t9999\n2\t17\t00\t9999\n")
    );
    assert!(report(&"\n".repeat(65_536)).starts_with(header));
    assert_eq!(report(&"\n".repeat(65_537)), "too long\n");
}
