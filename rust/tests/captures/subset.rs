//! Which texts are in the subset: everything else is answered 14.

use yaropesk_model::model::*;

use crate::given::*;

const REFUSED: Outcome = Err(OUTSIDE_SUBSET);

fn letter() -> Outcome {
    Ok(LETTER_LINE.into())
}

/// The letter's capture with these sections beside the usual ones.
fn with_sections(sections: &str) -> Outcome {
    import_text(&capture(sections, LETTER))
}

/// The letter's capture with these words behind it.
fn followed_by(words: &str) -> Outcome {
    session_of(&format!("{LETTER}{words}"))
}

/// "Text is read by tokens, parted by space, tab, newline and carriage return, so line ends
/// do not matter."
#[test]
fn any_blank_parts_words() {
    let text = capture("", LETTER);
    for blank in ["\t", "\n", "\r", "\r\n", " \t\r\n\n"] {
        assert_eq!(
            import_text(&text.replace(' ', blank)),
            letter(),
            "{blank:?}"
        );
    }
    assert_eq!(import_text(&format!("\r\n {text}")), letter());
    assert_eq!(import_text(text.trim_end()), letter());
}

/// "Any other byte outside 21h to 7Eh is 14."
#[test]
fn other_bytes_are_refused() {
    let text = capture("", LETTER).into_bytes();
    for byte in 0..=255 {
        let blank = [b' ', b'\t', b'\n', b'\r'].contains(&byte);
        let followed = [&text[..], &[byte]].concat();
        assert_eq!(import_bytes(&followed).is_ok(), blank, "{byte:02X}");

        let plain = blank || (0x21..=0x7E).contains(&byte);
        let section = [b"$var wire 1 ! n", &[byte][..], b" $end "].concat();
        let named = [&section[..], &text].concat();
        assert_eq!(import_bytes(&named).is_ok(), plain, "{byte:02X}");
    }
}

/// "`$timescale 1 us` or `1us`, exactly once".
#[test]
fn timescale_is_one_microsecond_once() {
    let text = capture("", LETTER);
    let instead = |section: &str| import_text(&replaced(&text, TIMESCALE, section));
    assert_eq!(instead("$timescale 1us $end "), letter());
    for section in [
        "",
        "$timescale $end ",
        "$timescale 1 $end ",
        "$timescale us $end ",
        "$timescale us 1 $end ",
        "$timescale 1 us us $end ",
        "$timescale 10 us $end ",
        "$timescale 01 us $end ",
        "$timescale 1 ns $end ",
        "$timescale 1 US $end ",
        "$timescale 1 us ",
        "$TIMESCALE 1 us $end ",
    ] {
        assert_eq!(instead(section), REFUSED, "{section:?}");
    }
    assert_eq!(with_sections(TIMESCALE), REFUSED);
}

/// "`$enddefinitions` exactly once, before any stamp or change. So the empty text is 14."
#[test]
fn definitions_end_once() {
    let text = capture("", LETTER);
    let instead = |section: &str| import_text(&replaced(&text, END, section));
    for section in ["", "$enddefinitions ", "$enddefinitions now $end "] {
        assert_eq!(instead(section), REFUSED, "{section:?}");
    }
    assert_eq!(with_sections(END), REFUSED);
    for early in ["#0", "1e", "$dumpvars $end", "$dumpvars 1e $end"] {
        assert_eq!(with_sections(early), REFUSED, "{early:?}");
    }
    for text in ["", " ", "\n", TIMESCALE, END] {
        assert_eq!(import_text(text), REFUSED, "{text:?}");
    }
}

/// "Sections before it stand in any order; `$scope` and `$upscope` are not balanced against
/// each other."
#[test]
fn sections_stand_in_any_order() {
    let mut lines = LINES;
    lines.reverse();
    let scopes = "$upscope $end $scope module a $end $scope module a $end ";
    let text = [&lines.concat(), scopes, TIMESCALE, END, LETTER].concat();
    assert_eq!(import_text(&text), letter());
    assert_eq!(with_sections("$upscope $end $upscope $end"), letter());
    assert_eq!(with_sections("$upscope a $end"), REFUSED);
}

/// "The subset has the sections ..., then stamps and scalar changes": no section but a dump
/// stands behind the definitions.
#[test]
fn sections_stand_before_the_changes() {
    for section in [
        TIMESCALE,
        END,
        "$scope module a $end",
        "$upscope $end",
        "$var wire 1 ! other $end",
    ] {
        assert_eq!(followed_by(section), REFUSED, "{section:?}");
    }
}

/// "`$scope` has a kind (module, task, function, begin, fork) and a name."
#[test]
fn scopes() {
    for kind in ["module", "task", "function", "begin", "fork"] {
        assert_eq!(with_sections(&format!("$scope {kind} RS $end")), letter());
    }
    for inside in ["", "module", "module a b", "program a", "Module a"] {
        let section = format!("$scope {inside} $end");
        assert_eq!(with_sections(&section), REFUSED, "{section:?}");
    }
}

/// "the types are event, integer, parameter, reg, supply0, supply1, time, tri, triand,
/// trior, trireg, tri0, tri1, wand, wire and wor; any other type or size and a bit select
/// are 14."
#[test]
fn types_and_sizes() {
    for kind in [
        "event",
        "integer",
        "parameter",
        "reg",
        "supply0",
        "supply1",
        "time",
        "tri",
        "triand",
        "trior",
        "trireg",
        "tri0",
        "tri1",
        "wand",
        "wire",
        "wor",
    ] {
        let text = replaced(
            &capture("", LETTER),
            LINES[2],
            &format!("$var {kind} 1 e E $end "),
        );
        assert_eq!(import_text(&text), letter(), "{kind}");
    }
    for inside in [
        "",
        "wire 1 !",
        "wire ! n",
        "wire 1 ! n n",
        "wire 1 ! n [0]",
        "wire 8 ! n",
        "wire 0 ! n",
        "wire 01 ! n",
        "wire 8 ! n [7:0]",
        "real 1 ! n",
        "realtime 1 ! n",
        "supply 1 ! n",
        "WIRE 1 ! n",
    ] {
        let section = format!("$var {inside} $end");
        assert_eq!(with_sections(&section), REFUSED, "{section:?}");
    }
    assert_eq!(with_sections("$var wire 1 ! n"), REFUSED);
}

/// "each declared once": "a needed name twice" is 14, whatever its code and scope.
#[test]
fn a_needed_name_stands_once() {
    for (line, name) in LINES.iter().zip(capture::SIGNALS) {
        let name = name.escape_ascii();
        assert_eq!(with_sections(line), REFUSED);
        assert_eq!(with_sections(&format!("$var reg 1 ! {name} $end")), REFUSED);
        let scoped = format!("$scope module a $end $var wire 1 ! {name} $end $upscope $end");
        assert_eq!(with_sections(&scoped), REFUSED);
    }
    let other = "$var wire 1 ! n $end $var wire 1 \" n $end $var wire 1 ! n $end";
    assert_eq!(with_sections(other), letter());
}

/// "One code may serve several names."
#[test]
fn a_code_serves_several_names() {
    assert_eq!(
        with_sections("$var wire 1 e n $end $var wire 1 e e $end"),
        letter()
    );
    // DB0 goes with RS, which is 1.
    let text = replaced(&capture("", LETTER), LINES[3], "$var wire 1 s DB0 $end ");
    let text = replaced(&text, " 10 #5", " #5");
    assert_eq!(import_text(&text), letter());
    // RS goes with E, which is 0 at its fall.
    let text = replaced(&capture("", LETTER), LINES[0], "$var wire 1 e RS $end ");
    let text = replaced(&text, "$end 1s ", "$end ");
    assert_eq!(import_text(&text), lines(&["I 41 0"]));
}

/// "an undeclared code" is 14. Codes are compared exactly, and may look like other words.
#[test]
fn codes_are_declared() {
    for change in ["1?", "1E", "1ee", "1RS", "x?", "1", "0", "x"] {
        assert_eq!(followed_by(change), REFUSED, "{change:?}");
        assert_eq!(session_of(change), REFUSED, "{change:?}");
        let dumped = format!("$dumpvars {change} $end");
        assert_eq!(followed_by(&dumped), REFUSED, "{change:?}");
    }
    for code in ["#", "#7", "$", "$var", "$dumpvars", "1e", "~~~~~~~~"] {
        let text = capture("", LETTER).replace("wire 1 e", &format!("wire 1 {code}"));
        let text = replaced(&text, "1e #6", &format!("1{code} #6"));
        let text = replaced(&text, "0e ", &format!("0{code} "));
        assert_eq!(import_text(&text), letter(), "{code:?}");
    }
    assert_eq!(with_sections("$var wire 1 $end n $end"), REFUSED);
}

/// "all other scalars skipped".
#[test]
fn other_scalars_are_skipped() {
    let sections = "$var wire 1 ! rs $end $var wire 1 \" RS_ $end $var reg 1 !! DB8 $end";
    let changes = LETTER.replace(' ', " 1! z\" 0!! ");
    assert_eq!(import_text(&capture(sections, &changes)), letter());
}

/// "`$date`, `$version`, `$comment`, `$dumpall`, `$dumpon`, `$dumpoff`, vector and real
/// changes are 14: outside the subset."
#[test]
fn what_the_subset_has_not() {
    for words in [
        "$date today $end",
        "$version 1 $end",
        "$comment none $end",
        "$dumpall 1e $end",
        "$dumpon 1e $end",
        "$dumpoff xe $end",
        "$dumpall $end",
        "b1 e",
        "B1 e",
        "r1 e",
        "R1.5 e",
        "b1e",
        "$end",
        "word",
        "2e",
        "ue",
        "-e",
        "1 e",
        "e1",
    ] {
        assert_eq!(with_sections(words), REFUSED, "{words:?}");
        assert_eq!(followed_by(words), REFUSED, "{words:?}");
    }
}

/// "`$dumpvars … $end` may stand anywhere after the definitions, also after a stamp, and
/// more than once. A stamp or a section inside `$dumpvars`, a `$dumpvars` without its `$end`
/// and a stray `$end` are 14."
#[test]
fn dumps() {
    for changes in [
        "$dumpvars 1s 0w 07 16 05 04 03 02 01 10 $end #5 1e #6 0e",
        "1s 0w 07 16 05 04 03 02 01 10 #5 $dumpvars 1e $end #6 $dumpvars 0e $end",
        "$dumpvars $end #5 $dumpvars 1s 0w 07 16 05 04 03 02 01 10 $end $dumpvars 1e $end #6 0e",
    ] {
        assert_eq!(session_of(changes), letter(), "{changes:?}");
    }
    for words in [
        "$dumpvars",
        "$dumpvars 1s",
        "$dumpvars #7 $end",
        "$dumpvars $upscope $end $end",
        "$dumpvars $dumpvars $end",
        "$dumpvars $dumpvars $end $end",
        "$dumpvars $end $end",
        "$dumpvars 1s $end 1e $end",
        "$end",
    ] {
        assert_eq!(followed_by(words), REFUSED, "{words:?}");
    }
}

/// "A stamp is `#` and decimal digits, leading zeros allowed, at most 4,294,967,295; more is
/// 14."
#[test]
fn stamps() {
    for stamp in [
        "#7",
        "#07",
        "#00000000000000000000000000007",
        "#4294967295",
        "#0",
    ] {
        assert_eq!(followed_by(stamp), letter(), "{stamp:?}");
    }
    assert_eq!(followed_by("#0004294967295"), letter());
    for stamp in [
        "#",
        "# 7",
        "#-7",
        "#+7",
        "#7.0",
        "#7a",
        "#1_000",
        "##7",
        "#4294967296",
        "#0004294967296",
        "#10000000000",
        "#18446744073709551616",
        "#18446744073709551623",
        "#99999999999999999999999999999999999999999",
    ] {
        assert_eq!(followed_by(stamp), REFUSED, "{stamp:?}");
    }
}
