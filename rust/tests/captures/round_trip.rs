//! "Prove that a capture made from any session whose first wait is 0 and whose later waits
//! are 2 or more imports as that session": tried here.

use yaropesk_model::model::*;
use yaropesk_model::random::{first_stamp, session_to_capture, Chance};

use crate::given::{import_bytes, lines};

/// The session that comes back from its capture with this first stamp.
fn there_and_back(session: &[Transfer], first: u32) -> String {
    import_bytes(&capture_of(session, first)).expect("it is imported")
}

fn text_of(session: &[Transfer]) -> String {
    String::from_utf8(session_text(session)).expect("it is text")
}

#[test]
fn random_sessions_come_back() {
    let mut transfers = 0;
    for number in 0..3_000 {
        let mut chance = Chance::new(2, number);
        let (first, session) = (first_stamp(&mut chance), session_to_capture(&mut chance));
        assert_eq!(
            there_and_back(&session, first),
            text_of(&session),
            "{number}"
        );
        transfers += session.len();
    }
    assert!(transfers > 10_000);
}

#[test]
fn every_kind_and_byte_comes_back() {
    let writes = [INSTRUCTION_WRITE, DATA_WRITE].into_iter();
    let writes = writes.flat_map(|kind| (0..=255).map(move |byte| (kind, byte, 2)));
    let reads = [(STATUS_READ, 0x00, 2), (DATA_READ, 0x00, 2)];
    let mut session: Vec<Transfer> = reads.into_iter().chain(writes).collect();
    session[0].2 = 0;
    assert_eq!(there_and_back(&session, u32::MAX - 300), text_of(&session));
}

#[test]
fn any_wait_from_2_comes_back_from_any_first_stamp() {
    for first in [0, 1, 2, 4_294_967_293, 4_294_967_294, 4_294_967_295] {
        for wait in [2, 3, 4, 2_147_483_648, 4_294_967_294, 4_294_967_295] {
            let session = [(INSTRUCTION_WRITE, 0x38, 0), (DATA_WRITE, 0x41, wait)];
            assert_eq!(there_and_back(&session, first), text_of(&session));
        }
    }
    assert_eq!(there_and_back(&[], 7), "");
}

/// The theorem's premises are needed. A first wait is not in a capture. After a wait of 1 E
/// goes up at the stamp at which it has fallen, so that the transfer before is lost, and its
/// wait is in the next one's.
#[test]
fn other_waits_do_not_come_back() {
    let session = [
        (INSTRUCTION_WRITE, 0x38, 15_000),
        (DATA_WRITE, 0x41, 40),
        (DATA_WRITE, 0x42, 1),
    ];
    let due = lines(&["I 38 0", "D 42 41"]).expect("lines");
    assert_eq!(there_and_back(&session, 0), due);
}

/// With a wait of 0 the made stamps go back by one: for a pod that is once round, and the
/// difference of the falls is 0. The request does not ask for it.
#[test]
fn a_wait_of_0_goes_once_round() {
    let session = [(INSTRUCTION_WRITE, 0x38, 0), (STATUS_READ, 0x00, 0)];
    assert_eq!(there_and_back(&session, 9), text_of(&session));
}

const P11: [Transfer; 6] = [
    (INSTRUCTION_WRITE, 0x38, 15_000),
    (STATUS_READ, 0x00, 0),
    (DATA_WRITE, 0x41, 10),
    (DATA_WRITE, 0x41, 30),
    (STATUS_READ, 0x00, 40),
    (DATA_READ, 0x00, 0),
];

/// The bench case P11 as a capture: all comes back but the first wait, which is 0 then. "An
/// imported session keeps the first wait at 0, as the request says; the bench after reset is
/// busy for 10,000, so its first transfers are refused as busy until the reader raises that
/// wait."
#[test]
fn p11_comes_back_but_for_its_first_wait() {
    let imported = there_and_back(&P11, 0);
    let mut expected = P11;
    expected[0].2 = 0;
    assert_eq!(imported, text_of(&expected));

    let report = String::from_utf8(session(imported.as_bytes())).expect("a report");
    let refused = "no\tanswer\tbyte\tbusy\n\
                   1\t4\t00\t10000\n\
                   2\t0\t80\t10000\n\
                   3\t4\t00\t9990\n\
                   4\t4\t00\t9960\n\
                   5\t0\t80\t9920\n\
                   6\t4\t00\t9920\n";
    assert_eq!(report, refused);

    let raised = imported.replacen("I\t38\t0\n", "I\t38\t15000\n", 1);
    assert_eq!(raised, text_of(&P11));
    assert_eq!(
        session(raised.as_bytes()),
        session(text_of(&P11).as_bytes())
    );
}
