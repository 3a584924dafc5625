//! The example `accounts_kept` is `accounts_before` and then the library's plan, written as lines.

use yaropesk_model::bytes::wish_bytes;
use yaropesk_model::calls::{answer_of, value_of, Calls};
use yaropesk_model::library::Library;
use yaropesk_model::model::{transfers_of, Transfer, Wish};
use yaropesk_model::model::{DONE, LINE_BYTES, MEMORY, PLAN_BYTES, TRANSFER_BYTES};

/// The lines of a plan.
fn lines_of(plan: &[Transfer]) -> Vec<u8> {
    let mut text = Vec::new();
    for &(kind, byte, wait) in plan {
        let mut line = [0; LINE_BYTES];
        let returned = Library.write_line(kind, byte, wait, &mut line);
        assert_eq!(answer_of(returned), DONE);
        text.extend_from_slice(&line[..value_of(returned)]);
    }
    text
}

#[test]
fn the_start_that_keeps_the_accounts_is_planned() {
    let wish = wish_bytes(&Wish {
        n: true,
        d: true,
        id: true,
        ..Wish::default()
    });
    // The cells on the glass of 16 x 2 are named.
    let mut marks = [0; MEMORY];
    let mut values = [b' '; MEMORY];
    marks[..16].fill(1);
    marks[40..56].fill(1);
    values[..8].copy_from_slice(b"starting");
    let mut plan = [0; PLAN_BYTES];
    let returned = Library.plan(&wish, &marks, &values, &mut plan);
    assert_eq!(answer_of(returned), DONE);
    let mut want = include_bytes!("../../examples/accounts_before.session").to_vec();
    let transfers = transfers_of(&plan[..value_of(returned) * TRANSFER_BYTES]);
    want.extend(lines_of(&transfers));
    assert_eq!(want, include_bytes!("../../examples/accounts_kept.session"));
}
