//! The program's text.

use independent::text::answer;

const SHOP: &str = "2 10 0 1 2 4 2 2\n0 1\n";

fn said(input: &str) -> String {
    String::from_utf8(answer(input.as_bytes())).unwrap()
}

#[test]
fn the_input_and_output_of_the_rules() {
    let output = "slot phase first width state message length\n\
        0 f 0 0 X - 1\n1 t 0 2 - - 1\n2 t 2 2 X - 1\n3 t 2 1 X - 1\n4 s 0 1 B 0 3\n7 s 1 1 B 1 2\n9 t 3 1 - - 1\n\
        10 f 0 0 B 2 1\ndone 8 11 3 0\n";
    assert_eq!(said(&format!("{SHOP}0 0 25 3\n1 0 28 2\n0 0 100 1\n")), output);
    assert_eq!(
        said(&format!("{SHOP}0000000000 00 025 3\n1 0 28 2\n0 0 100 1\n")),
        output
    );
}

#[test]
fn a_shop_without_messages_is_done() {
    assert_eq!(
        said(SHOP),
        "slot phase first width state message length\ndone 0 0 0 0\n"
    );
}

#[test]
fn the_budget_is_4096_events() {
    let output = said(&format!("{SHOP}0 1000000 1 1\n"));
    assert!(output.ends_with("\n4095 f 0 0 - - 1\nbudget 4096 4096 0 0\n"));
    assert_eq!(output.lines().count(), 4_098);
}

#[test]
fn text_that_breaks_the_rules_is_refused_before_all_else() {
    let damaged = [
        "",
        "\n",
        "\n\n",
        "2 10 0 1 2 4 2 2\n",
        "2 10 0 1 2 4 2 2\n0 1",
        "2 10 0 1 2 4 2 2\n\n",
        "2 10 0 1 2 4 2 2\n0 1\n\n",
        "2 10 0 1 2 4 2 2\n0 1\n0 0 25 3",
        "2 10 0 1 2 4 2\n0 1\n",
        "2 10 0 1 2 4 2 2 2\n0 1\n",
        " 2 10 0 1 2 4 2 2\n0 1\n",
        "2 10 0 1 2 4 2 2 \n0 1\n",
        "2  10 0 1 2 4 2 2\n0 1\n",
        "2\t10 0 1 2 4 2 2\n0 1\n",
        "2 10 0 1 2 4 2 2\r\n0 1\r\n",
        "2 10 0 1 2 4 2 2\n0 +1\n",
        "2 10 0 1 2 4 2 2\n0 1\n0 0 25\n",
        "2 10 0 1 2 4 2 2\n0 1\n0 0 25 3 0\n",
        "2 10 0 1 2 4 2 2\n0 1\n0 0 25 4294967296\n",
        "2 10 0 1 2 4 2 2\n0 1\n0 0 25 9999999999\n",
        "2 10 0 1 2 4 2 2\n0 1\n0 0 25 00000000003\n",
        "99 10 0 1 99 4 2 2\n0 1\n0 0 25 x\n",
    ];
    for input in damaged {
        assert_eq!(said(input), "refused 13\n", "{input:?}");
    }
}

#[test]
fn an_input_has_at_most_65536_bytes() {
    let owners = "1 ".repeat(32_759);
    let exact = format!("2 10 0 1 2 4 2 2\n{owners}1\n");
    assert_eq!(exact.len(), 65_537);
    assert_eq!(said(&exact), "refused 13\n");
    let exact = exact.replacen("10", "9", 1);
    assert_eq!(exact.len(), 65_536);
    assert_eq!(said(&exact), "refused 8\n");
}

#[test]
fn numbers_out_of_range_are_refused_in_their_turn() {
    assert_eq!(said("4294967295 10 0 1 2 4 2 2\n0 1\n"), "refused 6\n");
    assert_eq!(said("2 10 0 1 1 4 2 2\n0 1\n"), "refused 1\n");
    assert_eq!(said("2 10 0 1 2 6 2 2\n0 1\n"), "refused 2\n");
    assert_eq!(said("2 0 0 1 2 4 2 2\n0 256\n"), "refused 7\n");
    assert_eq!(said("2 10 0 1 2 4 2 2\n0 256\n0 0 0 0\n"), "refused 8\n");
    assert_eq!(said(&format!("{SHOP}{}", "0 0 25 1\n".repeat(513))), "refused 9\n");
    // Ends 1 to 25 are in time, the other 487 are not.
    assert!(said(&format!("{SHOP}{}", "0 0 25 1\n".repeat(512))).ends_with("\ndone 512 512 512 487\n"));
}
