//! The line formats.

use reference::lines::answer_line;

#[test]
fn lines_that_cannot_be_read() {
    let bad = [
        "",
        "run",
        "walk -",
        "list",
        "list ",
        "list 4",
        "list 4G",
        "list 4A",
        "list - -",
        "list  -",
        "at -",
        "at - -1",
        "at - x",
        "run - 0 1 - 0 16384",
        "run - 0 1 - 0 16384 16384 0",
        "run - 0 1 - 0 16384 16384 0 -",
        "run - 0 1 - 0 16384 16384 - 0",
        "run - 0 1 - 0 16384 16384 4294967296 0",
        "run - 0 1 - 0 16384 16384 0 4294967296",
        "run - 0 1 - 0 16384 16384 0 0 0",
        "run - 4294967296 1 - 0 16384 16384",
        "run - 0 1 2147483648 0 16384 16384",
        "run - 0 1 1, 0 16384 16384",
        "run - +1 1 - 0 16384 16384",
        "mark - 0 1 - 0 16384 16384",
        "mark - 0 1 - 0 16384 16384 0",
        "mark - 0 1 - 0 16384 16384 00000",
        "mark - 0 1 - 0 16384 16384 - -",
        "mark - 0 1 - 0 16384 16384 0 0 -",
    ];
    for line in bad {
        assert_eq!(answer_line(line), "bad line", "{line}");
    }
}

#[test]
fn lines_at_the_edges_of_their_fields() {
    let refused = "0 8 0 0 0 0 0 0 - -";
    assert_eq!(
        answer_line("run - 4294967295 1 -2147483648,2147483647 0 16384 16384"),
        refused
    );
    assert_eq!(
        answer_line("run - 0 1 - 0 16384 16384 4294967295 4294967295"),
        refused
    );
    assert_eq!(
        answer_line("run - 0 4294967295 - 0 16384 16384"),
        "0 2 0 0 0 0 0 0 - -"
    );
    assert_eq!(
        answer_line("mark - 0 1 - 0 16384 16384 00"),
        format!("{refused} - -")
    );
    assert_eq!(answer_line("list -"), "-");
    assert_eq!(answer_line("list 41"), "n@0+1");
    assert_eq!(answer_line("at - 18446744073709551615"), "none");
}
