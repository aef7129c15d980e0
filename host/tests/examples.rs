//! What the examples write, by the rules of document 01.

#[path = "examples/run.rs"]
mod run;

use run::{written, written_on};

const FIRST: &str = "\
entry zones outputs answer
1 11111 100000000 0
2 11110 010001000 0
";

/// The greatest risk is held for T4, 50 ticks, after the second train has gone back: document 01, C9. A head whose board has failed
/// keeps its sounder alone: C12.
const BENCH: &str = r#"row 1 is line 8 of the plan
row 2: occupied 0 4, clearing: VI S1 and VI S1
occupied 0 4 will be refused by 6: occupied, free, failed or not failed already
row 3: occupied 0 4, clearing: VI S1 and VI S1
row 4: occupied 1 0, greatest risk: RF R+ S3 and RF R+ S3
row 5: head 1 8, greatest risk: RF R+ S3 and S3
row 6: free 1 0, greatest risk: RF R+ S3 and S3
row 7: clock 50, clearing: VI S1 and S1
back to row 6: greatest risk
forward to row 7: clearing
forward again is refused 14: no such row; still at row 7
{"station":7,"aspect":1,"tracks":[[1,1,1,1,0],[1,1,1,1,1]]}
"#;

/// A train comes, is entered twice by mistake, and a second one; the mistake is undone.
const TYPED: &str = "\
normalise
occupied 0 4
occupied 0 4
occupied 1 0
ocupied 1 0
step 2
step 9
undo 2
occupied 1 0
sheet
";

const EDITED: &str = "\
row 1: permitted
row 2: clearing
row 3: clearing
occupied 0 4: refused 6: occupied, free, failed or not failed already
row 4: greatest risk
ocupied 1 0: not a setting, and not a kind of report
row 2 shows clearing
step 9: refused 14: no such row
2 undone
row 3: greatest risk
entry zones outputs answer
1 11111 100000000 0
2 11110 010001000 0
3 01110 000110010 0
";

#[test]
fn the_editor_does_what_is_typed() {
    assert_eq!(written_on("editor", TYPED), EDITED);
}

#[test]
fn the_examples_write_what_they_should() {
    assert_eq!(written("first"), FIRST);
    assert_eq!(written("bench"), BENCH);
}
