//! Marks by name; tests/c/marks.c has more sheets.

use levzhada::{extract, mark, Formatting, Options, Refusal};

/// `<script>a</script><p><noscript>n</noscript><img alt=i><label><input value=v></label>t</p><SCRIPT>S</SCRIPT><!--script-->style`
const PAGE: &str = "      14       2      57       0
       0       1       0       0       4       0       0       0
       1       1       0       4       6       0       0       0
       2       3       0       0       0      10       1       0
       1       1       0      11       1       0       0       0
       2       1       0      12       8       0       0       0
       3       3       0       0       0      20       1       0
       2       1       0      21       3       0       0       1
       2       1       0      28       5       0       0       0
       3       1       0      33       5       0       0       1
       2       3       0       0       0      44       1       0
       1       1       0      45       6       0       0       0
       2       3       0       0       0      51       1       0
       1       8       0       0       0       4       6       0
       1       3       0       0       0      52       5       0
      24       3      27       1
      38       5      43       1
bodyscriptapnoscriptnimgaltilabelinputvaluevtSCRIPTSstyle";

/// The sheet with another root row.
fn page(root: usize) -> Vec<u8> {
    let mut sheet = PAGE.as_bytes().to_vec();
    sheet[24..32].copy_from_slice(format!("{root:8}").as_bytes());
    sheet
}

/// The sheet with these rows marked: a row's skip ends behind its third column.
fn marked(mut sheet: Vec<u8>, rows: &[usize]) -> Vec<u8> {
    for row in rows {
        sheet[33 + 65 * row + 3 * 8 - 1] = b'1';
    }
    sheet
}

fn check_marks(root: usize, options: &Options, noscript: bool, rows: &[usize]) {
    let mut sheet = page(root);
    assert_eq!(mark(&mut sheet, options, noscript), Ok(rows.len()));
    assert_eq!(sheet, marked(page(root), rows));
    assert_eq!(mark(&mut sheet, options, noscript), Ok(0));
    assert_eq!(sheet, marked(page(root), rows));
}

#[test]
fn marks() {
    let standing = Options::default();
    check_marks(0, &standing, false, &[1, 4, 7, 8]);
    check_marks(0, &standing, true, &[1, 7, 8]);
    let mut options = standing;
    options.alt_texts = false;
    check_marks(0, &options, false, &[1, 4, 6, 7, 8]);
    let mut options = standing;
    options.form_fields = true;
    check_marks(0, &options, false, &[1, 4]);
    check_marks(3, &standing, false, &[4, 7, 8]);
    check_marks(1, &standing, false, &[]);
    check_marks(7, &standing, false, &[8]);
}

#[test]
fn texts() {
    let mut off = Options::default();
    off.formatting = Formatting::Off;
    let mut sheet = page(0);
    assert_eq!(extract(&sheet, &off).unwrap().text, "a nit Sstyle");
    assert_eq!(mark(&mut sheet, &off, false), Ok(4));
    assert_eq!(extract(&sheet, &off).unwrap().text, "it Sstyle");
}

#[test]
fn marked_rows_stay() {
    let standing = Options::default();
    let mut sheet = marked(page(0), &[0, 3, 4, 13]);
    assert_eq!(mark(&mut sheet, &standing, false), Ok(3));
    assert_eq!(sheet, marked(page(0), &[0, 1, 3, 4, 7, 8, 13]));
}

#[test]
fn a_refused_sheet_is_unchanged() {
    let row = |i: usize| 33 + 65 * i;
    let pool = PAGE.len() - 57;
    let damaged = [
        (0, b'x', Refusal::Format(0)),
        (31, b'9', Refusal::Tree(0)),
        (30, b'9', Refusal::Counts),
        (23, b'8', Refusal::Length(PAGE.len() + 1)),
        (row(13) + 64, b' ', Refusal::Format(14)),
        (row(8) + 23, b'2', Refusal::Kind(9)),
        (row(2) + 7, b'3', Refusal::Tree(3)),
        (row(1) + 38, b'9', Refusal::Range(2)),
        (pool + 52, 0xff, Refusal::Encoding(14)),
    ];
    for (at, byte, refusal) in damaged {
        let mut sheet = page(0);
        sheet[at] = byte;
        let before = sheet.clone();
        assert_eq!(mark(&mut sheet, &Options::default(), false), Err(refusal));
        assert_eq!(sheet, before, "{refusal}");
    }
    assert_eq!(
        mark(&mut [], &Options::default(), true),
        Err(Refusal::Length(33))
    );
}
