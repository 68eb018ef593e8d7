//! The answers on a small page, as tests/c/entry_points.c has them from C.

use levzhada::{Measure, Refusal, Rule};

/// `<body class="c d"><p id="">a  b </p><!--x--><p>&amp;</p></body>`
const PAGE: &[u8] = b"       6       2      27       0
       0       1       0       0       4       0       0       1
       1       1       0       4       1       0       0       1
       2       3       0       0       0       5       5       0
       1       8       0       0       0      10       1       0
       1       1       0       4       1       0       0       0
       2       3       0       0       0      11       1       0
      12       5      17       3
      20       2      22       0
bodypa  b x&classc didno !!";

#[test]
fn verdicts() {
    assert_eq!(levzhada::check(PAGE), Ok(()));
    assert_eq!(levzhada::check(b""), Err(Refusal::Length(33)));
    assert_eq!(levzhada::check(&PAGE[1..]), Err(Refusal::Format(0)));
    let damaged = |at: usize, byte: u8| {
        let mut sheet = PAGE.to_vec();
        sheet[at] = byte;
        levzhada::check(&sheet).unwrap_err()
    };
    assert_eq!(damaged(31, b'6'), Refusal::Counts);
    assert_eq!(damaged(33 + 65 + 7, b'2'), Refusal::Tree(2));
    assert_eq!(damaged(33 + 15, b'2'), Refusal::Kind(1));
    assert_eq!(damaged(33 + 2 * 65 + 46, b'9'), Refusal::Range(3));
    assert_eq!(damaged(PAGE.len() - 14, 0xff), Refusal::Encoding(7));
    assert_eq!(damaged(PAGE.len() - 14, 0xff).numbers(), (17, 7));
}

#[test]
fn rows() {
    assert_eq!(levzhada::parent(PAGE, 0), Ok(None));
    assert_eq!(levzhada::parent(PAGE, 5), Ok(Some(4)));
    assert_eq!(levzhada::parent(PAGE, 6), Err(Refusal::Row(6)));
    assert_eq!(levzhada::first_child(PAGE, 0), Ok(Some(1)));
    assert_eq!(levzhada::first_child(PAGE, 3), Ok(None));
    assert_eq!(levzhada::next_sibling(PAGE, 1), Ok(Some(3)));
    assert_eq!(levzhada::next_sibling(PAGE, 4), Ok(None));
    assert_eq!(levzhada::next_sibling(b"", 4), Err(Refusal::Length(33)));
    assert_eq!(levzhada::text_length(PAGE, 0), Ok(5));
    assert_eq!(
        levzhada::text_length(PAGE, 7).unwrap_err().to_string(),
        "35: row 7 is not there, or no element"
    );
}

#[test]
fn visible_texts() {
    let ok = |text: &str| Ok(text.to_string());
    assert_eq!(levzhada::visible_text(PAGE, 0), ok("\n\na b\n\n&\n\n"));
    assert_eq!(levzhada::visible_text(PAGE, 1), ok("a b "));
    assert_eq!(levzhada::visible_text(PAGE, 3), ok(""));
    assert_eq!(levzhada::visible_text(PAGE, 6), Err(Refusal::Row(6)));
    assert_eq!(levzhada::visible_text(b"", 6), Err(Refusal::Length(33)));
}

#[test]
fn attributes() {
    assert_eq!(levzhada::attribute(PAGE, 0, b"class"), Ok(Some(17..20)));
    assert_eq!(levzhada::attribute(PAGE, 1, b"id"), Ok(Some(22..22)));
    assert_eq!(levzhada::attribute(PAGE, 1, b"class"), Ok(None));
    assert_eq!(levzhada::attribute(PAGE, 1, b""), Ok(None));
    assert_eq!(levzhada::attribute(PAGE, 6, b"id"), Err(Refusal::Row(6)));
}

/// `<body>xx..<a>xx..</a></body>`, of so many bytes of text and so many of them in the link.
fn linked(text: usize, link: usize) -> Vec<u8> {
    let lines = format!(
        "{:8}{:8}{:8}{:8}
       0       1       0       0       4       0       0       0
       1       3       0       0       0       5{:8}       0
       1       1       0       4       1       0       0       0
       2       3       0       0       0       5{:8}       0
bodya{}",
        4,
        0,
        5 + text,
        0,
        text - link,
        link,
        "x".repeat(text)
    );
    lines.into_bytes()
}

#[test]
fn measures() {
    let measure = |text, link, rule| levzhada::measure(&linked(text, link), 0, rule).unwrap();
    let share = |share, exceeds| Measure::Share { share, exceeds };
    assert_eq!(measure(100, 20, Rule::FIFTH_OF_500), share(0.2, false));
    assert_eq!(measure(100, 21, Rule::FIFTH_OF_500), share(0.21, true));
    assert_eq!(measure(500, 101, Rule::FIFTH_OF_500), share(0.202, true));
    assert_eq!(measure(501, 501, Rule::FIFTH_OF_500), Measure::TooLong);
    assert_eq!(measure(501, 501, Rule::FIFTH_OF_ANY), share(1.0, true));
    assert_eq!(
        measure(800, 480, Rule::THREE_FIFTHS_OF_800),
        share(0.6, false)
    );
    assert_eq!(
        measure(1500, 901, Rule::THREE_FIFTHS_OF_1500),
        share(901.0 / 1500.0, true)
    );
    assert_eq!(measure(100, 0, Rule::FIFTH_OF_ANY), Measure::NoLinks);
    assert_eq!(measure(0, 0, Rule::FIFTH_OF_ANY), Measure::NoText);
    assert_eq!(
        levzhada::measure(PAGE, 2, Rule::FIFTH_OF_ANY),
        Err(Refusal::Row(2))
    );
}

#[test]
fn patterns() {
    assert_eq!(levzhada::matches(15, b"ad"), Ok(true));
    assert_eq!(levzhada::matches(15, b"ad x"), Ok(false));
    assert_eq!(levzhada::matches(0, b""), Ok(false));
    assert_eq!(levzhada::matches(21, b"ad"), Err(Refusal::Pattern(21)));
}

#[test]
fn texts() {
    let ok = |bytes: &[u8]| Ok(bytes.to_vec());
    assert_eq!(levzhada::collapse(b" a \n\tb"), ok(b" a b"));
    assert_eq!(levzhada::collapse(b""), ok(b""));
    assert_eq!(levzhada::escape(b"a<\"&"), ok(b"a&lt;&quot;&amp;"));
    assert_eq!(levzhada::escape(b"ab"), ok(b"ab"));
    assert_eq!(levzhada::unescape(b"a&lt;&quot;&amp;"), ok(b"a<\"&"));
    assert_eq!(levzhada::unescape(b""), ok(b""));
}

#[test]
fn escapes_read_back() {
    let characters = |text: &[u8]| levzhada::unescape(text).unwrap();
    assert_eq!(characters(b"&quot;&lt;&gt;&amp;"), b"\"<>&");
    assert_eq!(characters(b"&amp;lt;"), b"&lt;");
    assert_eq!(characters(b"&amp;amp;amp;"), b"&amp;amp;");
    assert_eq!(characters(b"a&amp;b"), b"a&b");
    assert_eq!(characters(b"<p>\"x\"</p>;amp;"), b"<p>\"x\"</p>;amp;");
    assert_eq!(characters(b"\xff\0&gt;\x80\xc3"), b"\xff\0>\x80\xc3");
}

#[test]
fn ampersands_that_start_no_name() {
    let refused = |text: &[u8]| levzhada::unescape(text).unwrap_err();
    for text in ["&amp", "&AMP;", "&#38;", "&apos;", "&", "&;", "& amp;"] {
        assert_eq!(refused(text.as_bytes()), Refusal::Entity(0), "{text}");
    }
    assert_eq!(refused(b"&amp;&x;"), Refusal::Entity(5));
    assert_eq!(refused(b"aaaa&"), Refusal::Entity(4));
    assert_eq!(refused(b"&&amp;"), Refusal::Entity(0));
    assert_eq!(refused(b"\xc3\xa9&&"), Refusal::Entity(2));
    assert_eq!(
        refused(b"&amp;&x;").to_string(),
        "51: the ampersand at 5 starts no name"
    );
}

/// Texts of 0 to 200 bytes, of every value, in which those with a name are frequent.
fn any_bytes() -> impl Iterator<Item = Vec<u8>> {
    let mut state: u32 = 1;
    let mut next = move || {
        state = state.wrapping_mul(1_664_525).wrapping_add(1_013_904_223);
        (state >> 16) as usize
    };
    (0..=200).map(move |length| {
        let byte = |n: usize| *b"&\"<>".get(n % 16).unwrap_or(&((n >> 4) as u8));
        (0..length).map(|_| byte(next())).collect()
    })
}

#[test]
fn what_was_escaped_comes_back() {
    for text in any_bytes() {
        let escaped = levzhada::escape(&text).unwrap();
        assert_eq!(levzhada::unescape(&escaped).unwrap(), text);
        let at = escaped.len();
        let cut = [escaped, b"&lt".to_vec()].concat();
        assert_eq!(levzhada::unescape(&cut), Err(Refusal::Entity(at)));
    }
}

/// An accepted text is what `escape` writes of its characters, unless a `"`, `<` or `>` stands bare in it.
#[test]
fn what_was_read_back_is_escaped_again() {
    for text in any_bytes() {
        for bare in ["", "\"", "<", ">"] {
            let mut escaped = levzhada::escape(&text).unwrap();
            escaped.extend(bare.bytes());
            escaped.extend(b"&lt;a");
            let characters = levzhada::unescape(&escaped).unwrap();
            let again = levzhada::escape(&characters).unwrap();
            assert_eq!(again == escaped, bare.is_empty());
        }
    }
}

/// What the header defines a name as.
fn defined(name: &str) -> &'static str {
    let header = include_str!("../../../include/levzhada.h");
    let line = header
        .lines()
        .find(|l| l.starts_with("#define") && l.split(' ').nth(1) == Some(name));
    line.and_then(|l| l.split(' ').nth(2)).expect(name)
}

#[test]
fn the_header_has_the_same_numbers() {
    let named = [
        ("WRONG_LENGTH", Refusal::Length(0)),
        ("WRONG_FORMAT", Refusal::Format(0)),
        ("WRONG_COUNTS", Refusal::Counts),
        ("WRONG_TREE", Refusal::Tree(0)),
        ("WRONG_KIND", Refusal::Kind(0)),
        ("WRONG_RANGE", Refusal::Range(0)),
        ("NOT_UTF8", Refusal::Encoding(0)),
        ("TOO_MANY_LIST_LEVELS", Refusal::ListLevels(0)),
        ("TOO_MANY_OPEN_ROWS", Refusal::OpenRows(0)),
        ("WORK_TOO_SHORT", Refusal::Work(0)),
        ("OUT_TOO_SHORT", Refusal::Out(0)),
        ("NO_ROW", Refusal::Row(0)),
        ("NO_PATTERN", Refusal::Pattern(0)),
        ("NO_ENTITY", Refusal::Entity(0)),
        ("UNESCAPE_OUT_TOO_SHORT", Refusal::Characters(0)),
        ("VISIBLE_TEXT_OUT_TOO_SHORT", Refusal::VisibleText(0)),
    ];
    assert_eq!(defined("LEVZHADA_ACCEPTED"), "0");
    assert_eq!(defined("LEVZHADA_WRONG_OPTIONS"), "33");
    assert_eq!(defined("LEVZHADA_INPUT_TOO_LONG"), "34");
    for (name, refusal) in named {
        let number = defined(&format!("LEVZHADA_{name}"));
        assert_eq!(number, refusal.numbers().0.to_string(), "{name}");
    }
}

#[test]
fn the_header_has_the_same_version_and_stack() {
    assert_eq!(defined("LEVZHADA_STACK"), levzhada::STACK.to_string());
    let version = env!("CARGO_PKG_VERSION");
    assert_eq!(defined("LEVZHADA_VERSION"), format!("\"{version}\""));
}
