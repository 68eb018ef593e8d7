// The strings that tests/c/patterns.c tries and the answers that it must get, for oracle/pattern_vectors.sh.
// A string a line; LF inside a string is written as the byte 1. An answer is six hexadecimal digits: bit p says whether
// the Rust's `matches` finds regex p. The first line is document 01's answer for pattern 21.
// For each alternative of each regex (a way of a `|`, a part there or not, a byte of a class, ..) the strings have some
// that fit by way of it, and some that one edit of such a string makes and that the regex no longer fits.
mod filters_regexes;
use filters_regexes::{is_yes, REGEXES};
use std::collections::HashSet;

const LONGEST: usize = 60;

// splitmix64 with a fixed seed.
struct Random(u64);

impl Random {
    fn below(&mut self, n: usize) -> usize {
        self.0 = self.0.wrapping_add(0x9E3779B97F4A7C15);
        let mut z = self.0;
        z = (z ^ (z >> 30)).wrapping_mul(0xBF58476D1CE4E5B9);
        z = (z ^ (z >> 27)).wrapping_mul(0x94D049BB133111EB);
        ((z ^ (z >> 31)) % n as u64) as usize
    }
    fn one<'a, T>(&mut self, from: &'a [T]) -> &'a T {
        &from[self.below(from.len())]
    }
}

// ---- the regexes, from their own text

// Each choice (of a byte, a way, a number of times) has a number, and says how many ways it has.
enum Part {
    Start,
    End,
    Byte(usize, Vec<char>),
    Sequence(Vec<Part>),
    Ways(usize, Vec<Part>),
    Times(usize, Box<Part>, Vec<usize>),
}

struct Parser<'a> {
    text: &'a [u8],
    at: usize,
    // the ways of each choice so far
    choices: Vec<usize>,
}

impl Parser<'_> {
    fn next(&self) -> Option<u8> {
        self.text.get(self.at).copied()
    }
    fn eat(&mut self, s: &str) -> bool {
        let here = self.text[self.at..].starts_with(s.as_bytes());
        if here {
            self.at += s.len();
        }
        here
    }
    fn choice(&mut self, ways: usize) -> usize {
        self.choices.push(ways);
        self.choices.len() - 1
    }
    fn ways(&mut self) -> Part {
        let mut ways = vec![self.sequence()];
        while self.eat("|") {
            ways.push(self.sequence());
        }
        if ways.len() == 1 {
            return ways.remove(0);
        }
        Part::Ways(self.choice(ways.len()), ways)
    }
    fn sequence(&mut self) -> Part {
        let mut parts = vec![];
        while !matches!(self.next(), None | Some(b'|' | b')')) {
            let part = self.single();
            parts.push(self.repeated(part));
        }
        Part::Sequence(parts)
    }
    fn repeated(&mut self, part: Part) -> Part {
        let times = match self.next() {
            Some(b'?') => vec![0, 1],
            Some(b'*') => vec![0, 1, 2, 3],
            Some(b'+') => vec![1, 2, 3],
            _ => return part,
        };
        self.at += 1;
        Part::Times(self.choice(times.len()), Box::new(part), times)
    }
    fn single(&mut self) -> Part {
        if self.eat("(?:") {
            let part = self.ways();
            assert!(self.eat(")"));
            return part;
        }
        if self.eat("[") {
            let mut class = vec![];
            while !self.eat("]") {
                class.extend(self.class_item());
            }
            return Part::Byte(self.choice(class.len()), class);
        }
        if self.eat("^") {
            return Part::Start;
        }
        if self.eat("$") {
            return Part::End;
        }
        let class = self.class_item();
        assert!(class.len() > 1 || class[0].is_ascii_alphanumeric() || "-_;:".contains(class[0]), "{:?}", class);
        if class.len() == 1 {
            // no choice: outside the numbers
            return Part::Byte(usize::MAX, class);
        }
        Part::Byte(self.choice(class.len()), class)
    }
    fn class_item(&mut self) -> Vec<char> {
        if self.eat("\\s") {
            return vec!['\t', '\n', '\x0B', '\x0C', '\r', ' '];
        }
        let first = self.next().unwrap();
        self.at += 1;
        if self.next() == Some(b'-') && self.text.get(self.at + 1).is_some_and(u8::is_ascii_alphanumeric) && self.in_class() {
            let last = self.text[self.at + 1];
            self.at += 2;
            return (first..=last).map(|b| b as char).collect();
        }
        vec![first as char]
    }
    // Is the place inside [..]?
    fn in_class(&self) -> bool {
        let before = &self.text[..self.at];
        before.iter().rposition(|&b| b == b'[') > before.iter().rposition(|&b| b == b']')
    }
}

impl Part {
    // Is the choice of this number in here?
    fn has(&self, choice: usize) -> bool {
        match self {
            Part::Start | Part::End => false,
            Part::Byte(n, _) => *n == choice,
            Part::Sequence(parts) => parts.iter().any(|p| p.has(choice)),
            Part::Ways(n, parts) => *n == choice || parts.iter().any(|p| p.has(choice)),
            Part::Times(n, part, _) => *n == choice || part.has(choice),
        }
    }
}

struct Fit {
    text: Vec<char>,
    at_start: bool,
    at_end: bool,
}

// A string by way of one choice; the others at random.
fn expand(part: &Part, choice: usize, way: usize, random: &mut Random, fit: &mut Fit) {
    match part {
        Part::Start => fit.at_start = true,
        Part::End => fit.at_end = true,
        Part::Byte(n, class) => fit.text.push(if *n == choice { class[way] } else { *random.one(class) }),
        Part::Sequence(parts) => parts.iter().for_each(|p| expand(p, choice, way, random, fit)),
        Part::Ways(n, parts) => {
            let inside = parts.iter().position(|p| p.has(choice));
            let taken = if *n == choice { way } else { inside.unwrap_or_else(|| random.below(parts.len())) };
            expand(&parts[taken], choice, way, random, fit);
        }
        Part::Times(n, part, times) => {
            let count = if *n == choice {
                times[way]
            } else if part.has(choice) {
                1
            } else {
                *random.one(times)
            };
            (0..count).for_each(|_| expand(part, choice, way, random, fit));
        }
    }
}

// ---- strings

const AROUND: &[&str] = &["", "", "", "x", "col-md-6", "é", "top ", "is_", "ad", "Ü-"];

fn any_case(text: &mut [char], random: &mut Random) {
    let kind = random.below(6);
    for c in text {
        if kind == 0 || (kind < 3 && random.below(2) == 0) {
            *c = c.to_ascii_uppercase();
        }
    }
}

fn fitting(part: &Part, choice: usize, way: usize, random: &mut Random) -> Vec<char> {
    let mut fit = Fit { text: vec![], at_start: false, at_end: false };
    expand(part, choice, way, random, &mut fit);
    any_case(&mut fit.text, random);
    let mut text: Vec<char> = if fit.at_start { vec![] } else { random.one(AROUND).chars().collect() };
    text.extend(fit.text);
    if !fit.at_end {
        text.extend(random.one(AROUND).chars());
    }
    text
}

// What stands at the ends of a name or between its words, blanks and others.
const BETWEEN: &[char] = &[
    ' ', '\t', '\n', '\x0B', '\x0C', '\r', '-', '_', '.', ':', ';', '/', '0', 'a', 'Z', '\0', '\x08', '\x0E', '\x1F', '\u{85}', '\u{A0}', '\u{2003}',
    '\u{3000}',
];

const OTHERS: &[char] = &['e', 's', 'x', 'T', '0', '9', '@', '[', '`', '{', '/', ':', 'é', 'ß', '\u{17F}', '\u{212A}', '\u{1F600}'];

fn edited(text: &[char], random: &mut Random) -> Vec<char> {
    let mut s = text.to_vec();
    let at = random.below(s.len());
    match random.below(14) {
        0 | 1 => {
            s.remove(at);
        }
        2 => s.insert(at, s[at]),
        3 => s[at] = *random.one(OTHERS),
        4 => s[at] = if s[at].is_ascii_lowercase() { (b'a' + random.below(26) as u8) as char } else { *random.one(BETWEEN) },
        5 => s[at] = if s[at].is_ascii_uppercase() { s[at].to_ascii_lowercase() } else { s[at].to_ascii_uppercase() },
        // the neighbours of the letters, and what only Unicode's case folding takes for one
        6 => {
            s[at] = match s[at] {
                's' | 'S' => '\u{17F}',
                'k' | 'K' => '\u{212A}',
                c => char::from_u32(c as u32 ^ 0x40).filter(|&d| d != '\x01').unwrap_or(c),
            }
        }
        // a blank, `-` or `_` for another
        7 | 8 => {
            let places: Vec<usize> = (0..s.len()).filter(|&i| !s[i].is_ascii_alphanumeric()).collect();
            match places.len() {
                0 => s.insert(at, *random.one(BETWEEN)),
                n => s[places[random.below(n)]] = *random.one(BETWEEN),
            }
        }
        9 => s[0] = *random.one(BETWEEN),
        10 => *s.last_mut().unwrap() = *random.one(BETWEEN),
        11 => s.insert(0, *random.one(BETWEEN)),
        12 => s.push(*random.one(BETWEEN)),
        _ => {
            let next = (at + 1) % s.len();
            s.swap(at, next);
        }
    }
    s
}

struct Strings {
    list: Vec<String>,
    seen: HashSet<String>,
}

impl Strings {
    // Is it new?
    fn add(&mut self, s: &[char]) -> bool {
        let s: String = s.iter().collect();
        assert!(!s.contains('\x01'));
        let new = s.len() <= LONGEST && self.seen.insert(s.clone());
        if new {
            self.list.push(s);
        }
        new
    }
}

fn says(p: usize, s: &[char]) -> bool {
    is_yes(p, &s.iter().collect::<String>())
}

// For one regex: strings by way of every alternative, and near misses of them.
fn alternatives(p: usize, random: &mut Random, strings: &mut Strings) {
    let mut parser = Parser { text: REGEXES[p].as_str().as_bytes(), at: 0, choices: vec![] };
    let part = parser.ways();
    assert_eq!(parser.at, parser.text.len());
    for (choice, &ways) in parser.choices.iter().enumerate() {
        for way in 0..ways {
            let (mut yes, mut no) = (0, 0);
            for _ in 0..2000 {
                let fit = fitting(&part, choice, way, random);
                if says(p, &fit) && yes < 3 {
                    yes += strings.add(&fit) as usize;
                }
                let near = edited(&fit, random);
                if says(p, &fit) && !says(p, &near) && no < 8 {
                    no += strings.add(&near) as usize;
                }
            }
            // a short regex has few strings by way of one alternative
            assert!(no >= 5 && yes >= 1, "regex {} choice {} way {}: {} yes, {} no", p, choice, way, yes, no);
        }
    }
}

// Enough strings with the answer yes, most of them with something around or with a harmless edit.
fn more(p: usize, random: &mut Random, strings: &mut Strings) {
    let mut parser = Parser { text: REGEXES[p].as_str().as_bytes(), at: 0, choices: vec![] };
    let part = parser.ways();
    while strings.list.iter().filter(|s| is_yes(p, s)).count() < 150 {
        let fit = fitting(&part, usize::MAX - 1, 0, random);
        let near = edited(&fit, random);
        if says(p, &near) {
            strings.add(&near);
        }
    }
}

// Class names of several words, from strings that fit and others.
fn names(random: &mut Random, strings: &mut Strings) {
    let words = [
        "post", "nav", "main", "content", "wrapper", "header", "site", "ad", "ads", "banner", "social", "share", "comment", "list", "logo", "print", "search", "box",
        "side", "bar", "menu", "item", "login", "user", "info", "hidden", "modal", "window", "skip", "link", "prev", "next", "meta", "data", "date", "line", "by",
        "author", "footer", "cookie", "consent", "related", "links", "gallery", "carousel", "spinner", "short-view-count", "col", "md", "6", "js", "btn", "primary",
        "display", "none", "visibility", "text", "l", "m", "wp",
    ];
    let target = strings.list.len() + 1500;
    while strings.list.len() < target {
        let mut s = vec![];
        for i in 0..1 + random.below(4) {
            if i > 0 {
                s.extend(random.one(&[" ", " ", "-", "-", "_", "", "--", "__", "\t", ":", "; "]).chars());
            }
            let mut word: Vec<char> = random.one(&words).chars().collect();
            if random.below(5) == 0 {
                word[0] = word[0].to_ascii_uppercase();
            }
            s.extend(word);
        }
        strings.add(&s);
    }
}

fn main() {
    let mut random = Random(2026);
    let mut strings = Strings { list: vec![], seen: HashSet::new() };
    strings.add(&['a', 'd']);
    strings.add(&[]);
    assert_eq!(REGEXES.len(), 21);
    for p in 0..21 {
        alternatives(p, &mut random, &mut strings);
    }
    for p in 0..21 {
        more(p, &mut random, &mut strings);
    }
    names(&mut random, &mut strings);

    let (mut input, mut answers, mut yes) = (String::new(), "36 21\n".to_owned(), [0; 21]);
    for s in &strings.list {
        let mut mask = 0;
        for p in 0..21 {
            if is_yes(p, s) {
                mask |= 1 << p;
                yes[p] += 1;
            }
        }
        input += &s.replace('\n', "\x01");
        input += "\n";
        answers += &format!("{:06x}\n", mask);
    }
    let all = strings.list.len();
    assert!(all >= 5000 && input.len() < 1 << 18);
    assert!(yes.iter().all(|&n| n >= 100 && all - n >= 100));
    for c in "\t\n\x0B\x0C\r -_".chars() {
        assert!(strings.list.iter().filter(|s| s.contains(c)).count() >= 100);
    }
    let args: Vec<String> = std::env::args().collect();
    std::fs::write(&args[1], &input).unwrap();
    std::fs::write(&args[2], &answers).unwrap();
    println!("{} strings, {} bytes; yes for each regex: {:?}", all, input.len(), yes);
}
