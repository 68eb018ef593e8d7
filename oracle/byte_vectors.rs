// The answers that crates/byte_vectors must print: the functions of html2text.rs, unchanged, and std::str::from_utf8.
// The Rust takes &str. Bytes that are not UTF-8 go in as one character each (U+0080 to U+00FF stand for 0x80 to 0xFF),
// which these functions treat alike, and come back the same way.
#![allow(dead_code)]
mod rust {
    include!(concat!(env!("ORACLE"), "/html2text_bytes.rs"));
    pub fn stripped(s: &str) -> String {
        let mut t = s.to_owned();
        rstrip(&mut t);
        t
    }
    pub fn escaped(s: &str) -> String {
        escape(s)
    }
}

const INPUTS: &[&[u8]] = &include!(concat!(env!("ORACLE"), "/inputs.rs"));

fn through(s: &[u8], f: impl Fn(&str) -> String) -> Vec<u8> {
    match std::str::from_utf8(s) {
        Ok(t) => f(t).into_bytes(),
        Err(_) => {
            let wide: String = s.iter().map(|&b| b as char).collect();
            f(&wide).chars().map(|c| c as u8).collect()
        }
    }
}

fn hex(s: &[u8]) -> String {
    s.iter().map(|b| format!("{:02x}", b)).collect()
}

// Document 01's numbers for a text and a lent buffer of 0xEE.
fn written(text: &[u8], room: usize) -> String {
    if room < text.len() {
        return format!(" 32 {} 0 {}", text.len(), hex(&vec![0xEE; room]));
    }
    let mut out = text.to_vec();
    out.resize(room, 0);
    format!(" 0 0 {} {}", text.len(), hex(&out))
}

fn rooms(text: &[u8]) -> String {
    let need = text.len();
    let mut s = written(text, need);
    if need > 0 {
        s += &written(text, need - 1);
    }
    s + &written(text, need + 3)
}

fn main() {
    let singles: Vec<Vec<u8>> = (0..=255u8).map(|b| vec![b]).collect();
    for s in INPUTS.iter().copied().chain(singles.iter().map(|v| &v[..])) {
        println!(
            "{} {} {} {} collapse{} escape{}",
            hex(s),
            if std::str::from_utf8(s).is_ok() { "utf8" } else { "other" },
            through(s, rust::stripped).len(),
            hex(&through(s, |t| rust::trim(t).to_owned())),
            rooms(&through(s, rust::collapse)),
            rooms(&through(s, rust::escaped)),
        );
    }
}
