//! oracle run: cases from standard input, the Rust's answers to standard output.
//! oracle generate SEED FROM COUNT: cases to standard output, each by its number alone.
//! oracle small FROM COUNT: of all small pages, those of these numbers, as far as there are any.
//! oracle marks: cases from standard input; what the Rust takes out of each by name, with noscript off and on, to standard output.
//! oracle listed SEED FROM COUNT: the cases of `generate`, many of their names from the lists that the Rust takes out.
use oracle::{cases, generate};
use std::io::{BufWriter, Read, Write};

fn main() {
    let args: Vec<String> = std::env::args().collect();
    let number = |k: usize| args.get(k).and_then(|s: &String| s.parse::<u64>().ok()).expect("a number");
    let mut out = BufWriter::with_capacity(1 << 20, std::io::stdout().lock());
    match args.get(1).map(String::as_str) {
        Some("run") => {
            let mut bytes = vec![];
            std::io::stdin().read_to_end(&mut bytes).unwrap();
            for case in cases::unframed(&bytes) {
                out.write_all(&cases::answer(case).bytes()).unwrap();
            }
        }
        Some("marks") => {
            let mut bytes = vec![];
            std::io::stdin().read_to_end(&mut bytes).unwrap();
            for case in cases::unframed(&bytes) {
                for noscript in [false, true] {
                    out.write_all(cases::taken_out(case, noscript).as_bytes()).unwrap();
                }
            }
        }
        Some("listed") => {
            for i in number(3)..number(3) + number(4) {
                out.write_all(&cases::framed(&generate::listed_case(number(2), i))).unwrap();
            }
        }
        Some("generate") => {
            for i in number(3)..number(3) + number(4) {
                out.write_all(&cases::framed(&generate::case(number(2), i))).unwrap();
            }
        }
        Some("small") => {
            for k in (number(2) as usize..generate::small_cases()).take(number(3) as usize) {
                out.write_all(&cases::framed(&generate::small_case(k))).unwrap();
            }
        }
        _ => panic!("run, generate SEED FROM COUNT, small FROM COUNT, marks, or listed SEED FROM COUNT"),
    }
}
