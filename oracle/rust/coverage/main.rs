//! Cases from standard input; for each the counters that moved, to standard output: how many, and then number and count of each,
//! all as u32 in the machine's order. Built with `-C instrument-coverage` (COVERAGE=1 oracle/build.sh); oracle/coverage.py says
//! what the counters count.
use oracle::cases;
use std::io::{BufWriter, Read, Write};

unsafe extern "C" {
    static mut __start___llvm_prf_cnts: u64;
    static mut __stop___llvm_prf_cnts: u64;
}

fn counters() -> &'static mut [u64] {
    unsafe {
        let from = &raw mut __start___llvm_prf_cnts;
        let to = &raw mut __stop___llvm_prf_cnts;
        std::slice::from_raw_parts_mut(from, to.offset_from(from) as usize)
    }
}

fn main() {
    let mut bytes = vec![];
    std::io::stdin().read_to_end(&mut bytes).unwrap();
    let mut out = BufWriter::with_capacity(1 << 20, std::io::stdout().lock());
    for case in cases::unframed(&bytes) {
        counters().fill(0);
        std::hint::black_box(cases::answer(case));
        let moved: Vec<[u32; 2]> = counters().iter().enumerate().filter(|(_, n)| **n > 0).map(|(i, n)| [i as u32, *n as u32]).collect();
        out.write_all(&(moved.len() as u32).to_ne_bytes()).unwrap();
        for pair in moved {
            out.write_all(&pair[0].to_ne_bytes()).unwrap();
            out.write_all(&pair[1].to_ne_bytes()).unwrap();
        }
    }
}
