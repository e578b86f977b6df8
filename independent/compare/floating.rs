//! Compares the proved F_floating arithmetic, over its C interface, with the independent program.
//!
//!     compare_floating [pairs] [seed]
//!
//! For each operation `pairs` operands or pairs of them are drawn (1,000,000 if not said), and each is
//! put with both settings of EXC, or with the six relations. Then all F rows of the outside vectors go
//! through the proved library. The exit status is 1 if anything differed, or if some sort of quotient, or of
//! product about the smallest number, never came up.

use independent::float::F;
use independent::generate::{f_for_longword, f_pair, f_quotient_pair, f_small_product_pair, longword};
use independent::random::Random;
use independent::smallest::Met;
use independent::vectors::{check, directory, Arithmetic, Result32, F_TABLES, RELATIONS};
use std::process::ExitCode;

extern "C" {
    fn kuj_f_add(a: u32, b: u32, exc: u32) -> u64;
    fn kuj_f_subtract(a: u32, b: u32, exc: u32) -> u64;
    fn kuj_f_multiply(a: u32, b: u32, exc: u32) -> u64;
    // Va's operand, the dividend, then Vb's.
    fn kuj_f_divide(a: u32, b: u32, exc: u32) -> u64;
    // Va's operand, Vb's, then the relation. All three are of one type, so that only this comparison
    // would notice another order.
    fn kuj_f_compare(a: u32, b: u32, relation: u32) -> u64;
    fn kuj_f_cvt_rounded(b: u32, exc: u32) -> u64;
    fn kuj_f_cvt_truncated(b: u32, exc: u32) -> u64;
    fn kuj_f_from_longword(b: u32) -> u64;
    fn kuj_f_multiply_all(a: *const u32, na: usize, b: *const u32, nb: usize, out: *mut u32, nout: usize);
}

/// The proved library, by the name of a table of the outside vectors.
struct Proved;

impl Arithmetic for Proved {
    fn work(&self, table: &str, a: u32, b: u32, exc: bool, relation: u32) -> Result32 {
        let exc = u32::from(exc);
        // SAFETY: plain numbers in and out.
        let answer = unsafe {
            match table {
                "ADDF" => kuj_f_add(a, b, exc),
                "SUBF" => kuj_f_subtract(a, b, exc),
                "MULF" => kuj_f_multiply(a, b, exc),
                "DIVF" => kuj_f_divide(a, b, exc),
                "CMPF" => kuj_f_compare(a, b, relation),
                "CVTRFL" => kuj_f_cvt_rounded(b, exc),
                "CVTFL" => kuj_f_cvt_truncated(b, exc),
                "CVTLF" => kuj_f_from_longword(b),
                _ => panic!("no operation {table}"),
            }
        };
        (answer as u32, (answer >> 32) as u32)
    }
}

fn own(table: &str, a: u32, b: u32, exc: bool, relation: u32) -> Result32 {
    let (a, b) = (u64::from(a), u64::from(b));
    let outcome = match table {
        "ADDF" => F.add(a, b, exc),
        "SUBF" => F.subtract(a, b, exc),
        "MULF" => F.multiply(a, b, exc),
        "DIVF" => F.divide(a, b, exc),
        "CMPF" => F.compare(a, b, relation).expect("an accepted relation"),
        "CVTRFL" => F.to_longword(b, true, exc),
        "CVTFL" => F.to_longword(b, false, exc),
        "CVTLF" => F.from_longword(b as u32),
        _ => panic!("no operation {table}"),
    };
    (outcome.value as u32, outcome.types)
}

/// Counts, and prints the first differences.
struct Report {
    results: u64,
    differences: u64,
}

const SHOWN: u64 = 20;

impl Report {
    fn result(&mut self, same: bool, difference: impl Fn() -> String) {
        self.results += 1;
        if !same {
            self.differences += 1;
            if self.differences <= SHOWN {
                println!("DIFFERS: {}", difference());
            }
        }
    }
}

fn operands(random: &mut Random, table: &str) -> (u32, u32) {
    match table {
        "CVTRFL" | "CVTFL" => (0, f_for_longword(random)),
        "CVTLF" => (0, longword(random)),
        // Most of them near the edges of quotients; one in 8 near those of sums and products.
        "DIVF" if !random.once_in(8) => f_quotient_pair(random),
        "MULF" => factors(random),
        _ => f_pair(random),
    }
}

/// One in 4 with a product about the smallest number.
fn factors(random: &mut Random) -> (u32, u32) {
    if random.once_in(4) {
        f_small_product_pair(random)
    } else {
        f_pair(random)
    }
}

/// Prints which products about the smallest number were met. Each sort has to come up (document 02, Q-2).
fn report_products(table: &str, met: &Met, settings: &[bool], report: &mut Report) {
    let least = met.least(settings);
    let exc = if settings.len() == 2 { ", EXC clear and set" } else { "" };
    println!("{table}: {met}; each of either sign{exc}, {least} times or more");
    report.differences += u64::from(least == 0);
}

fn compare_operation(random: &mut Random, table: &str, pairs: u64, report: &mut Report) {
    let relations: &[u32] = if table == "CMPF" { &RELATIONS } else { &[0] };
    let settings: &[bool] = if matches!(table, "CMPF" | "CVTLF") { &[false] } else { &[false, true] };
    // How many results were of each kind, so that a run shows that the edges were met.
    let mut kinds = [0u64; 64];
    let mut met = Met::default();
    for _ in 0..pairs {
        let (a, b) = operands(random, table);
        for &exc in settings {
            for &relation in relations {
                let (proved, own) = (Proved.work(table, a, b, exc, relation), own(table, a, b, exc, relation));
                kinds[own.1 as usize] += 1;
                if table == "MULF" {
                    met.count(a, b, exc);
                }
                report.result(proved == own, || {
                    format!(
                        "{table} {a:08X} {b:08X} EXC {} relation {relation}: proved {:08X} types {:X}, independent {:08X} types {:X}",
                        u32::from(exc), proved.0, proved.1, own.0, own.1
                    )
                });
            }
        }
    }
    println!(
        "{table}: {pairs} drawn; quiet {}, underflow {}, reserved operand {}, overflow {}, integer overflow {}",
        kinds[0], kinds[1], kinds[4], kinds[8], kinds[32]
    );
    if table == "MULF" {
        report_products(table, &met, settings, report);
    }
    if table == "DIVF" {
        println!("{table}: divide by zero {}, reserved operand over zero {}", kinds[2], kinds[6]);
        // Every sort of result of Q-1 has to come up.
        for types in [0, 1, 2, 4, 6, 8] {
            if kinds[types] == 0 {
                println!("{table} never came to types {types}");
                report.differences += 1;
            }
        }
    }
}

/// The batch: EXC clear, the products of as many as the shortest of the three holds; the rest of `out`
/// keeps what it held.
fn compare_batch(random: &mut Random, pairs: u64, report: &mut Report) {
    let (mut left, mut met) = (pairs, Met::default());
    while left > 0 {
        let most = left.min(1_000);
        left -= most;
        let mut length = || most as usize - random.pick(&[0, 0, 1, 7]).min(most) as usize;
        let (na, nb, nout) = (length(), length(), length());
        let (a, b): (Vec<u32>, Vec<u32>) = (0..most).map(|_| factors(random)).unzip();
        let kept = random.bits() as u32;
        // Room beyond `nout` must be kept too.
        let mut out = vec![kept; most as usize + 8];
        // SAFETY: each length is at most that of the vector whose pointer stands before it.
        unsafe { kuj_f_multiply_all(a.as_ptr(), na, b.as_ptr(), nb, out.as_mut_ptr(), nout) };
        let products = na.min(nb).min(nout);
        (0..products).for_each(|i| met.count(a[i], b[i], false));
        for (i, &given) in out.iter().enumerate() {
            let expected = if i < products { own("MULF", a[i], b[i], false, 0).0 } else { kept };
            report.result(given == expected, || {
                format!("multiply_all ({na}, {nb}, {nout}) at {i}: proved {given:08X}, independent {expected:08X}")
            });
        }
    }
    println!("multiply_all: {pairs} drawn");
    report_products("multiply_all", &met, &[false], report);
}

fn main() -> ExitCode {
    let arguments: Vec<u64> =
        std::env::args().skip(1).map(|text| text.parse().expect("arguments are whole numbers")).collect();
    let pairs = arguments.first().copied().unwrap_or(1_000_000);
    let seed = arguments.get(1).copied().unwrap_or(1);
    println!("{pairs} for each operation, seed {seed}");
    let mut random = Random::new(seed);
    let mut report = Report { results: 0, differences: 0 };
    for table in F_TABLES {
        compare_operation(&mut random, table, pairs, &mut report);
    }
    compare_batch(&mut random, pairs, &mut report);
    println!("{} results compared, {} differ", report.results, report.differences);

    let found = check(&directory(), &F_TABLES, &Proved).expect("the outside vectors can be read");
    for difference in found.differences.iter().take(SHOWN as usize) {
        println!("DIFFERS: {difference}");
    }
    println!("outside vectors: {found}");
    let same = report.differences == 0 && found.differences.is_empty() && report.results > 0;
    println!("{}", if same { "SAME" } else { "DIFFERENT" });
    if same {
        ExitCode::SUCCESS
    } else {
        ExitCode::FAILURE
    }
}
