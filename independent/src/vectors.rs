//! The outside vectors (`vectors/README.md`): reading the tables, and checking any arithmetic by them.

use crate::float::{
    relation_holds, Operand, DIVIDE_BY_ZERO, F, INTEGER_OVERFLOW, OVERFLOW, RESERVED_OPERAND, UNDERFLOW,
};
use crate::machine::{element_work, fields, work_of, Instruction};
use std::cmp::Ordering;
use std::path::Path;
use std::process::Command;

pub const F_TABLES: [&str; 8] = ["ADDF", "SUBF", "MULF", "DIVF", "CMPF", "CVTFL", "CVTRFL", "CVTLF"];
pub const L_TABLES: [&str; 4] = ["ADDL", "SUBL", "MULL", "CMPL"];
pub const ROWS: usize = 3_000;
pub const RELATIONS: [u32; 6] = [0, 1, 2, 4, 5, 6];

/// Value written (for a compare the mask bit) and VAER type bits recorded.
pub type Result32 = (u32, u32);

/// Arithmetic that can be checked by the tables. A conversion has its source in `b`; `relation` is
/// only for the compares.
pub trait Arithmetic {
    fn work(&self, table: &str, a: u32, b: u32, exc: bool, relation: u32) -> Result32;
}

/// The opcode of a table's work, and what stands in the control word's <11:8>: register 1, or the
/// conversion.
pub fn instruction_of(table: &str) -> (u8, u16) {
    match table {
        "ADDF" => (0x84, 1),
        "SUBF" => (0x8C, 1),
        "MULF" => (0xA4, 1),
        "DIVF" => (0xAC, 1),
        "CMPF" => (0xC4, 1),
        "CVTLF" => (0xEC, 1),
        "CVTFL" => (0xEC, 4),
        "CVTRFL" => (0xEC, 5),
        "ADDL" => (0x80, 1),
        "SUBL" => (0x88, 1),
        "MULL" => (0xA0, 1),
        "CMPL" => (0xC0, 1),
        _ => panic!("no table {table}"),
    }
}

/// This package's own arithmetic, taken through the machine's element work.
pub struct Own;

impl Arithmetic for Own {
    fn work(&self, table: &str, a: u32, b: u32, exc: bool, relation: u32) -> Result32 {
        let (opcode, va) = instruction_of(table);
        let control_word = u16::from(exc) << 13 | va << 8 | 2 << 4 | relation as u16;
        let instruction = Instruction { opcode, control_word, scalar: 0 };
        let decoded = fields(work_of(opcode).expect("an accepted opcode"), &instruction);
        let left = element_work(&decoded, a.into(), b.into(), 0, false);
        (left.value as u32, left.types)
    }
}

#[derive(Clone, Copy, PartialEq, Eq, Debug)]
enum Said {
    Value(u32),
    Order(Ordering),
    Nothing,
}

#[derive(Clone, Debug)]
pub struct Row {
    pub text: String,
    a: u32,
    b: u32,
    /// Result and status with EXC clear, then set.
    said: [(Said, String); 2],
}

/// The rows of a table, read with `gzip -dc`.
pub fn rows(directory: &Path, table: &str) -> Result<Vec<Row>, String> {
    let path = directory.join(format!("{table}.txt.gz"));
    let output = Command::new("gzip").arg("-dc").arg(&path).output().map_err(|e| format!("gzip: {e}"))?;
    if !output.status.success() {
        return Err(format!("gzip: {}", String::from_utf8_lossy(&output.stderr)));
    }
    let text = String::from_utf8(output.stdout).map_err(|e| e.to_string())?;
    let rows: Option<Vec<Row>> = text.lines().map(row).collect();
    match rows {
        Some(rows) if rows.len() == ROWS => Ok(rows),
        Some(rows) => Err(format!("{table}: {} rows, not {ROWS}", rows.len())),
        None => Err(format!("{table}: a row cannot be read")),
    }
}

fn row(line: &str) -> Option<Row> {
    let hex = |text: &str| u32::from_str_radix(text, 16).ok();
    let said = |text: &str| {
        Some(match text {
            "LT" => Said::Order(Ordering::Less),
            "EQ" => Said::Order(Ordering::Equal),
            "GT" => Said::Order(Ordering::Greater),
            "-" => Said::Nothing,
            _ => Said::Value(hex(text)?),
        })
    };
    let [a, b, r0, s0, r1, s1] = line.split(' ').collect::<Vec<_>>()[..] else { return None };
    // A single operand is the source of a conversion, which stands in Vb.
    let (a, b) = if b == "-" { (0, hex(a)?) } else { (hex(a)?, hex(b)?) };
    Some(Row { text: line.into(), a, b, said: [(said(r0)?, s0.into()), (said(r1)?, s1.into())] })
}

/// The one difference that `vectors/README.md` names: a reserved operand over zero, of which SIMH says only that it
/// is reserved.
fn is_reserved_over_zero(a: u32, b: u32) -> bool {
    (F.operand(a.into()), F.operand(b.into())) == (Operand::Reserved, Operand::Zero)
}

/// What documents 01 and 02 make of a row for a setting of EXC (and a relation).
fn expected(table: &str, row: &Row, exc: bool, relation: u32) -> Result<Result32, String> {
    let (said, status) = &row.said[usize::from(exc)];
    let to_longword = matches!(table, "CVTFL" | "CVTRFL");
    Ok(match (said, status.as_str()) {
        (Said::Order(order), "OK") => {
            let holds = relation_holds(relation, *order).ok_or("a reserved relation")?;
            (holds.into(), 0)
        }
        (Said::Value(value), "OK") => (*value, 0),
        (Said::Value(value), "V") if !exc => (*value, 0),
        (Said::Value(value), "IOV") if exc => (*value, INTEGER_OVERFLOW),
        (_, "OVF") => (0x8008, OVERFLOW),
        (_, "UNF") if exc => (0x8001, UNDERFLOW),
        (Said::Nothing, "DIV") if table == "DIVF" => (0x8002, DIVIDE_BY_ZERO),
        (Said::Nothing, "ROP") if to_longword || table.starts_with("CMP") => (0, RESERVED_OPERAND),
        (Said::Nothing, "ROP") if table == "DIVF" && is_reserved_over_zero(row.a, row.b) => {
            (0x8006, DIVIDE_BY_ZERO | RESERVED_OPERAND)
        }
        (Said::Nothing, "ROP") => (0x8004, RESERVED_OPERAND),
        _ => return Err(format!("{table}: no meaning for row {}", row.text)),
    })
}

/// What a check of some tables found.
#[derive(Default, Debug)]
pub struct Findings {
    pub rows: usize,
    pub results: usize,
    /// Rows where the papers' result is not SIMH's, as `vectors/README.md` says.
    pub reserved_over_zero: usize,
    pub differences: Vec<String>,
}

pub fn check(directory: &Path, tables: &[&str], arithmetic: &dyn Arithmetic) -> Result<Findings, String> {
    let mut found = Findings::default();
    for table in tables {
        for row in rows(directory, table)? {
            found.rows += 1;
            found.reserved_over_zero += usize::from(*table == "DIVF" && is_reserved_over_zero(row.a, row.b));
            let relations: &[u32] = if table.starts_with("CMP") { &RELATIONS } else { &[0] };
            for exc in [false, true] {
                for &relation in relations {
                    let expected = expected(table, &row, exc, relation)?;
                    let given = arithmetic.work(table, row.a, row.b, exc, relation);
                    found.results += 1;
                    if given != expected {
                        let exc = u32::from(exc);
                        found.differences.push(format!(
                            "{table} row {}: EXC {exc} relation {relation}: {:08X} types {:02X}, expected {:08X} types {:02X}",
                            row.text, given.0, given.1, expected.0, expected.1
                        ));
                    }
                }
            }
        }
    }
    Ok(found)
}

impl std::fmt::Display for Findings {
    fn fmt(&self, f: &mut std::fmt::Formatter) -> std::fmt::Result {
        write!(
            f,
            "{} rows, {} results, {} reserved operands over zero, {} differ",
            self.rows,
            self.results,
            self.reserved_over_zero,
            self.differences.len()
        )
    }
}

/// The repository's own `vectors/`.
pub fn directory() -> std::path::PathBuf {
    Path::new(env!("CARGO_MANIFEST_DIR")).join("../vectors")
}

#[cfg(test)]
mod tests {
    use super::*;
    use crate::smallest::{near_smallest, NearSmallest};

    #[test]
    fn all_rows() {
        let tables: Vec<&str> = F_TABLES.into_iter().chain(L_TABLES).collect();
        let found = check(&directory(), &tables, &Own).unwrap();
        assert_eq!(found.differences, Vec::<String>::new());
        assert_eq!(found.rows, 12 * ROWS);
        // 10 tables of a result a setting, 2 of six relations a setting.
        assert_eq!(found.results, 10 * ROWS * 2 + 2 * ROWS * 12);
        assert!(found.reserved_over_zero > 0, "the tables hold the known difference");
        println!("{found}");
    }

    /// The known difference is DIVF's alone, and a zero divisor is met there with every sort of dividend.
    #[test]
    fn known_difference() {
        for table in F_TABLES.into_iter().chain(L_TABLES) {
            let found = check(&directory(), &[table], &Own).unwrap();
            assert_eq!(found.reserved_over_zero > 0, table == "DIVF", "{table}");
        }
        let zero_divisors: Vec<Row> = rows(&directory(), "DIVF")
            .unwrap()
            .into_iter()
            .filter(|row| F.operand(row.b.into()) == Operand::Zero)
            .collect();
        for row in &zero_divisors {
            let result = if is_reserved_over_zero(row.a, row.b) { (0x8006, 6) } else { (0x8002, 2) };
            for exc in [false, true] {
                assert_eq!(expected("DIVF", row, exc, 0).unwrap(), result, "{}", row.text);
            }
        }
        let with = |dividend: fn(&Operand) -> bool| zero_divisors.iter().any(|row| dividend(&F.operand(row.a.into())));
        assert!(with(|a| *a == Operand::Zero) && with(|a| *a == Operand::Reserved));
        assert!(with(|a| matches!(a, Operand::Number { .. })));
        assert!(zero_divisors.iter().any(|row| row.b != 0), "a zero with a fraction");
    }

    /// The check is one that can fail.
    #[test]
    fn a_wrong_result_is_found() {
        struct OffByOne;
        impl Arithmetic for OffByOne {
            fn work(&self, table: &str, a: u32, b: u32, exc: bool, relation: u32) -> Result32 {
                let (value, types) = Own.work(table, a, b, exc, relation);
                if (a, exc) == (0xFFFE_407F, true) {
                    (value ^ 1, types)
                } else {
                    (value, types)
                }
            }
        }
        let found = check(&directory(), &["MULF"], &OffByOne).unwrap();
        assert!(!found.differences.is_empty());
    }

    /// The tables tell underflow judged after rounding from underflow judged before it: 37 products of MULF lie
    /// below the smallest number and round up to it.
    #[test]
    fn underflow_judged_before_rounding_is_found() {
        struct BeforeRounding;
        impl Arithmetic for BeforeRounding {
            fn work(&self, table: &str, a: u32, b: u32, exc: bool, relation: u32) -> Result32 {
                match near_smallest(a, b) {
                    Some(NearSmallest::RoundedUp) if table == "MULF" && exc => (0x8001, UNDERFLOW),
                    Some(NearSmallest::RoundedUp) if table == "MULF" => (0, 0),
                    _ => Own.work(table, a, b, exc, relation),
                }
            }
        }
        let found = check(&directory(), &["MULF"], &BeforeRounding).unwrap();
        assert_eq!(found.differences.len(), 2 * 37);
    }
}
