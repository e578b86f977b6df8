// One heat step, over the installed library, from Rust. readings.c, readings.cc and readings.py do the same.
//   rustc readings.rs -L native="$(pkg-config --variable=libdir kujawian)" -l kujawian && ./readings SAVED
// A slice goes as a pointer and a length; the control record as an array of five.
use std::process::exit;

extern "C" {
    fn kuj_load(elements: *mut u64, control: *mut u64, marks: *mut u64, file: *const u8, file_len: usize, beside: *mut u64) -> u32;
    fn kuj_clear_marks(marks: *mut u64, beside: *mut u64) -> u32;
    fn kuj_run(
        elements: *mut u64, control: *mut u64, marks: *mut u64,
        opcodes: *const u8, opcodes_len: usize, cntrls: *const u16, cntrls_len: usize, scalars: *const u64, scalars_len: usize,
        beside: *mut u64,
    ) -> u32;
    fn kuj_reading(
        elements: *const u64, control: *const u64, reg: u32, element: u32, kind: u32,
        kind_read: *mut u64, bits: *mut u64, beside: *mut u64,
    ) -> u32;
}

fn or_refused(number: u32, beside: u64) {
    if number != 0 {
        println!("refused: {number} {beside}");
        exit(1);
    }
}

fn main() {
    let name = std::env::args().nth(1).unwrap_or_default();
    let saved = std::fs::read(name).unwrap_or_else(|why| {
        eprintln!("readings: {why}");
        exit(2)
    });
    let (mut elements, mut control, mut marks) = ([0u64; 1024], [0u64; 5], [0u64; 16]); // new marks are zeros
    let (mut kind_read, mut bits, mut beside) = (0, 0, 0);
    let number = unsafe {
        kuj_load(elements.as_mut_ptr(), control.as_mut_ptr(), marks.as_mut_ptr(), saved.as_ptr(), saved.len(), &mut beside)
    };
    or_refused(number, beside);
    // Loading marks everything; from here, what the queue writes.
    or_refused(unsafe { kuj_clear_marks(marks.as_mut_ptr(), &mut beside) }, beside);

    // V2 = V1 - V0, V2 = 0.125 * V2, V0 = V0 + V2
    let (opcodes, cntrls, scalars) = ([0x8Cu8, 0xA5, 0x84], [0x2102u16, 0x2022, 0x2020], [0u64, 0x3F00, 0]);
    let number = unsafe {
        kuj_run(
            elements.as_mut_ptr(), control.as_mut_ptr(), marks.as_mut_ptr(),
            opcodes.as_ptr(), 3, cntrls.as_ptr(), 3, scalars.as_ptr(), 3, &mut beside,
        )
    };
    or_refused(number, beside);
    // Those elements of V0 that were written.
    for zone in (0..64).filter(|zone| marks[0] >> zone & 1 == 1) {
        let number = unsafe { kuj_reading(elements.as_ptr(), control.as_ptr(), 0, zone, 0, &mut kind_read, &mut bits, &mut beside) };
        or_refused(number, beside);
        match kind_read {
            0 => println!("{zone} {:.6}", f64::from_bits(bits)),
            _ => println!("{zone} reserved operand"),
        }
    }
}
