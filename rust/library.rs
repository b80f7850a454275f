//! The library's exported functions, with Results for their codes.

#![allow(dead_code)]

use super::types::{refused, refused_at, Letter, Refusal};

mod exported {
    use super::Letter;

    #[allow(improper_ctypes)]
    extern "C" {
        pub fn brancadol_check_psl(table: &[u16]) -> u64;
        pub fn brancadol_check_ltl(table: &[u16]) -> u64;
        pub fn brancadol_psl_verdict(table: &[u16], lead: &[Letter], cycle: &[Letter]) -> u64;
        pub fn brancadol_ltl_verdict(table: &[u16], lead: &[Letter], cycle: &[Letter]) -> u64;
        pub fn brancadol_translate(table: &[u16], out: &mut [u16]) -> u64;
        pub fn brancadol_letter_at(
            lead: &[Letter],
            cycle: &[Letter],
            moment: usize,
            letter: &mut Letter,
        ) -> u64;
        // The moment comes last: no list may begin in the sixth word.
        pub fn brancadol_rest(
            lead: &[Letter],
            cycle: &[Letter],
            out: &mut [Letter],
            moment: usize,
        ) -> u64;
        pub fn brancadol_read_formula(line: &[u8], out: &mut [u16]) -> u64;
        pub fn brancadol_read_trace(line: &[u8], lead: &mut [Letter], cycle: &mut [Letter]) -> u64;
        pub fn brancadol_write_node(
            own: u16,
            kind: u16,
            left: u16,
            right: u16,
            out: &mut [u8],
        ) -> u64;
    }
}

/// A code is a refusal's number, or 0, and 256 times a value. The value of a
/// refusal is 0 where it carries no place, and else 1 and the place.
fn decoded(code: u64) -> Result<u64, Refusal> {
    let (number, value) = ((code % 256) as u8, code / 256);
    match (number, value) {
        (0, _) => Ok(value),
        (_, 0) => Err(refused(number)),
        _ => Err(refused_at(number, (value - 1) as usize)),
    }
}

// Every call below is sound: the library is proved safe for every argument
// of these types.

pub fn check_psl(table: &[u16]) -> Result<(), Refusal> {
    decoded(unsafe { exported::brancadol_check_psl(table) }).map(|_| ())
}

pub fn check_ltl(table: &[u16]) -> Result<(), Refusal> {
    decoded(unsafe { exported::brancadol_check_ltl(table) }).map(|_| ())
}

pub fn psl_verdict(table: &[u16], lead: &[Letter], cycle: &[Letter]) -> Result<bool, Refusal> {
    decoded(unsafe { exported::brancadol_psl_verdict(table, lead, cycle) }).map(|yes| yes == 1)
}

pub fn ltl_verdict(table: &[u16], lead: &[Letter], cycle: &[Letter]) -> Result<bool, Refusal> {
    decoded(unsafe { exported::brancadol_ltl_verdict(table, lead, cycle) }).map(|yes| yes == 1)
}

/// The nodes emitted.
pub fn translate(table: &[u16], out: &mut [u16]) -> Result<usize, Refusal> {
    decoded(unsafe { exported::brancadol_translate(table, out) }).map(|size| size as usize)
}

/// The letter goes into the lent place.
pub fn letter_at(
    lead: &[Letter],
    cycle: &[Letter],
    moment: usize,
    letter: &mut Letter,
) -> Result<(), Refusal> {
    decoded(unsafe { exported::brancadol_letter_at(lead, cycle, moment, letter) }).map(|_| ())
}

/// The length of the part; its letters stand in `out`, as many as have room.
pub fn rest(lead: &[Letter], cycle: &[Letter], moment: usize, out: &mut [Letter]) -> usize {
    let code = unsafe { exported::brancadol_rest(lead, cycle, out, moment) };
    decoded(code).expect("the rest of a list is not refused") as usize
}

/// The nodes of the line.
pub fn read_formula(line: &[u8], out: &mut [u16]) -> Result<usize, Refusal> {
    decoded(unsafe { exported::brancadol_read_formula(line, out) }).map(|nodes| nodes as usize)
}

/// Both lengths, which the library hands over as one value: the loop's length
/// has the upper bits.
pub fn read_trace(
    line: &[u8],
    lead: &mut [Letter],
    cycle: &mut [Letter],
) -> Result<(usize, usize), Refusal> {
    decoded(unsafe { exported::brancadol_read_trace(line, lead, cycle) })
        .map(|lengths| ((lengths % 65536) as usize, (lengths / 65536) as usize))
}

/// The bytes of the line, its byte 10 among them.
pub fn write_node(
    own: u16,
    kind: u16,
    left: u16,
    right: u16,
    out: &mut [u8],
) -> Result<usize, Refusal> {
    decoded(unsafe { exported::brancadol_write_node(own, kind, left, right, out) })
        .map(|length| length as usize)
}
