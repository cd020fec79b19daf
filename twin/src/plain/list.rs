//! "The list": the lines of a reply, the E line and the R line, into the caller's buffer "from the named place onward".
//! "Writer: 12, 11."

use super::router::Reply;
use crate::sizes::{Refusal, CYCLE_LIMIT, PORTS, VCS};
use std::fmt::Write;

/// "Each write, of one cycle's lines (perhaps none) or of an E or R line, asks for 376 bytes."
pub const ROOM: usize = 376;

/// The lines of one accepted cycle: "first `C cycle input vc` for each credit reaching a sender, by input; then
/// `F cycle output outvc input invc kind payload` for each flit out, by output".
pub fn write_cycle(
    buffer: &mut [u8],
    place: usize,
    cycle: u64,
    reply: &Reply,
) -> Result<usize, Refusal> {
    let mut in_range = true;
    let mut lines = String::new();
    for (input, credit) in reply.credits.iter().enumerate() {
        let Some(vc) = credit else { continue };
        in_range &= cycle < CYCLE_LIMIT && *vc < VCS;
        line(&mut lines, format_args!("C {cycle} {input} {vc}"));
    }
    for (output, flit) in reply.flits.iter().enumerate() {
        let Some(flit) = flit else { continue };
        let (out_vc, from, letter) = (flit.out_vc, flit.from, flit.kind.letter());
        in_range &= cycle < CYCLE_LIMIT && out_vc < VCS && from.port < PORTS && from.vc < VCS;
        line(
            &mut lines,
            format_args!(
                "F {cycle} {output} {out_vc} {} {} {letter} {:08x}",
                from.port, from.vc, flit.payload
            ),
        );
    }
    put(buffer, place, in_range, &lines)
}

/// "`E cycles flits` (accepted cycles, F lines)"
pub fn write_end(
    buffer: &mut [u8],
    place: usize,
    cycles: u64,
    flits: u64,
) -> Result<usize, Refusal> {
    let in_range = cycles <= CYCLE_LIMIT && flits <= PORTS as u64 * CYCLE_LIMIT;
    let mut lines = String::new();
    line(&mut lines, format_args!("E {cycles} {flits}"));
    put(buffer, place, in_range, &lines)
}

/// "`R number cycle place`, with accepted cycles so far and the port, the field for 1, else 0"
pub fn write_refusal(
    buffer: &mut [u8],
    place: usize,
    refusal: Refusal,
    cycles: u64,
) -> Result<usize, Refusal> {
    let Refusal {
        number,
        place: shown,
    } = refusal;
    let in_range =
        (1..=10).contains(&number) && usize::from(shown) < PORTS && cycles <= CYCLE_LIMIT;
    let mut lines = String::new();
    line(&mut lines, format_args!("R {number} {cycles} {shown}"));
    put(buffer, place, in_range, &lines)
}

fn line(lines: &mut String, text: std::fmt::Arguments) {
    writeln!(lines, "{text}").expect("a string takes all");
}

/// 12: "reply or line value outside its range"; 11: "fewer than 376 bytes from the named place, or place past the end".
fn put(buffer: &mut [u8], place: usize, in_range: bool, lines: &str) -> Result<usize, Refusal> {
    if !in_range {
        return Err(Refusal::new(12, 0));
    }
    match buffer.get_mut(place..) {
        Some(rest) if rest.len() >= ROOM => {
            rest[..lines.len()].copy_from_slice(lines.as_bytes());
            Ok(lines.len())
        }
        _ => Err(Refusal::new(11, 0)),
    }
}
