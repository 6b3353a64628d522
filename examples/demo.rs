//! The whole way in Rust: a site is written, evaluated and listed, and its verdicts are read; then the same scenario by concentration.
//! Build and run: examples/run.sh

extern "C" {
    fn gv_write_built_in(out: *mut u8, out_len: usize, number: u32, medium: u32, count: u32) -> u32;
    fn gv_write_header(out: *mut u8, out_len: usize, kind: u32, header: *const u8, header_len: usize) -> u32;
    fn gv_write_contaminant(out: *mut u8, out_len: usize, place: u32, record: *const u8, record_len: usize) -> u32;
    fn gv_site(site: *const u8, site_len: usize, out: *mut u8, out_len: usize) -> u64;
    fn gv_list(site: *const u8, site_len: usize, out: *mut u8, out_len: usize, text: *mut u8, text_len: usize) -> u64;
}

const BLOCK: usize = 512;
const STRUCT: usize = 500;
/// The kind of a header with inhalation by concentration; 1 is by intake.
const CONCENTRATION: u32 = 6;

/// Where a decimal begins in its block (docs/FORMAT.md): A in the header, the others in a contaminant.
const A: usize = 192;
const SFO: usize = 16;
const RFDO: usize = 40;
const VF: usize = 56;
const C: usize = 72;
const U: usize = 96;
const Q: usize = 104;

/// A header block with a built-in scenario, of kind 1; the number of the refusal otherwise.
fn write_built_in(out: &mut [u8], number: u32, medium: u32, count: u32) -> u32 {
    unsafe { gv_write_built_in(out.as_mut_ptr(), out.len(), number, medium, count) }
}

/// A header block of a kind, from the bytes of its struct.
fn write_header(out: &mut [u8], kind: u32, header: &[u8]) -> u32 {
    unsafe { gv_write_header(out.as_mut_ptr(), out.len(), kind, header.as_ptr(), header.len()) }
}

/// A decimal m × 10^e in a struct, which is the block from byte 8 on.
fn put(record: &mut [u8], byte: usize, m: u32, e: i16) {
    let at = byte - 8;
    record[at..at + 4].copy_from_slice(&m.to_le_bytes());
    record[at + 4..at + 6].copy_from_slice(&e.to_le_bytes());
}

/// The block of a contaminant: its class and id and these decimals; all others are zero.
fn write_contaminant(out: &mut [u8], place: u32, class: u32, id: u32, decimals: &[(usize, u32, i16)]) -> u32 {
    let mut record = [0u8; STRUCT];
    record[..4].copy_from_slice(&class.to_le_bytes());
    record[4..8].copy_from_slice(&id.to_le_bytes());
    for &(byte, m, e) in decimals {
        put(&mut record, byte, m, e);
    }
    unsafe { gv_write_contaminant(out.as_mut_ptr(), out.len(), place, record.as_ptr(), record.len()) }
}

/// Evaluates a site: refusal, block, verdict of risk, verdict of hazard.
fn evaluate(site: &[u8], out: &mut [u8]) -> [u8; 4] {
    let answer = unsafe { gv_site(site.as_ptr(), site.len(), out.as_mut_ptr(), out.len()) };
    (answer as u32).to_le_bytes()
}

/// Evaluates a site, and prints its verdicts and its listing.
fn show(site: &[u8]) {
    let mut out = vec![0u8; site.len()];
    let mut text = vec![0u8; 24576];
    let [refusal, block, risk, hazard] = evaluate(site, &mut out);
    if refusal != 0 {
        println!("site refused: {refusal} in block {block}");
        return;
    }
    println!("verdicts: risk {risk}, hazard {hazard}");
    let length = unsafe {
        gv_list(site.as_ptr(), site.len(), out.as_mut_ptr(), out.len(), text.as_mut_ptr(), text.len())
    };
    print!("{}", String::from_utf8_lossy(&text[..length as usize]));
}

fn main() {
    let mut site = vec![0u8; 2 * BLOCK];
    // The office worker in soil, by intake; a chemical with SFo 1, RfDo 0.02 and C 2.
    assert_eq!(write_built_in(&mut site, 1, 1, 1), 0);
    let swallowed = [(SFO, 1, 0), (RFDO, 2, -2), (C, 2, 0)];
    assert_eq!(write_contaminant(&mut site[BLOCK..], 1, 1, 1, &swallowed), 0);
    show(&site);
    // The same scenario by concentration, with A 8; a chemical with U 7.8e-6, Q 0.03, VF 19,000 and C 2.
    let mut header = site[8..8 + STRUCT].to_vec();
    put(&mut header, A, 8, 0);
    assert_eq!(write_header(&mut site, CONCENTRATION, &header), 0);
    let inhaled = [(U, 78, -7), (Q, 3, -2), (VF, 19000, 0), (C, 2, 0)];
    assert_eq!(write_contaminant(&mut site[BLOCK..], 1, 1, 1, &inhaled), 0);
    show(&site);
}
