//! What scancheck prints: the bench case, and each refusal with its place worked out on paper.
//!
//! The bench case as an input: byte 0 is the table's length 20 and 1 to 20 the table, 21 is the length 5 and 22 to 26 the
//! inputs, 27 is the length 7 and 28 to 34 the requirement; 35 bytes in all.

use second::report::report;

const TABLE: [u8; 20] = [1, 1, 1, 1, 2, 0, 0, 1, 0, 2, 1, 1, 1, 1, 2, 1, 0, 0, 0, 0];
const INPUTS: [u8; 5] = [3, 1, 0, 1, 0];
/// "1 2 0 0 1 0 1, not(a0 and not a1)"
const REQUIREMENT: [u8; 7] = [1, 2, 0, 0, 1, 0, 1];

/// No variable, no test, one process, whose one action stops it.
const STOPS: [u8; 13] = [0, 0, 0, 0, 1, 1, 1, 11, 0, 0, 0, 0, 0];
/// The internal variable takes 5.
const TAKES_5: [u8; 13] = [0, 1, 0, 0, 1, 1, 1, 1, 0, 5, 0, 0, 0];

/// Blocks below 128 bytes, each after its length.
fn framed(blocks: &[&[u8]]) -> Vec<u8> {
    let mut input = Vec::new();
    for block in blocks {
        assert!(block.len() < 128);
        input.push(block.len() as u8);
        input.extend(*block);
    }
    input
}

fn bench() -> Vec<u8> {
    framed(&[&TABLE, &INPUTS, &REQUIREMENT])
}

fn prints(input: &[u8], wanted: &str) {
    assert_eq!(String::from_utf8(report(input)).expect("text"), wanted);
}

#[test]
fn bench_case() {
    assert_eq!(bench().len(), 35);
    prints(&bench(), "positions 12 loop 4\nverdict holds\nfails 1\nat 5\n");
}

/// The requirement Input holds at every Input and not at 0, which is an Output.
#[test]
fn no_findings() {
    prints(&framed(&[&TABLE, &INPUTS, &[3]]), "positions 12 loop 4\nverdict fails\nfails 0\n");
}

/// The requirement Output holds at 0 and at no Input.
#[test]
fn findings_ascending() {
    prints(&framed(&[&TABLE, &INPUTS, &[5]]), "positions 12 loop 4\nverdict holds\nfails 3\nat 1\nat 5\nat 9\n");
}

#[test]
fn verdict_and_findings_fail() {
    prints(&framed(&[&TABLE, &INPUTS, &[4]]), "positions 12 loop 4\nverdict fails\nfails 3\nat 1\nat 5\nat 9\n");
}

/// s1: read 1, takes 2, end 3, write 4; every scan has 4 states, so scan 1,024 ends with state 4,096, which is dropped.
/// 1,024 is 80 08. Inputs at 1, 5, 9 and so on, 1,024 of them.
#[test]
fn longest_answer() {
    let mut wanted = "positions 4096 loop 4\nverdict fails\nfails 1024\n".to_string();
    for scan in 0..1024 {
        wanted += &format!("at {}\n", 4 * scan + 1);
    }
    prints(&framed(&[&TAKES_5, &[0x80, 0x08, 1], &[4]]), &wanted);
}

#[test]
fn faulty_first_length() {
    prints(&[], "refused 1 at 0\n");
    prints(&[0x80], "refused 1 at 0\n");
    prints(&[0x80, 0x80], "refused 1 at 0\n");
    prints(&[0x94, 0x00], "refused 1 at 0\n");
    prints(&[0x80, 0x80, 0x04], "refused 1 at 0\n");
    let mut input = bench();
    input.splice(0..1, [0x94, 0x00]);
    prints(&input, "refused 1 at 0\n");
}

#[test]
fn first_block_cut_short() {
    prints(&bench()[..1], "refused 1 at 0\n");
    prints(&bench()[..20], "refused 1 at 0\n");
    let mut input = bench();
    // Only 34 bytes follow.
    input[0] = 35;
    prints(&input, "refused 1 at 0\n");
}

#[test]
fn faulty_second_length() {
    // Missing: where it should begin.
    prints(&bench()[..21], "refused 1 at 21\n");
    for length in [&[0x85][..], &[0x85, 0x00], &[0x85, 0x80], &[0x85, 0x80, 0x00], &[0x85, 0x80, 0x04]] {
        let mut input = bench()[..21].to_vec();
        input.extend(length);
        prints(&input, "refused 1 at 21\n");
    }
}

#[test]
fn second_block_cut_short() {
    prints(&bench()[..22], "refused 1 at 21\n");
    prints(&bench()[..26], "refused 1 at 21\n");
    let mut input = bench();
    // Only 13 bytes follow.
    input[21] = 14;
    prints(&input, "refused 1 at 21\n");
}

#[test]
fn faulty_third_length() {
    prints(&bench()[..27], "refused 1 at 27\n");
    for length in [&[0x87][..], &[0x87, 0x00], &[0xFF, 0xFF], &[0xFF, 0xFF, 0x04]] {
        let mut input = bench()[..27].to_vec();
        input.extend(length);
        prints(&input, "refused 1 at 27\n");
    }
    let mut input = bench();
    // All that follows is in the second block, and the third has no length.
    input[21] = 13;
    prints(&input, "refused 1 at 35\n");
}

#[test]
fn third_block_cut_short() {
    prints(&bench()[..28], "refused 1 at 27\n");
    prints(&bench()[..34], "refused 1 at 27\n");
    // 65,535 bytes are never there.
    let mut input = bench()[..27].to_vec();
    input.extend([0xFF, 0xFF, 0x03]);
    prints(&input, "refused 1 at 27\n");
}

#[test]
fn left_over() {
    let mut input = bench();
    input.push(0);
    prints(&input, "refused 1 at 35\n");
    input.extend([0x80, 0x80]);
    prints(&input, "refused 1 at 35\n");
    // A shorter last block leaves its last byte over.
    let mut input = bench();
    input[27] = 6;
    prints(&input, "refused 1 at 34\n");
}

/// AC 02 is 300: the first block stands at 2 to 301.
#[test]
fn longer_length() {
    let mut input = vec![0xAC, 0x02];
    input.extend([0; 299]);
    prints(&input, "refused 1 at 0\n");
    input.push(0);
    prints(&input, "refused 1 at 302\n");
    input.push(0);
    prints(&input, "refused 1 at 303\n");
    input.push(1);
    prints(&input, "refused 1 at 303\n");
    input.extend([3, 9]);
    prints(&input, "refused 1 at 305\n");
    // The framing stands; the table has one process too few: three counts, no test, no process.
    input.pop();
    prints(&input, "refused 2 at 4\n");
}

/// 60,000 zeros are three empty blocks and left-over bytes from 3 on.
#[test]
fn most_bytes() {
    prints(&[0; 60_000], "refused 1 at 3\n");
    prints(&[0; 60_001], "refused 1 at 60000\n");
    prints(&[0; 200_000], "refused 1 at 60000\n");
    // It comes before a faulty length.
    prints(&[0x80; 60_000], "refused 1 at 0\n");
    prints(&[0x80; 60_001], "refused 1 at 60000\n");
}

/// Blocks that fill 60,000 bytes: a length of one byte and the table (14), one of one byte and the inputs (3), one of
/// three bytes and 59,980 bytes: 59,980 is 4C + 128 * 54 + 16,384 * 3, CC D4 03. The requirement is Exe and 59,979 bytes
/// left over. s1: read 1, stop 2, skip 3, write 4; s2: read 5, skip 6, write 7, the same as after scan 1.
#[test]
fn well_framed_to_the_last_byte() {
    let mut input = framed(&[&STOPS, &[2, 1]]);
    input.extend([0xCC, 0xD4, 0x03]);
    input.extend([4; 59_980]);
    assert_eq!(input.len(), 60_000);
    prints(&input, "refused 1 at 1\n");
    let mut longer = framed(&[&STOPS, &[2, 1]]);
    longer.extend([0xCD, 0xD4, 0x03]);
    longer.extend([4; 59_981]);
    prints(&longer, "refused 1 at 60000\n");
    prints(&framed(&[&STOPS, &[2, 1], &[4]]), "positions 7 loop 4\nverdict fails\nfails 2\nat 1\nat 5\n");
}

/// "framing of all three blocks first": a fault of the table comes after a fault of the framing.
#[test]
fn framing_before_the_table() {
    prints(&framed(&[&[], &[], &[]]), "refused 1 at 0\n");
    let table = [0x14, 0x0D, 0x00];
    prints(&framed(&[&table, &INPUTS, &REQUIREMENT]), "refused 2 at 1\n");
    prints(&framed(&[&table, &INPUTS]), "refused 1 at 10\n");
    let mut input = framed(&[&table, &INPUTS, &REQUIREMENT]);
    input.push(7);
    prints(&input, "refused 1 at 18\n");
}

/// Places count within the block: in the whole input each would be one more.
#[test]
fn table_refused() {
    let mut table = TABLE.to_vec();
    table.push(0);
    prints(&framed(&[&table, &INPUTS, &REQUIREMENT]), "refused 1 at 20\n");
    prints(&framed(&[&TABLE[..19], &INPUTS, &REQUIREMENT]), "refused 1 at 19\n");
    // Op 13.
    table = TABLE.to_vec();
    table[14] = 13;
    prints(&framed(&[&table, &INPUTS, &REQUIREMENT]), "refused 2 at 14\n");
}

#[test]
fn inputs_refused() {
    prints(&framed(&[&TABLE, &[], &REQUIREMENT]), "refused 1 at 0\n");
    prints(&framed(&[&TABLE, &[3, 1, 0, 1], &REQUIREMENT]), "refused 1 at 4\n");
    prints(&framed(&[&TABLE, &[3, 1, 0, 1, 0, 0], &REQUIREMENT]), "refused 1 at 5\n");
    prints(&framed(&[&TABLE, &[0, 0], &REQUIREMENT]), "refused 2 at 0\n");
    prints(&framed(&[&TABLE, &[3, 3, 0, 1, 0], &REQUIREMENT]), "refused 2 at 1\n");
}

#[test]
fn run_refused() {
    // "no rule": a reset with no timer, in scan 1.
    let resets = [0, 0, 0, 0, 1, 1, 1, 5, 0, 0, 0, 0, 0];
    prints(&framed(&[&resets, &[3, 1], &REQUIREMENT]), "refused 5 at 1\n");
    // A start again and again.
    let starts = [0, 0, 0, 0, 1, 1, 1, 8, 0, 0, 0, 0, 0];
    prints(&framed(&[&starts, &[3, 1], &REQUIREMENT]), "refused 6 at 1\n");
    // 1,365 is D5 0A. Scan 1,024 ends with state 4,096, and the next read would make 4,097.
    prints(&framed(&[&TAKES_5, &[0xD5, 0x0A, 1], &REQUIREMENT]), "refused 7 at 1025\n");
    // The input is 1 after scan 2 and 0 after scan 3.
    prints(&framed(&[&TABLE, &[3, 2, 0, 1, 0], &REQUIREMENT]), "refused 8 at 3\n");
}

/// Places count within the block: in the whole input these would be 28 and more.
#[test]
fn requirement_refused() {
    let refused = |requirement: &[u8], wanted: &str| prints(&framed(&[&TABLE, &INPUTS, requirement]), wanted);
    refused(&[], "refused 1 at 0\n");
    refused(&[1], "refused 1 at 1\n");
    refused(&[0x80, 0x00], "refused 1 at 0\n");
    refused(&[3, 3], "refused 1 at 1\n");
    refused(&[6], "refused 3 at 0\n");
    refused(&[2, 3, 24], "refused 3 at 2\n");
    refused(&[1, 0, 32], "refused 3 at 2\n");
    // Sixteen nots, then an atom at depth 17.
    let mut deep = vec![1; 16];
    deep.extend([0, 0]);
    refused(&deep, "refused 4 at 16\n");
}

/// "it runs and judges": what the run refuses comes before what judging refuses.
#[test]
fn run_before_the_requirement() {
    prints(&framed(&[&TABLE, &[3, 2, 0, 1, 0], &[24]]), "refused 8 at 3\n");
    prints(&framed(&[&TABLE, &[0, 0], &[24]]), "refused 2 at 0\n");
    prints(&framed(&[&TABLE, &INPUTS, &[24]]), "refused 3 at 0\n");
}

/// An e operator is judged, so the requirement is untranslated: M9's G^e a0 holds at an Output, as 0 is, and fails at an
/// Input.
#[test]
fn untranslated() {
    prints(&framed(&[&TABLE, &INPUTS, &[14, 0, 0]]), "positions 12 loop 4\nverdict holds\nfails 3\nat 1\nat 5\nat 9\n");
}
