//! Inputs with the outputs that document 01 gives for them, written by hand.

/// No call: the counters alone.
const NOTHING: &str = "reads 0 hits 0 flash 0 primary 0\n";

/// Whole inputs that are refused at line 1, by the number.
const REFUSED_BOXES: [(u32, &[&str]); 3] = [
    (
        4,
        &[
            "", "\n", "\n\n\n", " ", "box", "box ", "box 64 8 3", "box 64 8 3 ", "box 64 8 3 2 ", "box 64 8 3 2 1", " box 64 8 3 2", "box  64 8 3 2",
            "box 64 8 3  2",
            "box\t64 8 3 2", "box 64 8 3 2\r", "box 64 8 3 2\r\nR 1\r\n", "Box 64 8 3 2", "BOX 64 8 3 2", "bo 64 8 3 2", "boxx 64 8 3 2", "box64 8 3 2",
            "\nbox 64 8 3 2\n",
            "box 064 8 3 2", "box 64 08 3 2", "box 64 8 03 2", "box 64 8 3 02", "box 00 8 3 2", "box 000064 8 3 2", "box 100000 8 3 2", "box 64 100000 3 2",
            "box 64 8 100000 2",
            "box 64 8 3 100000", "box +64 8 3 2", "box -64 8 3 2", "box 64. 8 3 2", "box 0x40 8 3 2", "box 40h 8 3 2", "box 64 8 3 2\0", "box 64 8 3 \u{0662}",
            "R 1\nbox 64 8 3 2\n",
            // 32 bytes, 33 bytes, and a line that a box line begins and ends.
            "box 64 8 3 2                    ", "box 64 8 3 2                     ", "                    box 64 8 3 2",
            "box 64 8 3 2 box 64 8 3 2 box 64 8 3 2",
            // 4 before 1 and before 5.
            "box 96 08 3 2", "box 64 0257 3 2", "box 96 257 0 02", "box 0 0 0 0 ",
        ],
    ),
    (
        1,
        &[
            "box 0 8 3 2", "box 32 8 3 2", "box 63 8 3 2", "box 65 8 3 2", "box 96 8 3 2", "box 8192 2 3 2", "box 65536 8 3 2", "box 99999 8 3 2",
            "box 64 0 3 2", "box 64 65537 3 2",
            "box 64 99999 3 2", "box 64 8 0 2", "box 64 8 1025 2", "box 64 8 99999 2", "box 64 8 3 0", "box 64 8 3 257", "box 64 8 3 99999", "box 0 0 0 0",
            // 1 before 5.
            "box 96 257 3 2", "box 8192 256 3 256", "box 64 257 0 2", "box 64 65536 1025 2", "box 4096 65536 1024 257", "box 99999 99999 99999 99999",
        ],
    ),
    (
        5,
        &[
            "box 64 257 3 2", "box 64 65536 3 2", "box 128 129 3 2", "box 128 8 3 129", "box 256 65 3 2", "box 512 33 3 2", "box 1024 17 3 2", "box 2048 9 3 2",
            "box 4096 5 3 2",
            "box 4096 4 3 5", "box 4096 1 1 256", "box 4096 65536 1024 256", "box 4096 256 1 1", "box 64 257 3 2\nR 1\nR 2\nF\n",
        ],
    ),
];

/// Box lines that are served.
const BOXES: [&str; 12] = [
    "box 64 8 3 2", "box 64 1 1 1", "box 64 256 1024 256", "box 128 128 1024 128", "box 256 64 3 64", "box 512 32 3 32", "box 1024 16 3 16", "box 2048 8 3 8",
    "box 4096 4 3 4",
    "box 4096 1 1 1", "box 4096 4 1024 1", "box 64 256 1 256",
];

/// Lines after `box 64 8 3 2`, with what is printed after the call number.
const LATER: [(&str, &str); 69] = [
    ("R 0", "R 0 miss 1 0"),
    ("R 7", "R 7 miss 1 0"),
    ("R 8", "refused 3"),
    ("R 256", "refused 3"),
    ("R 65536", "refused 3"),
    ("R 99999", "refused 3"),
    ("L 7", "L 7 disk 0 0"),
    ("L 8", "refused 3"),
    ("T 7 08", "T 7 new 1 1"),
    ("T 8 08", "refused 3"),
    ("B 7 FF", "B 7 new 1 0"),
    ("B 8 FF", "refused 3"),
    ("I 7 A0", "I 7 new 0 1"),
    ("I 8 A0", "refused 3"),
    ("F", "F - done 0 0"),
    ("", "refused 4"),
    (" ", "refused 4"),
    ("R", "refused 4"),
    ("R ", "refused 4"),
    ("R  1", "refused 4"),
    ("R 1 ", "refused 4"),
    (" R 1", "refused 4"),
    ("R1", "refused 4"),
    ("R\t1", "refused 4"),
    ("R 1\r", "refused 4"),
    ("R 1\0", "refused 4"),
    ("R 1 00", "refused 4"),
    ("R 01", "refused 4"),
    ("R 00", "refused 4"),
    ("R 000000", "refused 4"),
    ("R 100000", "refused 4"),
    ("R 000001", "refused 4"),
    ("R -1", "refused 4"),
    ("R +1", "refused 4"),
    ("R A", "refused 4"),
    ("r 1", "refused 4"),
    ("l 1", "refused 4"),
    ("f", "refused 4"),
    ("F ", "refused 4"),
    ("F 1", "refused 4"),
    ("FF", "refused 4"),
    ("F\r", "refused 4"),
    ("T 1", "refused 4"),
    ("T 1 ", "refused 4"),
    ("T 1 0", "refused 4"),
    ("T 1 0a", "refused 4"),
    ("T 1 A", "refused 4"),
    ("T 1 0AA", "refused 4"),
    ("T 1 0G", "refused 4"),
    ("T 1  00", "refused 4"),
    ("T 1 00 ", "refused 4"),
    // A write has no seat in a replay.
    ("T 1 00 7", "refused 4"),
    ("B 1 00 0", "refused 4"),
    ("T 1 @0", "refused 4"),
    ("T 1 0\0", "refused 4"),
    ("T 1 \x000", "refused 4"),
    ("\0 1", "refused 4"),
    ("\0 1 07", "refused 4"),
    ("\0", "refused 4"),
    ("B 1 ff", "refused 4"),
    ("I 01 00", "refused 4"),
    // 4 comes before 3.
    ("I 8 0g", "refused 4"),
    ("T 99999 0a", "refused 4"),
    ("X 1", "refused 4"),
    ("box 64 8 3 2", "refused 4"),
    ("box", "refused 4"),
    ("R 1                             ", "refused 4"),
    ("R 1                              ", "refused 4"),
    ("F                               F", "refused 4"),
];

/// What the counters are after one call that prints this.
fn counted(text: &str) -> &'static str {
    match text.split(' ').nth(2) {
        Some("miss") => "reads 1 hits 0 flash 1 primary 0\n",
        Some("new") if text.starts_with('T') => "reads 0 hits 0 flash 1 primary 1\n",
        Some("new") if text.starts_with('B') => "reads 0 hits 0 flash 1 primary 0\n",
        Some("new") => "reads 0 hits 0 flash 0 primary 1\n",
        _ => NOTHING,
    }
}

/// Every case: an input and its whole output.
pub fn cases() -> Vec<(Vec<u8>, String)> {
    let mut cases = Vec::new();
    for (number, inputs) in REFUSED_BOXES {
        cases.extend(inputs.iter().map(|input| (input.to_string(), format!("0 refused {number}\n"))));
    }
    for line in BOXES {
        cases.push((line.to_string(), NOTHING.to_string()));
        cases.push((format!("{line}\n"), NOTHING.to_string()));
        cases.push((format!("{line}\n\n"), format!("1 refused 4\n{NOTHING}")));
        cases.push((format!("{line}\n\nF"), format!("1 refused 4\n2 F - done 0 0\n{NOTHING}")));
    }
    for (line, text) in LATER {
        // An empty last line without a newline is none.
        if !line.is_empty() {
            cases.push((format!("box 64 8 3 2\n{line}"), format!("1 {text}\n{}", counted(text))));
        }
        cases.push((format!("box 64 8 3 2\n{line}\n"), format!("1 {text}\n{}", counted(text))));
        cases.push((format!("box 64 8 3 2\nL 1\n{line}\nL 8\n"), format!("1 L 1 disk 0 0\n2 {text}\n3 refused 3\n{}", counted(text))));
    }
    cases.into_iter().map(|(input, output)| (input.into_bytes(), output)).collect()
}
