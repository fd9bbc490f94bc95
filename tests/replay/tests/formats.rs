//! docs/FORMATS.md: its example, its refusals, its record, its rows and its reports against the model, the header and the proved program.
use model::{Cache, Call, Lent, Report, LABEL, STATE, STATE_LIMIT, ZEROS};
use replay::programs::{fences, root, Program, Writing};

fn read(name: &str) -> String {
    std::fs::read_to_string(root().join(name)).unwrap()
}

#[test]
fn the_example() {
    let page = read("docs/FORMATS.md");
    let [list, answers, ..] = fences(&page)[..] else { panic!("the page has a list and its answers") };
    assert_eq!(String::from_utf8(Program::replay().run(list.as_bytes(), Writing::Whole)).unwrap(), answers);
    assert_eq!(String::from_utf8(replay::replay(list.as_bytes())).unwrap(), answers);
    println!("the example of docs/FORMATS.md, {} lines", answers.lines().count());
}

/// A write back of content 7 to address 5 by seat 258 of a box of 64, 8, 3 and 2 under a label of zeros: the first address row, both block rows, the manager's
/// report and the desk's.
#[test]
fn the_rows_and_the_reports() {
    let mut cache = Cache::fresh(64, 8, 3, 2, 3, ZEROS, (0..8).flat_map(|k| vec![k; 64]).collect(), vec![0; 128]);
    cache.call(Call::Back(258), 5, &mut vec![7; 64]).unwrap();
    let mut lent = Lent { state: vec![], disk: vec![], flash: vec![], addresses: vec![], blocks: vec![], block: vec![], answer: vec![], label: vec![] };
    let reports = [Report::Manager, Report::Desk].map(|report| cache.report(report));
    cache.store(&mut lent);
    let bytes = |text: &str| text.split_whitespace().map(|byte| u8::from_str_radix(byte, 16).unwrap()).collect::<Vec<u8>>();
    let page = read("docs/FORMATS.md");
    assert_eq!(bytes(fences(&page)[2]), lent.addresses[..40]);
    assert_eq!(bytes(fences(&page)[3]), lent.blocks);
    assert_eq!([4, 5].map(|k| bytes(fences(&page)[k])), reports);
    println!("three rows and two reports of docs/FORMATS.md, byte for byte");
}

/// A number of the header by its name.
fn number(name: &str) -> u64 {
    let header = read("include/mindavehu.h");
    let line = header.lines().find_map(|line| line.strip_prefix(&format!("#define MINDAVEHU_{name} "))).unwrap_or_else(|| panic!("{name} is not defined"));
    line.split_whitespace().next().unwrap().parse().unwrap()
}

/// The header's numbers of refusals, words and fields, as the page tells them.
#[test]
fn the_numbers() {
    let page = read("docs/FORMATS.md");
    let [of_calls, of_states] = [["OUTSIDE", "WRONG_LENGTH", "NO_ADDRESS"], ["BAD_ADDRESSES", "BAD_BLOCKS", "DIRTY_UNCACHED"]];
    let others = ["COUNTER_FULL", "BAD_COUNT", "BAD_LIMIT", "TOO_DIRTY", "NO_ROOM", "NO_IMAGE", "BAD_IMAGE", "TOO_LARGE"];
    let refusals: Vec<u64> = of_calls.into_iter().chain(of_states).chain(others).map(number).collect();
    let mut told: Vec<u64> = page
        .split("## Refusals")
        .nth(1)
        .unwrap()
        .split("\n## ")
        .next()
        .unwrap()
        .lines()
        .filter_map(|line| line.strip_prefix("| ")?.split(' ').next()?.parse().ok())
        .collect();
    told.retain(|number| ![4, 5].contains(number));
    assert_eq!(told, refusals, "the refusals");
    let words = ["HIT", "MISS", "SAME", "NEW", "CACHE", "DISK", "DONE"].map(|name| format!("{} {}", number(name), name.to_lowercase())).join(", ");
    assert!(page.replace('\n', " ").contains(&format!("the word ({words})")), "{words}");
    let fields = [
        ("B", "B"),
        ("P", "P"),
        ("M", "m"),
        ("D", "d"),
        ("N", "n"),
        ("READS", "reads"),
        ("HITS", "hits"),
        ("FLASH_WRITES", "flash writes"),
        ("PRIMARY_WRITES", "primary writes"),
        ("T", "t"),
    ];
    let row = |first: &str, cells: Vec<String>| format!("| {first} | {} |\n", cells.join(" | "));
    let bytes = row("byte", fields.iter().map(|(name, _)| number(name).to_string()).collect());
    let names = row("number", fields.iter().map(|(_, name)| name.to_string()).collect());
    assert!(page.contains(&bytes) && page.contains(&names), "{bytes}{names}");
    println!("{} refusals, 7 words and {} fields", told.len(), fields.len());
}

/// The lengths in the header, and the places of the label and of the limit in the state, as the page tells them.
#[test]
fn the_lengths() {
    let page = read("docs/FORMATS.md");
    for length in ["STATE", "LABEL", "ANSWER", "MANY_ANSWER", "COUNTS", "ROW"] {
        assert!(page.contains(&format!(" {} bytes", number(length))), "{length}");
    }
    let (first, last) = (number("STATE_LABEL"), number("T") - 1);
    assert_eq!((number("T"), number("STATE")), (STATE_LIMIT.start as u64, STATE_LIMIT.end as u64));
    assert_eq!((number("STATE"), number("LABEL")), (STATE as u64, LABEL as u64));
    assert!(last + 1 - first == number("LABEL") && page.contains(&format!("Bytes {first} to {last} are the label")), "the label's place");
    for part in ["MANAGER_PART", "DESK_PART"] {
        assert!(page.contains(&format!("m × {} bytes", number(part))), "{part}");
    }
    let fields = format!("| bytes of a part | 0 to 3 | {} | {} to 6, in the manager's alone |", number("REPORT_DIRTY"), number("REPORT_SEAT"));
    assert!(number("REPORT_ADDRESS") == 0 && page.contains(&fields), "the fields of a report");
    println!("6 lengths, the label in bytes {first} to {last} of the state, and the fields of a report");
}
