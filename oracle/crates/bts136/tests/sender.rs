//! The interpreter of a sender's scripts on answers computed by hand from SENDER.md.
use bts136::harness::{
    script::{
        END, END_CUT, END_NO_ROOM, END_UNKNOWN,
        sender::{OPERATIONS, operation, run_sender},
    },
    sending::{LENT_OCTETS, LENT_WORDS},
};

mod hex;
use hex::octets;

/// Runs a script on a memory of zeros, in ample room: the answers and nothing else, the end octet after them. What the
/// memory is afterwards.
#[track_caller]
fn answers(script: &str, expected: &str) -> (Vec<u8>, Vec<u64>) {
    let (mut stored, mut words) = (vec![0; LENT_OCTETS], vec![0; LENT_WORDS]);
    let mut room = [0x55; 4000];
    let length = run_sender(&octets(script), &mut room, &mut stored, &mut words);
    let mut expected = octets(expected);
    expected.push(END);
    assert_eq!(room[..length], expected[..]);
    assert!(room[length..].iter().all(|octet| *octet == 0x55));
    (stored, words)
}
/// Tmsi20 of 1.
const TMSI: &str = "00 0000000000000001";
fn nothing(octets: usize) -> String {
    "00".repeat(octets)
}

#[test]
fn the_table_has_a_message_and_then_the_order_of_its_op_octets() {
    for row in &OPERATIONS {
        assert_eq!(operation(row.op).map(|found| found.op), Some(row.op));
    }
    let known = (0..=255).filter(|op| operation(*op).is_some());
    assert!(known.eq([0x0e].into_iter().chain(0x27..=0x42)));
}

/// Block and time.
fn clock(block: u64, now_ms: u64) -> String {
    format!("{block:016x} {now_ms:016x}")
}
fn sender(capacity: u64, first: u64) -> String {
    format!("27 {capacity:016x} {0:016x} {0:016x} {first:016x} 00", 0)
}
/// The first octets of the message, by Arch to the Tmsi20 of 1, with a completion of 9.
fn enqueue(length: u16, deadline: u64, block: u64) -> String {
    let clock = clock(block, 0);
    format!(
        "2a {TMSI} 03 {:016x} {deadline:016x} {length:04x} {clock}",
        9
    )
}
/// Generation, submission and frame.
fn token(numbers: [u64; 3]) -> String {
    let [generation, submission, frame] = numbers;
    format!("{generation:016x} {submission:016x} {frame:016x}")
}
const MESSAGE: &str = "0e 00 4100000000000000";
/// The sample's frame, with these octets for its echo.
fn prepared(echo: &str, octets: &str, numbers: [u64; 3]) -> String {
    let token = token(numbers);
    format!("01 {TMSI} 61400000 {octets} 0504 000000000000 {token} {echo}")
}
/// Capacity, how many transfers, the next echo, the block, the next number, and the selected frame.
fn sending(counts: [u8; 3], block: u64, next: u64, selected: &str) -> String {
    let [capacity, pending, next_echo] = counts;
    let numbers = format!("{} {next:016x}", clock(block, 0));
    let limits = clock(0, 0);
    format!("00 {capacity:02x} {limits} {pending:02x} 0000 {next_echo:02x} {numbers} {selected}")
}
#[test]
fn a_transfer_restarts_after_64_blocks() {
    let first = prepared("00", "2008", [7, 8, 0]);
    let second = prepared("01", "2048", [9, 10, 0]);
    let script = [
        MESSAGE.to_owned(),
        sender(1, 7),
        enqueue(1, 100, 5),
        format!("2c {}", clock(5, 0)),
        "3e".to_owned(),
        format!("30 {} {}", token([7, 8, 0]), clock(5, 0)),
        format!("2b {}", clock(68, 0)),
        "3e".to_owned(),
        format!("2b {}", clock(69, 0)),
        "3e".to_owned(),
        format!("2c {}", clock(69, 0)),
        "3f 00".to_owned(),
        "3f 01".to_owned(),
    ];
    let transfer = format!(
        "01 {TMSI} 01 {:016x} {:016x} 03 01 01 00000001 {} {:016x} {:016x}",
        7,
        9,
        nothing(12 + 1 + 27),
        100,
        9
    );
    let expected = [
        "00 00".to_owned(),
        format!("00 {:016x}", 7),
        format!("00 {first}"),
        sending([1, 1, 1], 5, 9, &first),
        "00 00".to_owned(),
        sending([1, 1, 1], 68, 9, &nothing(49)),
        "00".to_owned(),
        sending([1, 1, 2], 69, 10, &nothing(49)),
        format!("00 {second}"),
        format!("00 {transfer}"),
        format!("00 {}", nothing(90)),
    ];
    answers(&script.join(" "), &expected.join(" "));
}
#[test]
fn a_transfer_is_complete_by_its_status() {
    let own = token([7, 8, 0]);
    let script = [
        MESSAGE.to_owned(),
        sender(1, 7),
        enqueue(1, 100, 5),
        format!("2c {}", clock(5, 0)),
        // another frame, then its own, twice
        format!("30 {} {}", token([7, 8, 1]), clock(5, 0)),
        format!("30 {own} {}", clock(5, 0)),
        format!("30 {own} {}", clock(5, 0)),
        // in flight: the frame is not read; then confirmed, once
        format!("31 {}", token([7, 0, 255])),
        format!("32 {} {}", token([7, 8, 1]), clock(6, 0)),
        format!("32 {own} {}", clock(6, 0)),
        format!("32 {own} {}", clock(6, 0)),
        // the upper six bits are of no frame
        format!("33 00 fc000000 {}", clock(7, 0)),
        "3c 3c".to_owned(),
    ];
    let expected = [
        "00 00".to_owned(),
        format!("00 {:016x}", 7),
        format!("00 {}", prepared("00", "2008", [7, 8, 0])),
        "18 00 18".to_owned(),
        format!("00 01 {:016x}", 9),
        "00 0000 00 0101 00 0000 00 01".to_owned(),
        format!("00 01 00 {:016x} 00", 9),
        format!("00 {}", nothing(11)),
    ];
    answers(&script.join(" "), &expected.join(" "));
}
#[test]
fn the_refusals_of_a_sender() {
    answers(&sender(0, 0), "13");
    answers(&sender(129, 0), "13");
    answers(&enqueue(1, 100, 5), "ff");
    let at = |op: &str| format!("{op} {}", clock(5, 0));
    // one octet or one word short, and more than there is
    for lent in ["28 7f7f 0d80", "28 7f80 0d7f"] {
        let short = [&sender(1, 0), lent, &at("2b"), "28 7fa0 0d84", &at("2b")];
        answers(&short.join(" "), "00 00 10 00 00");
    }
    answers("28 7fa1 0d80 28 7f80 0d85", "ff ff");
    // 512 numbers left, then 511
    let last = [sender(1, u64::MAX - 512), enqueue(1, 100, 5), at("2b")];
    let first = u64::MAX - 512;
    answers(&last.join(" "), &format!("00 00 {first:016x} 12"));
    let faults = [
        sender(1, 0),
        enqueue(1, 0, 5),
        enqueue(0, 1, 5),
        enqueue(256, 1, 5),
        enqueue(305, 1, 5),
        enqueue(1, 1, 4),
    ];
    answers(&faults.join(" "), "00 17 01 01 ff 16");
}
#[test]
fn the_sums_of_a_sender() {
    fn mixed(sum: u64, word: u64) -> u64 {
        let sum = sum ^ word;
        let sum = sum ^ (sum << 13);
        sum ^ (sum >> 7)
    }
    // the whole memory: what is lent does not matter
    let script = format!("{} 28 0000 0000 42", sender(1, 7));
    let mut state = [0, 0, 0, 0, 0, 7, 0].into_iter().fold(0, mixed);
    state = [0; 128].into_iter().fold(state, mixed);
    let lane = |first: u64| (0..1021 + 865).fold(first, |sum, _| mixed(sum, 0));
    let memory = [0, 1, 2, 3].map(lane).into_iter().fold(0, mixed);
    answers(&script, &format!("00 00 00 {state:016x} {memory:016x}"));
}

#[test]
fn the_memory_is_what_a_script_leaves() {
    // a refused sender fills it too, and what is lent does not matter
    for (capacity, number) in [(0, "13"), (1, "00")] {
        let sender = sender(capacity, 7);
        let filled = sender.strip_suffix("00").unwrap().to_owned() + "a5";
        let (stored, words) = answers(&format!("28 0000 0000 {filled}"), &format!("00 {number}"));
        assert!(stored.iter().all(|octet| *octet == 0xa5));
        assert!(words.iter().all(|word| *word == 0xa5a5_a5a5_a5a5_a5a5));
    }
    // an octet of the message, and the submission of its frame
    let script = [
        MESSAGE.to_owned(),
        sender(1, 7),
        enqueue(1, 100, 5),
        format!("2c {}", clock(5, 0)),
        format!("30 {} {}", token([7, 8, 0]), clock(5, 0)),
    ];
    let first = prepared("00", "2008", [7, 8, 0]);
    let expected = format!("00 00 00 {:016x} 00 {first} 00", 7);
    let (stored, words) = answers(&script.join(" "), &expected);
    assert_eq!((stored[0], words[0]), (0x41, 8));
    assert!(stored[1..].iter().all(|octet| *octet == 0));
    assert!(words[1..].iter().all(|word| *word == 0));
}

/// Runs in a room of this size, on a memory of ones that no operation writes, and gives what was written.
fn ends(script: &str, room: usize, lengths: (usize, usize)) -> Vec<u8> {
    let (mut stored, mut words) = (vec![0xff; lengths.0], vec![u64::MAX; lengths.1]);
    let mut answers = vec![0x55; room];
    let length = run_sender(&octets(script), &mut answers, &mut stored, &mut words);
    assert!(answers[length..].iter().all(|octet| *octet == 0x55));
    assert!(stored.iter().all(|octet| *octet == 0xff));
    assert!(words.iter().all(|word| *word == u64::MAX));
    answers.truncate(length);
    answers
}
#[test]
fn ends_of_a_script() {
    let whole = (LENT_OCTETS, LENT_WORDS);
    assert_eq!(ends("", 1, whole), [END]);
    assert_eq!(ends("", 0, whole), []);
    for op in ["00", "0d", "0f", "26", "43", "ff"] {
        assert_eq!(ends(op, 1, whole), [END_UNKNOWN]);
    }
    assert_eq!(ends("0e 00", 1, whole), [END_CUT]);
    assert_eq!(ends(MESSAGE, 2, whole), [0, END]);
    assert_eq!(ends(MESSAGE, 1, whole), [END_NO_ROOM]);
    // the longest answer is of 129 octets, even where there is no sender
    assert_eq!(ends("41 00", 130, whole), [255, END]);
    assert_eq!(ends("41 00", 129, whole), [END_NO_ROOM]);
}
#[test]
fn another_memory_than_that_of_a_script_is_not_answered() {
    for octets in [0, LENT_OCTETS - 1, LENT_OCTETS, LENT_OCTETS + 1] {
        for words in [0, LENT_WORDS - 1, LENT_WORDS, LENT_WORDS + 1] {
            if (octets, words) != (LENT_OCTETS, LENT_WORDS) {
                assert_eq!(ends(&sender(1, 7), 100, (octets, words)), []);
            }
        }
    }
}
