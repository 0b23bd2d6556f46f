//! The interpreter on answers computed by hand from the README and the layout of a frame.
use bts136::harness::script::{END, END_CUT, END_NO_ROOM, END_UNKNOWN, OPERATIONS, operation, run};

mod hex;
use hex::octets;

/// Runs a script in ample room: the answers and nothing else, the end octet after them.
#[track_caller]
fn answers(script: &str, expected: &str) {
    let mut room = [0x55; 4000];
    let length = run(&octets(script), &mut room);
    let mut expected = octets(expected);
    expected.push(END);
    assert_eq!(room[..length], expected[..]);
    assert!(room[length..].iter().all(|octet| *octet == 0x55));
}

#[test]
fn the_table_is_in_the_order_of_its_op_octets() {
    for row in &OPERATIONS {
        assert_eq!(operation(row.op).map(|found| found.op), Some(row.op));
    }
    assert!(operation(0).is_none());
    assert!(operation(OPERATIONS.len() as u8 + 1).is_none());
}

#[test]
fn identities() {
    answers("01 02 0000000000000007", "00 02 22 0000000000000007");
    answers("01 00 00000000ffffffff", "00 00 14 00000000ffffffff");
    answers("01 01 0000000100000000", "ff");
    answers("01 04 0000000000000001", "ff");
    answers("02 01 0000000000ffffff", "00");
    answers("02 01 0000000001000000", "02");
    answers("02 03 0000000000000000", "02");
    answers("02 00 0000000100000000", "ff");
    answers("03 00 0000000000000005 00 0000000000000005", "00 01");
    answers("03 00 0000000000000005 01 0000000000000005", "00 00");
    answers("03 02 0000000000000005 09 0000000000000005", "ff");
    answers("04 03 0003ffffffffffff", "00 03 0003ffffffffffff");
    answers("04 00 0000000100000000", "02");
    answers("04 04 0000000000000001", "02");
}

#[test]
fn headers_and_addresses() {
    let frame = "6140000021480504000000000000";
    answers(&format!("05 00 {frame}"), "00 03 00 07");
    answers(&format!("06 0a {frame}"), "00 00 0000000000000001 00 23");
    // usage 4, flags 101, fourth flag clear; then the fourth set; then usage 5
    answers("05 00 9400000000000000000000000000", "00 04 0a 07");
    answers("05 00 9600000000000000000000000000", "06");
    answers("05 00 b600000000000000000000000000", "03");
    // usage 7 at the last offset, the lowest 7 bits
    answers("05 69 000000000000000000000000007c", "00 07 0c 70");
    answers("05 6a ffffffffffffffffffffffffffff", "ff");
    // type 3, reservation response, identity all ones but the last bit, at the last offset; then the bit after the type
    answers(
        "06 39 000000000000006bfffffffffffe",
        "00 03 0003fffffffffffe 01 70",
    );
    answers("06 39 000000000000007bfffffffffffe", "04");
    answers("06 39 0000000000000000 000000000000", "02");
    answers(
        "06 00 d1 8000000000 0000 000000000000",
        "00 03 0000c00000000000 01 37",
    );
    answers("06 00 0800000000000000000000000000", "05");
    answers("06 3a 0000000000000000000000000000", "ff");
}

#[test]
fn the_store() {
    let zeros = |count: usize| "00".repeat(count);
    answers("07 0000 32", "00 0000000000000000 0032");
    answers("07 01ce 32", "00 0000000000000000 0200");
    answers("07 01cf 32", "01");
    answers("07 0000 00 07 0000 33 07 ffff 01", "ff ff 01");
    // the low three bits of the value, and no other, at bit 6
    answers(
        "08 0006 03 fffffffffffffffd 0a",
        &format!("00 00 0280{}", zeros(62)),
    );
    answers("08 01ff 02 0000000000000003", "01");
    answers("08 01ff 33 0000000000000003", "ff");
    answers(
        "09 07 0102030405060708 09 08 0102030405060708 0a",
        &format!("00 ff 00{} 0102030405060708", zeros(56)),
    );
    // one octet, four bits down, over itself: the bits as they were
    answers(
        "09 00 f100000000000000 0b 0004 0000 0008 0a",
        &format!("00 00 00 ff10{}", zeros(62)),
    );
    answers("0b 0200 0200 0000 0b 0201 0000 0000", "00 01");
    answers("0b 0000 01ff 0002 0b 01ff 0000 0002", "01 01");
}

/// Arch, echo 5, polling, Contention.
const HEADER: &str = "03 00 05 01 00";
/// Tmsi20 of 1.
const TMSI: &str = "00 0000000000000001";
/// The sample order of document 01.
const SAMPLE: &str = "6140000021480504 000000000000";

fn begin(header: &str, identity: &str, counts: &str, data: &str) -> String {
    format!("00 {header} {identity} {counts} {data} 00 00 00000000000000000000")
}
fn next(header: &str, numbers: &str, data: &str) -> String {
    format!("01 {header} 00 0000000000000000 00 00 00000000000000 {numbers} {data}")
}
#[test]
fn frames() {
    // one octet in 8 bits, as it is cut, and in the room's 55, as it is read
    let cut = begin(HEADER, TMSI, "01 08", "41000000000000");
    let read = begin(HEADER, TMSI, "01 37", "41000000000000");
    answers(
        &format!("0c {cut} 0c {read}"),
        &format!("00 {SAMPLE} 00 {SAMPLE}"),
    );
    let octets = |length: &str| format!("0d {length} {SAMPLE} {}", "00".repeat(18));
    answers(&octets("0e"), &format!("00 {read}"));
    answers(&octets("0d"), "01");
    answers(&octets("0f"), "01");
    answers(&octets("00"), "01");
    answers(&octets("21"), "ff");
    // bits past the count and past the room's end
    answers(
        &format!("0c {}", begin(HEADER, TMSI, "01 09", "41000000000000")),
        &format!("00 {SAMPLE}"),
    );
    answers(
        &format!("0c {}", begin(HEADER, TMSI, "01 09", "41800000000000")),
        "07",
    );
    answers(
        &format!("0c {}", begin(HEADER, TMSI, "01 38", "41000000000000")),
        "0d",
    );
    answers(
        &format!("0c {}", begin(HEADER, TMSI, "01 ff", "41000000000000")),
        "0d",
    );
    answers(
        &format!(
            "0c {}",
            begin("07 00 80 01 00", TMSI, "01 08", "41000000000000")
        ),
        "03",
    );
    answers(
        &format!(
            "0c {}",
            begin("03 00 80 01 00", TMSI, "01 08", "41000000000000")
        ),
        "0b",
    );
    answers(
        &format!(
            "0c {}",
            begin("05 00 05 01 00", TMSI, "01 08", "41000000000000")
        ),
        "ff",
    );
    answers(
        &format!(
            "0c {}",
            begin("03 10 05 01 00", TMSI, "01 08", "41000000000000")
        ),
        "ff",
    );
    answers(
        &format!(
            "0c {}",
            begin("03 00 05 02 00", TMSI, "01 08", "41000000000000")
        ),
        "ff",
    );
    answers(
        &format!(
            "0c {}",
            begin("03 00 05 01 02", TMSI, "01 08", "41000000000000")
        ),
        "ff",
    );
    // a Continue: its 79 bits, the low two bits of its type
    let ones = "ffffffffffffffffffff";
    let sent = next("04 0f 7f 00 01", "06 19", ones);
    answers(&format!("0c {sent}"), "00 9da7f8e7 ffffffffffffffffff f8");
    answers(
        &format!("0c {}", next("04 0f 7f 00 01", "06 1a", ones)),
        "0c",
    );
}
#[test]
fn cuts() {
    let cut = |length: &str| format!("{HEADER} {TMSI} {length}");
    let fill = "0e 00 ffffffffffffffff";
    answers(&format!("0f {}", cut("0006")), "00 01");
    answers(&format!("0f {}", cut("0007")), "00 02");
    answers(&format!("0f {}", cut("00ff")), "00 1b");
    answers(&format!("0f {}", cut("0100")), "01");
    answers(&format!("0f {}", cut("0130")), "01");
    answers(&format!("0f {}", cut("0131")), "ff");
    answers("0e 25 0102030405060708 0e 26 0102030405060708", "00 ff");
    answers(
        &format!(
            "{fill} 10 {} 0000 10 {} 0001 10 {} 0002",
            cut("0007"),
            cut("0007"),
            cut("0007")
        ),
        &format!(
            "00 00 {} 00 {} 0c",
            begin(HEADER, TMSI, "07 37", "fffffffffffffe"),
            next(HEADER, "00 00", "80000000000000000000")
        ),
    );
}

fn push(frame: &str, room: &str, filling: &str) -> String {
    format!("12 0e {frame} {} {room} {filling}", "00".repeat(18))
}
#[test]
fn receivers() {
    let new = format!("11 {TMSI}");
    let heard = push(SAMPLE, "00ff", "aa");
    // the sample is polled, and a whole message of one octet; pushed again, it is delivered again
    let delivered = format!(
        "00 01 01 03 00 {TMSI} 01 01 05 00000000 00 00 41 {} {}",
        "aa".repeat(254),
        "00".repeat(49)
    );
    answers(
        &format!("{new} {heard} 15 14 {heard} 13 15 14"),
        &format!("00 {delivered} 00 01 00 01 05 00000000 {delivered} 00 00 00 00 00 00 00000000"),
    );
    // no receiver; none after a refused NEW; the old one stays if the operands name no call
    answers(&format!("{heard} 13 14 15"), "ff ff ff ff");
    answers(&format!("{new} 11 00 0000000000000000 13"), "00 02 ff");
    answers(&format!("{new} 11 04 0000000000000001 13"), "00 ff 00");
    // too short a buffer goes before a set bit of padding, that one before the rest
    answers(&format!("{new} {}", push(SAMPLE, "00fe", "aa")), "00 10");
    answers(&format!("{new} {}", push(SAMPLE, "0131", "aa")), "00 ff");
    let padded = "ffffffffffffffffffffffffffff";
    answers(&format!("{new} {}", push(padded, "00fe", "aa")), "00 10");
    answers(&format!("{new} {}", push(padded, "0130", "aa")), "00 0f");
    // another's Begin is ignored
    answers(
        &format!("11 00 0000000000000002 {}", push(SAMPLE, "0130", "bb")),
        &format!("00 00 {} {}", "00".repeat(22), "bb".repeat(304)),
    );
}

const LAST: u64 = u64::MAX;
/// Operations of one number, or of a token, a block and a result.
fn of(op: &str, number: u64) -> String {
    format!("{op} {number:016x}")
}
fn result(op: &str, token: u64, block: u64, result: &str) -> String {
    format!("{op} {token:016x} {block:016x} {result}")
}
/// The values of a timer: state, since, last block, pending, token, next number.
fn timer(state: u8, blocks: [u64; 2], pending: u8, numbers: [u64; 2]) -> String {
    let ([since, last], [token, next]) = (blocks, numbers);
    format!("{state:02x} {since:016x} {last:016x} {pending:02x} {token:016x} {next:016x}")
}
/// Runs each operation and the one of the state after it; no state is expected where its text is empty.
#[track_caller]
fn life(state_op: &str, steps: &[(String, &str, String)]) {
    let (mut script, mut expected) = (String::new(), String::new());
    for (operation, answer, state) in steps {
        script += operation;
        expected += answer;
        if !state.is_empty() {
            script += state_op;
            expected += &format!("00 {state}");
        }
    }
    answers(&script, &expected);
}
#[test]
fn a_timer_waits_32_blocks_twice() {
    life(
        "1f",
        &[
            (of("16", 7), "00", timer(0, [0, 0], 0, [7, 8])),
            (of("1b", 100), "00", timer(1, [100, 100], 0, [7, 8])),
            (of("1c", 131), "0000", timer(1, [100, 131], 0, [7, 8])),
            (of("1c", 132), "0001", timer(2, [0, 132], 1, [7, 8])),
            // its status fails to come; it comes; then it comes again
            (of("1c", 164), "0000", timer(2, [0, 164], 1, [7, 8])),
            (
                result("1d", 7, 170, "00"),
                "0000",
                timer(3, [170, 170], 0, [7, 8]),
            ),
            (
                result("1d", 7, 171, "01"),
                "0000",
                timer(3, [170, 171], 0, [7, 8]),
            ),
            (of("1c", 201), "0000", timer(3, [170, 201], 0, [7, 8])),
            (of("1c", 202), "0002", timer(0, [0, 202], 0, [8, 9])),
            // idle, whatever comes of a solicited status
            (
                result("1e", 8, 203, "01"),
                "0000",
                timer(0, [0, 203], 0, [8, 9]),
            ),
            (of("1b", 203), "00", String::new()),
            (
                result("1e", 8, 210, "00"),
                "0000",
                timer(1, [210, 210], 0, [8, 9]),
            ),
            (
                result("1e", 8, 210, "01"),
                "0002",
                timer(0, [0, 210], 0, [9, 10]),
            ),
        ],
    );
}
#[test]
fn a_timer_asks_once_while_a_status_is_pending() {
    life(
        "1f",
        &[
            (of("16", 0) + &of("1b", 0), "0000", String::new()),
            (of("1c", 32), "0001", timer(2, [0, 32], 1, [0, 1])),
            (of("1b", 33), "00", timer(1, [33, 33], 1, [0, 1])),
            (of("1c", 99), "0000", timer(1, [33, 99], 1, [0, 1])),
            (
                result("1d", 0, 100, "00"),
                "0000",
                timer(1, [100, 100], 0, [0, 1]),
            ),
            (of("1c", 131), "0000", String::new()),
            (of("1c", 132), "0001", timer(2, [0, 132], 1, [0, 1])),
            (
                result("1e", 0, 140, "00"),
                "0000",
                timer(1, [140, 140], 1, [0, 1]),
            ),
            (
                result("1d", 0, 141, "01"),
                "0002",
                timer(0, [0, 141], 0, [1, 2]),
            ),
        ],
    );
}
#[test]
fn the_refusals_of_a_timer() {
    let three = [LAST - 4, LAST - 3];
    life(
        "1f",
        &[
            // exactly four left, then three
            (
                of("16", LAST - 5) + "19",
                "0000",
                timer(0, [0, 0], 0, three),
            ),
            (of("1b", 9), "00", timer(1, [9, 9], 0, three)),
            (of("1a", 8), "11", String::new()),
            (of("1b", 8), "11", String::new()),
            ("19".to_owned(), "12", String::new()),
            (of("1c", 8), "12", String::new()),
            (result("1d", LAST - 4, 8, "00"), "12", String::new()),
            (result("1e", LAST - 4, 8, "00"), "12", String::new()),
            // a foreign token goes before both refusals and moves no clock
            (result("1d", LAST - 5, 8, "01"), "0000", String::new()),
            (result("1e", LAST - 3, 80, "01"), "0000", String::new()),
            ("17".to_owned(), "00 fffffffffffffffb", String::new()),
            (of("18", LAST - 4), "0001", String::new()),
            (of("18", LAST - 5), "0000", timer(1, [9, 9], 0, three)),
            // the counter stops
            (
                of("16", LAST - 1),
                "00",
                timer(0, [0, 0], 0, [LAST - 1, LAST]),
            ),
            (of("16", LAST), "00", timer(0, [0, 0], 0, [LAST, LAST])),
        ],
    );
    let clock = of("16", 1) + &of("1a", 5) + &of("1c", 4);
    let clock = clock + &result("1d", 1, 4, "00") + &result("1e", 1, 4, "01");
    answers(&clock, "00 00 11 11 11");
    let none = ["17".to_owned(), of("18", 0), "19".to_owned(), of("1a", 0)];
    let none = none.concat() + &of("1b", 0) + &of("1c", 0) + "1f";
    let none = none + &result("1d", 0, 0, "00") + &result("1e", 0, 0, "00");
    answers(&none, &"ff".repeat(9));
    let over = of("16", 0) + &result("1d", 9, 0, "02") + &result("1e", 0, 0, "ff");
    answers(&over, "00 ff ff");
}

/// Seven octets of ones to the Tmsi20 of 1, echo 5: the Begin unpolled, the Continue unpolled and polled.
const BEGIN: &str = "6140000021401fff ffffffffff f8";
const CONTINUE: &str = "61802802 00000000000000000000";
const POLLED: &str = "61802902 00000000000000000000";
fn receive(block: u64, frame: &str) -> String {
    received(block, "0e", frame, "00ff")
}
fn received(block: u64, length: &str, frame: &str, room: &str) -> String {
    format!(
        "23 {block:016x} {length} {frame} {} {room} aa",
        "00".repeat(18)
    )
}
/// What an accepted frame is answered: a delivery of some octets, a transmission, and the buffer of 255.
fn accepted(delivery: &str, transmission: &str, message: &str) -> String {
    let rest = "aa".repeat(255 - message.len() / 2);
    format!(
        "00 01 {delivery} {transmission} {message} {rest} {}",
        "00".repeat(49)
    )
}
fn nothing(octets: usize) -> String {
    "00".repeat(octets)
}
fn delivery(length: &str) -> String {
    format!("01 03 00 {TMSI} {length}")
}
/// Of echo 5 and Contention: the map, the token, kind and complete_at_poll.
fn transmission(map: u32, token: u64, rest: &str) -> String {
    format!("05 {map:08x} 00 {token:016x} {rest}")
}
fn sent(block: u64, transmission: &str, result: &str) -> String {
    format!("25 {block:016x} {transmission} {result}")
}
fn made(first: u64) -> String {
    format!("20 {TMSI} {first:016x}")
}
const NONE_HELD: &str = "00 00 00000000 00";
fn state(timer: String, receiver: &str) -> String {
    format!("{timer} {receiver}")
}
#[test]
fn a_complete_polled_message_waits_for_its_status() {
    let status = transmission(0, 8, "00 01");
    let held = "01 05 00000000 01";
    let delivered = accepted(&delivery("01"), &format!("01 {status}"), "41");
    let complete = state(timer(0, [0, 5], 0, [8, 9]), held);
    let silent = format!("00 00 {}", nothing(17));
    life(
        "26",
        &[
            (made(7), "00", state(timer(0, [0, 0], 0, [7, 8]), NONE_HELD)),
            ("22".to_owned(), "0000", String::new()),
            (receive(5, SAMPLE), &delivered, complete),
            ("22".to_owned(), "0001", String::new()),
            (
                of("24", 1000),
                &silent,
                state(timer(0, [0, 1000], 0, [8, 9]), held),
            ),
            (
                sent(1000, &status, "00"),
                "0002",
                state(timer(0, [0, 1000], 0, [9, 10]), NONE_HELD),
            ),
            // used twice: it is foreign now, and its clock goes back
            (
                sent(3, &status, "00"),
                "0000",
                state(timer(0, [0, 1000], 0, [9, 10]), NONE_HELD),
            ),
            // unpolled, it takes two numbers and nothing is held
            (
                receive(1001, &SAMPLE.replace("48", "40")),
                &accepted(&delivery("01"), &nothing(17), "41"),
                state(timer(0, [0, 1001], 0, [11, 12]), NONE_HELD),
            ),
        ],
    );
}
#[test]
fn a_procedure_asks_after_32_blocks_and_ends_after_32_more() {
    let held = "01 05 00000000 00";
    let status = transmission(0, 1, "01 00");
    let silent = format!("00 00 {}", nothing(17));
    let ended = format!("00 02 {}", nothing(17));
    life(
        "26",
        &[
            (made(0), "00", String::new()),
            (
                receive(10, BEGIN),
                &accepted(&nothing(13), &nothing(17), ""),
                state(timer(1, [10, 10], 0, [1, 2]), held),
            ),
            (of("24", 41), &silent, String::new()),
            (
                of("24", 42),
                &format!("00 01 01 {status}"),
                state(timer(2, [0, 42], 1, [1, 2]), held),
            ),
            (
                sent(50, &status, "00"),
                "0001",
                state(timer(3, [50, 50], 0, [1, 2]), held),
            ),
            (of("24", 81), &silent, String::new()),
            // two numbers: the timer's reset and the procedure's
            (
                of("24", 82),
                &ended,
                state(timer(0, [0, 82], 0, [3, 4]), NONE_HELD),
            ),
        ],
    );
    // with exactly four left at the last step
    let status = transmission(0, LAST - 5, "01 00");
    let two = [LAST - 3, LAST - 2];
    life(
        "26",
        &[
            (made(LAST - 6), "00", String::new()),
            (
                receive(0, BEGIN),
                &accepted(&nothing(13), &nothing(17), ""),
                String::new(),
            ),
            (
                of("24", 32) + &sent(32, &status, "00") + &of("24", 64),
                &format!("00 01 01 {status} 0001 {ended}"),
                state(timer(0, [0, 64], 0, two), NONE_HELD),
            ),
            (of("24", 1), "12", String::new()),
            ("21".to_owned(), "12", String::new()),
            (
                sent(1, &transmission(0, two[0], "00 00"), "00"),
                "12",
                String::new(),
            ),
            (sent(1, &status, "00"), "0000", String::new()),
            // too few tokens go before too little room
            (received(1, "0e", BEGIN, "00fe"), "12", String::new()),
        ],
    );
}
#[test]
fn a_complete_message_is_heard_again() {
    let polled = |complete: &str| format!("01 {}", transmission(1, 1, &format!("00 {complete}")));
    let message = accepted(&delivery("07"), &polled("01"), "ffffffffffffff");
    let heard = accepted(&nothing(13), &polled("01"), "");
    let held = "01 05 00000001 01";
    let start = made(0) + &receive(10, BEGIN) + &receive(11, POLLED);
    let started = format!("00 {} {message}", accepted(&nothing(13), &nothing(17), ""));
    let waiting = state(timer(1, [10, 11], 0, [1, 2]), held);
    let reset = state(timer(0, [0, 12], 0, [2, 3]), NONE_HELD);
    // an unpolled one resets, a polled one asks for another status, of which the first that is sent resets
    life(
        "26",
        &[
            (start.clone(), &started, waiting.clone()),
            (
                receive(12, CONTINUE),
                &accepted(&nothing(13), &nothing(17), ""),
                reset.clone(),
            ),
            (sent(12, &transmission(1, 1, "00 01"), "00"), "0000", reset),
        ],
    );
    life(
        "26",
        &[
            (start, &started, waiting),
            (receive(12, POLLED), &heard, String::new()),
            // made up: its kind decides, then complete_at_poll, then the result
            (
                sent(13, &transmission(9, 1, "01 00"), "00"),
                "0001",
                state(timer(1, [10, 13], 0, [1, 2]), held),
            ),
            (
                sent(14, &transmission(9, 1, "00 00"), "00"),
                "0001",
                state(timer(1, [14, 14], 0, [1, 2]), held),
            ),
            (
                sent(14, &transmission(9, 1, "01 01"), "00"),
                "0002",
                state(timer(0, [0, 14], 0, [2, 3]), NONE_HELD),
            ),
            (
                sent(15, &transmission(9, 2, "01 01"), "01"),
                "0003",
                state(timer(0, [0, 15], 0, [3, 4]), NONE_HELD),
            ),
        ],
    );
}
#[test]
fn the_refusals_of_a_procedure() {
    let padded = SAMPLE.replace("000000000000", "000000000001");
    let idle = |last| state(timer(0, [0, last], 0, [0, 1]), NONE_HELD);
    let own = transmission(0, 0, "00 00");
    let ignored = format!("00 {} {} {}", nothing(31), "aa".repeat(255), nothing(49));
    life(
        "26",
        &[
            (made(0), "00", String::new()),
            // room, clock, length, padding, and the frame last; an accepted clock stays moved
            (received(9, "0d", &padded, "00fe"), "10", idle(0)),
            (received(9, "0d", &padded, "00ff"), "01", idle(9)),
            (received(8, "0d", &padded, "00ff"), "11", idle(9)),
            (receive(10, &padded), "0f", idle(10)),
            (receive(9, &padded), "11", idle(10)),
            (receive(11, &SAMPLE.replace("61", "a1")), "03", idle(11)),
            (receive(12, CONTINUE), &ignored, idle(12)),
            (of("24", 11), "11", idle(12)),
            (sent(11, &own, "00"), "11", idle(12)),
            (received(13, "21", SAMPLE, "00ff"), "ff", String::new()),
            (received(13, "0e", SAMPLE, "0131"), "ff", String::new()),
            (sent(13, &own, "02"), "ff", idle(12)),
            (
                "21".to_owned(),
                "00",
                state(timer(0, [0, 12], 0, [1, 2]), NONE_HELD),
            ),
        ],
    );
    for other in ["02 0000000000000000 00 00", "00 0000000000000000 02 00"] {
        let transmission = format!("05 00000000 {other}");
        answers(&(made(0) + &sent(0, &transmission, "00")), "00 ff");
    }
    let complete = transmission(0, 9, "00 02");
    answers(&(made(0) + &sent(0, &complete, "00")), "00 ff");
    let calls = "21 22 26".to_owned() + &receive(0, SAMPLE) + &of("24", 0) + &sent(0, &own, "00");
    answers(&calls, &"ff".repeat(6));
    // none after a refused one; the old one stays if the operands name no call; it has its own counter
    let refused = made(0) + "20 00 0000000000000000 0000000000000005";
    answers(&format!("{refused} 22"), "00 02 ff");
    let none = made(0) + "20 04 0000000000000001 0000000000000005";
    answers(&format!("{none} 22"), "00 ff 0000");
    let both = of("16", 7) + &made(20) + "19 21 17";
    answers(
        &(both + &of("18", 20)),
        "00 00 00 00 00 0000000000000008 0000",
    );
}

/// Runs in a room of this size and gives what was written.
fn ends(script: &str, room: usize) -> Vec<u8> {
    let mut answers = vec![0x55; room];
    let length = run(&octets(script), &mut answers);
    assert!(answers[length..].iter().all(|octet| *octet == 0x55));
    answers.truncate(length);
    answers
}
#[test]
fn ends_of_a_script() {
    assert_eq!(ends("", 1), [END]);
    assert_eq!(ends("", 0), []);
    assert_eq!(ends("00", 1), [END_UNKNOWN]);
    assert_eq!(ends("27", 1), [END_UNKNOWN]);
    assert_eq!(ends("07 0000", 1), [END_CUT]);
    // CHECK has a longest answer of 1, TAKE of 11 even where it refuses
    assert_eq!(ends("02 00 0000000000000001", 2), [0, END]);
    assert_eq!(ends("02 00 0000000000000001", 1), [END_NO_ROOM]);
    assert_eq!(ends("07 0000 00", 12), [255, END]);
    assert_eq!(ends("07 0000 00", 11), [END_NO_ROOM]);
    assert_eq!(ends("07 0000 00 07 0000 00", 12), [255, END_NO_ROOM]);
}
