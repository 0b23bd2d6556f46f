//! Times the original's sender, with the real `Arc`, beside the port's.
mod port;

use clock::Clock;
use plain::loops;
use port::{Call, Memory};

const LIVE: [u64; 3] = [1, 16, 128];
const FRAMES: u64 = 27;

type Original = fn(live: u64, rounds: u64) -> u64;
/// How many rounds are tried first.
type First = fn(live: u64) -> u64;
type Row = (&'static str, Call, Original, First);

const CALLS: [Row; 9] = [
    (
        "the sender's `advance`, nothing due",
        Call::Advance,
        loops::advance,
        some,
    ),
    (
        "`prepare`, the selection stands",
        Call::Prepare,
        loops::prepare,
        some,
    ),
    (
        "`prepare`, `submitted`, `transmitted` of a frame",
        Call::Frame,
        loops::frame,
        all_out,
    ),
    ("`status`, empty", Call::Status, loops::status, some),
    (
        "`enqueue` that replaces, `pop_event`",
        Call::Enqueue,
        loops::enqueue,
        some,
    ),
    ("`refresh_waiting`", Call::Refresh, loops::refresh, some),
    ("`cancel`, none found", Call::Cancel, loops::cancel, some),
    ("`ready`, none is", Call::Ready, loops::ready, many),
    (
        "`contains`, none found",
        Call::Contains,
        loops::contains,
        some,
    ),
];
fn some(_: u64) -> u64 {
    64
}
/// Its set-up is long.
fn many(_: u64) -> u64 {
    4096
}
/// All frames go out, and one more round makes a new sender.
fn all_out(live: u64) -> u64 {
    FRAMES * live + 1
}

fn main() {
    let mut clock = Clock::default();
    for (label, call, original, first) in CALLS {
        for live in LIVE {
            let mut memory = Memory::default();
            clock.add(
                label,
                Some(live),
                1,
                first(live),
                move |rounds| original(live, rounds),
                move |rounds| port::time_sender(call, live, rounds, &mut memory),
            );
        }
    }
    clock.run();
}
