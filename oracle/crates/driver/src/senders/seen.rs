//! What happened in the lives of senders, counted by kind.
use crate::counter::{Counter, Row};
use bts136::harness::{
    script::{
        ANSWERED,
        sender::{
            CAN_ENQUEUE, CANCEL, CANCEL_ALL, CANCEL_TRANSACTION, CONTAINS, ENQUEUE, HAS_ECHO,
            IDENTITY_FOR_ECHO, INTERRUPT, PENDING, POP_EVENT, PREPARE, PRIORITIZED, RADIO_ACTIVE,
            READY, REFRESH, SENDER, SENDER_ADVANCE, SENDER_STATUS, SUBMITTED, SUBMITTED_MESSAGE,
            TRANSMITTED, operation,
        },
    },
    sending::{Live, NEEDED_OCTETS, NEEDED_WORDS, Sending, Token, event_parts},
};
use std::ops::AddAssign;

/// Every kind that must be seen, beside the number octets of each operation.
#[rustfmt::skip]
const KINDS: [(u8, &[&str]); 22] = [
    (SENDER,             &["made", "19 zero", "19 over 128"]),
    (CAN_ENQUEUE,        &["no", "yes"]),
    (ENQUEUE,            &["added", "replaced", "begins to share an echo", "shares an echo", "20 events", "20 transfers", "1 empty", "1 long",
                           "21 first block", "21 no echo", "23 past", "23 guard", "last of 128", "of 27 frames",
                           "search passes 127", "echo held until now", "21 held until after now",
                           "at the first block", "23 at now", "deadline after now by 1", "deadline plus guard of 2^64 - 1", "Pch", "guard over 2^63", "512 left"]),
    (SENDER_ADVANCE,     &["with a restart"]),
    (PREPARE,            &["nothing", "frame", "frame polled", "frame of 27", "selected before", "of 65 tokens", "512 left", "511 left"]),
    (HAS_ECHO,           &["no", "yes"]),
    (INTERRUPT,          &["not found", "found", "restarts", "of a shared echo", "first is overdue", "first is not overdue", "without an echo"]),
    (PRIORITIZED,        &["nothing", "frame", "selection dropped", "selection kept", "last frame again"]),
    (SUBMITTED,          &["overdue", "24 foreign frame", "24 foreign generation", "24 foreign submission", "24 older", "24 other", "511 left"]),
    (SUBMITTED_MESSAGE,  &["nothing", "completion"]),
    (TRANSMITTED,        &["not found", "found", "completed", "not completed", "foreign frame", "foreign generation", "foreign submission",
                           "older", "other", "completed and expired"]),
    (SENDER_STATUS,      &["not found", "found", "upper bits set", "echo over 127", "Complete", "queued again", "Begin not sent"]),
    (CANCEL,             &["not found", "found", "selection dropped"]),
    (CANCEL_TRANSACTION, &["not found", "found", "after a restart", "generation only"]),
    (CANCEL_ALL,         &["nothing", "some"]),
    (REFRESH,            &["queued", "queued at 16 blocks", "moved", "moved of equal ages", "with a selection", "15 blocks"]),
    (IDENTITY_FOR_ECHO,  &["nothing", "identity"]),
    (RADIO_ACTIVE,       &["no", "yes"]),
    (READY,              &["no", "yes"]),
    (CONTAINS,           &["no", "yes"]),
    (POP_EVENT,          &["nothing", "Complete", "Expired", "Cancelled", "Failed"]),
    (PENDING,            &["nothing", "some"]),
];
/// Of any call.
const HAPPENED: [&str; 21] = [
    "restart",
    "restart at 64 blocks",
    "no restart at 63 blocks",
    "Complete",
    "Expired",
    "Cancelled",
    "Failed",
    "echo search wraps",
    "capacity 1 full",
    "capacity 128 full",
    "events over capacity",
    "256 events",
    "block goes back",
    "time goes back",
    "refused after an accepted clock",
    "two restarts in one call",
    "16 octets alone",
    "16 words alone",
    "16 before 18",
    "16 before 22",
    "18 before 22",
];

#[derive(Default)]
pub struct Seen {
    pub calls: u64,
    kinds: Counter<(u8, &'static str)>,
    happened: Counter<&'static str>,
    forged: Counter<(u8, Forged)>,
    token: Option<Forged>,
}
impl AddAssign for Seen {
    fn add_assign(&mut self, other: Self) {
        self.calls += other.calls;
        self.kinds += other.kinds;
        self.happened += other.happened;
        self.forged += other.forged;
    }
}

/// How a token that is handed in differs from the one at hand.
#[derive(Clone, Copy, PartialEq, Eq, PartialOrd, Ord)]
pub enum Forged {
    Own,
    Frame,
    Generation,
    Submission,
    /// One that was given out before.
    Older,
    Other,
}
const FORGED: [(Forged, &str); 6] = [
    (Forged::Own, "own"),
    (Forged::Frame, "foreign frame"),
    (Forged::Generation, "foreign generation"),
    (Forged::Submission, "foreign submission"),
    (Forged::Older, "older"),
    (Forged::Other, "other"),
];
impl Forged {
    /// Of a token, the one at hand, and those that were given out.
    pub fn of(token: Token, at_hand: Option<Token>, given_out: &[Token]) -> Self {
        let same = at_hand.map(|own| {
            (
                token.generation == own.generation,
                token.submission == own.submission,
                token.frame == own.frame,
            )
        });
        match same {
            Some((true, true, true)) => Self::Own,
            _ if given_out.contains(&token) => Self::Older,
            Some((true, true, false)) => Self::Frame,
            Some((false, true, true)) => Self::Generation,
            Some((true, false, true)) => Self::Submission,
            _ => Self::Other,
        }
    }
}

/// What a call meets.
pub struct Before {
    /// How many octets and words are lent.
    lent: (usize, usize),
    next: u64,
    clocks: (u64, u64),
    next_echo: usize,
    pending: usize,
    events: usize,
    selected: Option<Token>,
    shared: u128,
    /// Where the call's kind is told by them.
    live: Vec<Live>,
    until_ms: Vec<u64>,
}
impl Before {
    pub fn new(sending: Option<&Sending>, lent: (usize, usize), op: u8) -> Option<Self> {
        let sending = sending?;
        let given = sending.given();
        let wanted = [
            REFRESH,
            INTERRUPT,
            SENDER_STATUS,
            SUBMITTED,
            CANCEL_TRANSACTION,
            PRIORITIZED,
            SENDER_ADVANCE,
        ];
        Some(Self {
            lent,
            next: sending.next(),
            clocks: given.clocks(),
            next_echo: given.next_echo(),
            pending: given.pending(),
            events: given.events().len(),
            selected: given.selected().map(|prepared| (&prepared.token).into()),
            shared: shared(sending),
            live: match wanted.contains(&op) {
                true => given.live().collect(),
                false => Vec::new(),
            },
            until_ms: match op {
                ENQUEUE => given.echo_until_ms().to_vec(),
                _ => Vec::new(),
            },
        })
    }
}
/// The names of what was met.
fn each_met(names: &[(&'static str, bool)], add: impl FnMut(&'static str)) {
    let met = names.iter().filter(|(_, met)| *met);
    met.map(|(name, _)| *name).for_each(add);
}
fn some(count: usize) -> &'static str {
    match count {
        0 => "nothing",
        _ => "some",
    }
}
/// The echoes that two transfers hold, bit k for echo k.
pub fn shared(sending: &Sending) -> u128 {
    let (mut held, mut twice) = (0u128, 0);
    for echo in sending.given().echoes() {
        let bit = 1 << echo;
        twice |= held & bit;
        held |= bit;
    }
    twice
}

impl Seen {
    /// A constructor's call, and its number octet.
    pub fn made(&mut self, capacity: u64, number: u8) {
        match (number, capacity) {
            (ANSWERED, _) => self.kinds.add((SENDER, "made")),
            (_, 0) => self.kinds.add((SENDER, "19 zero")),
            _ => self.kinds.add((SENDER, "19 over 128")),
        }
    }
    /// Of the token of the next call.
    pub fn forged(&mut self, op: u8, forged: Forged) {
        self.forged.add((op, forged));
        self.token = Some(forged);
    }
    pub fn add(
        &mut self,
        op: u8,
        operands: &[u8],
        answer: &[u8],
        before: &Option<Before>,
        after: Option<&Sending>,
    ) {
        self.calls += 1;
        let token = self.token.take();
        let (Some(before), Some(after)) = (before, after) else {
            return;
        };
        let call = Told {
            op,
            operands,
            answer,
            before,
            after,
            token,
        };
        call.kinds(|kind| self.kinds.add((op, kind)));
        call.happened(|what| self.happened.add(what));
    }
    pub fn rows(&self) -> Vec<Row> {
        let kinds = KINDS.iter().flat_map(|(op, names)| {
            let operation = operation(*op).expect("of the table").name;
            let names = names.iter();
            names.map(move |name| Row::new(operation, name, self.kinds.of(&(*op, name))))
        });
        let happened = HAPPENED.iter();
        let happened = happened.map(|name| Row::new("any call", name, self.happened.of(name)));
        let tokens = [
            (SUBMITTED, "tokens submitted"),
            (TRANSMITTED, "tokens transmitted"),
        ];
        let forged = tokens.into_iter().flat_map(|(op, group)| {
            FORGED.map(|(forged, name)| Row::new(group, name, self.forged.of(&(op, forged))))
        });
        kinds.chain(happened).chain(forged).collect()
    }
}

/// A call, and what is told of it.
struct Told<'a> {
    op: u8,
    operands: &'a [u8],
    answer: &'a [u8],
    before: &'a Before,
    after: &'a Sending,
    token: Option<Forged>,
}
impl Told<'_> {
    fn word(&self, at: usize) -> u64 {
        u64::from_be_bytes(*self.operands[at..].first_chunk().expect("an operand"))
    }
    /// Block and time, of a call that has them last.
    fn clock(&self) -> (u64, u64) {
        let at = self.operands.len() - 16;
        (self.word(at), self.word(at + 8))
    }
    fn has_clock(&self) -> bool {
        [
            ENQUEUE,
            SENDER_ADVANCE,
            PREPARE,
            INTERRUPT,
            PRIORITIZED,
            SUBMITTED,
            TRANSMITTED,
            SENDER_STATUS,
            REFRESH,
        ]
        .contains(&self.op)
    }
    fn taken(&self) -> u64 {
        self.after.next() - self.before.next
    }
    fn left(&self) -> u64 {
        u64::MAX - self.before.next
    }
    fn selected(&self) -> Option<Token> {
        let selected = self.after.given().selected();
        selected.map(|prepared| (&prepared.token).into())
    }
    /// Tokens are taken by an enqueue, by a new submission and by restarts.
    fn restarts(&self) -> u64 {
        let prepares = [PREPARE, PRIORITIZED].contains(&self.op);
        let submission = self
            .selected()
            .is_some_and(|token| prepares && token.submission >= self.before.next);
        let enqueued = self.op == ENQUEUE;
        match self.taken() {
            0 => 0,
            taken => taken - u64::from(enqueued) - u64::from(submission),
        }
    }
    /// The events that were added.
    fn added(&self) -> impl Iterator<Item = u8> {
        let popped = usize::from(self.op == POP_EVENT);
        let events = self.after.given().events().iter();
        let added = events.skip(self.before.events.saturating_sub(popped));
        added.map(|event| event_parts(event).0)
    }
    fn live_of_echo(&self, echo: u8) -> Option<&Live> {
        self.before.live.iter().find(|live| live.echo == echo)
    }

    fn happened(&self, mut add: impl FnMut(&'static str)) {
        let given = self.after.given();
        let restarts = self.restarts();
        if restarts > 0 {
            add("restart");
        }
        if restarts > 1 {
            add("two restarts in one call");
        }
        for kind in self.added() {
            match kind {
                0 => add("Complete"),
                1 => add("Expired"),
                2 => add("Cancelled"),
                _ => add("Failed"),
            }
        }
        let (octets, words) = self.before.lent;
        match (self.answer[0], octets < NEEDED_OCTETS, words < NEEDED_WORDS) {
            (16, true, false) => add("16 octets alone"),
            (16, false, true) => add("16 words alone"),
            _ => {}
        }
        if given.next_echo() < self.before.next_echo {
            add("echo search wraps");
        }
        if given.pending() == given.capacity() && given.pending() > self.before.pending {
            match given.capacity() {
                1 => add("capacity 1 full"),
                128 => add("capacity 128 full"),
                _ => {}
            }
        }
        if given.events().len() > given.capacity() {
            add("events over capacity");
        }
        if given.events().len() == 256 {
            add("256 events");
        }
        if self.has_clock() {
            self.clocks(&mut add);
        }
    }
    fn clocks(&self, add: &mut impl FnMut(&'static str)) {
        let given = self.after.given();
        let (block, now) = self.clock();
        let (last_block, last_ms) = self.before.clocks;
        let (block_back, time_back) = (block < last_block, now < last_ms);
        let back = block_back || time_back;
        let few = self.left() < 512 && self.op != SUBMITTED;
        let number = self.answer[0];
        each_met(
            &[
                ("block goes back", number == 22 && block_back),
                ("time goes back", number == 22 && time_back),
                (
                    "refused after an accepted clock",
                    number != ANSWERED && given.clocks() != self.before.clocks,
                ),
                ("16 before 18", number == 16 && few),
                ("16 before 22", number == 16 && back),
                ("18 before 22", number == 18 && back),
            ],
            &mut *add,
        );
        if self.op == SENDER_ADVANCE && self.answer[0] == ANSWERED {
            self.waits(block, now, add);
        }
    }
    /// Of the transfers that are not overdue: restarted at 64 blocks since progress or waiting, and not at 63.
    fn waits(&self, block: u64, now: u64, add: &mut impl FnMut(&'static str)) {
        let given = self.after.given();
        let waits = |live: &Live, blocks: u64| {
            let passed = |since: Option<u64>| since.is_some_and(|since| block - since == blocks);
            passed(live.last_progress) || passed(live.waiting_since)
        };
        let kept = |live: &Live| {
            let mut after = given.live();
            after.any(|after| after.generation == live.generation)
        };
        let live = self.before.live.iter();
        let live = live.filter(|live| live.deadline_ms > now);
        if live.clone().any(|live| waits(live, 64) && !kept(live)) {
            add("restart at 64 blocks");
        }
        if live.clone().any(|live| waits(live, 63) && kept(live)) {
            add("no restart at 63 blocks");
        }
    }

    fn kinds(&self, mut add: impl FnMut(&'static str)) {
        let given = self.after.given();
        match (self.op, self.answer) {
            (CAN_ENQUEUE | HAS_ECHO | RADIO_ACTIVE | READY | CONTAINS, [ANSWERED, flag]) => {
                add(["no", "yes"][usize::from(*flag)]);
            }
            (ENQUEUE, _) => self.enqueued(add),
            (SENDER_ADVANCE, [ANSWERED]) if self.restarts() > 0 => add("with a restart"),
            (PREPARE, _) => self.prepared(add),
            (INTERRUPT, _) => self.interrupted(add),
            (PRIORITIZED, _) => self.prioritized(add),
            (SUBMITTED, [number]) => self.submitted(*number, add),
            (SUBMITTED_MESSAGE, [ANSWERED, held, ..]) => {
                add(["nothing", "completion"][usize::from(*held)]);
            }
            (TRANSMITTED, [ANSWERED, found, completed]) => {
                self.transmitted(*found, *completed, add);
            }
            (SENDER_STATUS, _) => self.status(add),
            (CANCEL, [ANSWERED, found]) => {
                add(["not found", "found"][usize::from(*found)]);
                if self.before.selected.is_some() && given.selected().is_none() {
                    add("selection dropped");
                }
            }
            (CANCEL_ALL, [ANSWERED]) => add(some(self.before.pending)),
            (PENDING, [ANSWERED, count]) => add(some(usize::from(*count))),
            (CANCEL_TRANSACTION, [ANSWERED, found]) => self.cancelled(*found, add),
            (REFRESH, [ANSWERED]) => self.refreshed(add),
            (IDENTITY_FOR_ECHO, [ANSWERED, held, ..]) => {
                add(["nothing", "identity"][usize::from(*held)]);
            }
            (POP_EVENT, [ANSWERED, held, kind, ..]) => add(match (held, kind) {
                (0, _) => "nothing",
                (_, 0) => "Complete",
                (_, 1) => "Expired",
                (_, 2) => "Cancelled",
                _ => "Failed",
            }),
            _ => {}
        }
    }
    fn enqueued(&self, mut add: impl FnMut(&'static str)) {
        let given = self.after.given();
        let length = u16::from_be_bytes([self.operands[26], self.operands[27]]);
        let (block, now) = self.clock();
        match self.answer[0] {
            ANSWERED => self.enlisted(block, now, add),
            1 if length == 0 => add("1 empty"),
            1 => add("1 long"),
            3 => add("Pch"),
            20 if self.before.events >= given.capacity() => add("20 events"),
            20 => add("20 transfers"),
            21 if block < given.first_block() => add("21 first block"),
            21 => {
                add("21 no echo");
                if self.before.until_ms.iter().min() == now.checked_add(1).as_ref() {
                    add("21 held until after now");
                }
            }
            23 if self.word(18) == now => add("23 at now"),
            23 if self.word(18) < now => add("23 past"),
            23 => add("23 guard"),
            _ => {}
        }
    }
    fn enlisted(&self, block: u64, now: u64, mut add: impl FnMut(&'static str)) {
        let given = self.after.given();
        let (first_block, deadline) = (given.first_block(), self.word(18));
        add(match given.pending() > self.before.pending {
            true => "added",
            false => "replaced",
        });
        let last = given.live_at(given.pending() - 1).expect("it was added");
        let echo = usize::from(last.echo);
        let shared = shared(self.after);
        each_met(
            &[
                ("shares an echo", shared != 0),
                ("begins to share an echo", shared & !self.before.shared != 0),
                ("search passes 127", echo < self.before.next_echo),
                (
                    "echo held until now",
                    now > 0 && self.before.until_ms[echo] == now,
                ),
                (
                    "last of 128",
                    given.pending() == 128 && self.before.pending == 127,
                ),
                ("at the first block", block > 0 && block == first_block),
                ("deadline after now by 1", deadline - now == 1),
                (
                    "deadline plus guard of 2^64 - 1",
                    deadline + given.guard_ms() == u64::MAX,
                ),
                ("of 27 frames", last.frames == 27),
                ("guard over 2^63", given.guard_ms() > 1 << 63),
                ("512 left", self.left() == 512),
            ],
            add,
        );
    }
    fn submitted(&self, number: u8, mut add: impl FnMut(&'static str)) {
        let ((_, now), generation) = (self.clock(), self.word(0));
        let mut live = self.before.live.iter();
        if number == ANSWERED {
            if live.any(|tx| tx.generation == generation && tx.deadline_ms <= now) {
                add("overdue");
            }
            if self.left() < 512 {
                add("511 left");
            }
        }
        match (number, self.token) {
            (24, Some(Forged::Frame)) => add("24 foreign frame"),
            (24, Some(Forged::Generation)) => add("24 foreign generation"),
            (24, Some(Forged::Submission)) => add("24 foreign submission"),
            (24, Some(Forged::Older)) => add("24 older"),
            (24, Some(Forged::Other)) => add("24 other"),
            _ => {}
        }
    }
    fn transmitted(&self, found: u8, completed: u8, mut add: impl FnMut(&'static str)) {
        add(["not found", "found"][usize::from(found)]);
        match (found, completed) {
            (1, 0) => add("not completed"),
            (_, 1) => add("completed"),
            _ => {}
        }
        if completed == 1 && self.added().any(|kind| kind == 1) {
            add("completed and expired");
        }
        match (found, self.token) {
            (0, Some(Forged::Frame)) => add("foreign frame"),
            (0, Some(Forged::Generation)) => add("foreign generation"),
            (0, Some(Forged::Submission)) => add("foreign submission"),
            (0, Some(Forged::Older)) => add("older"),
            (0, Some(Forged::Other)) => add("other"),
            _ => {}
        }
    }
    fn cancelled(&self, found: u8, mut add: impl FnMut(&'static str)) {
        add(["not found", "found"][usize::from(found)]);
        let number = self.word(0);
        let mut live = self.before.live.iter();
        if live.any(|tx| tx.owner == number && tx.generation != number) {
            add("after a restart");
        }
        let mut live = self.before.live.iter();
        if found == 0 && live.any(|tx| tx.generation == number) {
            add("generation only");
        }
    }
    fn prepared(&self, mut add: impl FnMut(&'static str)) {
        let given = self.after.given();
        match self.answer[..] {
            [ANSWERED, 0, ..] => add("nothing"),
            [ANSWERED, 1, ..] => {
                let token = self.selected().expect("it was prepared");
                match self.before.selected == Some(token) {
                    true => add("selected before"),
                    false => add("frame"),
                }
                let mut live = given.live();
                let live = live.find(|tx| tx.generation == token.generation);
                let live = live.expect("a selection is of a live transfer");
                if live.queue.count_ones() == 1 {
                    add("frame polled");
                }
                if token.frame == 26 {
                    add("frame of 27");
                }
                if self.taken() == 65 {
                    add("of 65 tokens");
                }
                if self.left() == 512 {
                    add("512 left");
                }
            }
            [18] if self.left() == 511 => add("511 left"),
            _ => {}
        }
    }
    fn interrupted(&self, mut add: impl FnMut(&'static str)) {
        let echo = self.operands[0];
        let (_, now) = self.clock();
        match *self.answer {
            [ANSWERED, 0] => add("not found"),
            [ANSWERED, 1] => {
                add("found");
                if self.restarts() > 0 {
                    add("restarts");
                }
                if self.before.shared >> (echo % 128) & 1 != 0 {
                    add("of a shared echo");
                    let first = self.live_of_echo(echo).expect("it was found");
                    add(match first.deadline_ms <= now {
                        true => "first is overdue",
                        false => "first is not overdue",
                    });
                }
                if self.added().any(|kind| kind == 3) {
                    add("without an echo");
                }
            }
            _ => {}
        }
    }
    fn prioritized(&self, mut add: impl FnMut(&'static str)) {
        let echo = self.operands[0];
        let [ANSWERED, held, ..] = *self.answer else {
            return;
        };
        add(["nothing", "frame"][usize::from(held)]);
        if let Some(before) = self.before.selected {
            match self.selected() {
                Some(after) if after == before => add("selection kept"),
                _ => add("selection dropped"),
            }
        }
        if self.live_of_echo(echo).is_some_and(|tx| tx.queue == 0) && held == 1 {
            add("last frame again");
        }
    }
    fn status(&self, mut add: impl FnMut(&'static str)) {
        let [echo, map, ..] = *self.operands else {
            return;
        };
        let [ANSWERED, found] = *self.answer else {
            return;
        };
        add(["not found", "found"][usize::from(found)]);
        if found == 1 && map >= 4 {
            add("upper bits set");
        }
        if found == 0 && echo > 127 {
            add("echo over 127");
        }
        if found == 0
            && self
                .live_of_echo(echo)
                .is_some_and(|tx| (tx.transmitted | tx.in_flight) & 1 == 0)
        {
            add("Begin not sent");
        }
        if found == 1 && self.added().any(|kind| kind == 0) {
            add("Complete");
        }
        let queue = |live: &Live| live.queue != 0;
        let queued = |generation| {
            let mut live = self.after.given().live();
            live.any(|tx| tx.generation == generation && queue(&tx))
        };
        let idle = self.live_of_echo(echo).filter(|live| !queue(live));
        if found == 1 && idle.is_some_and(|live| queued(live.generation)) {
            add("queued again");
        }
    }
    fn refreshed(&self, mut add: impl FnMut(&'static str)) {
        let given = self.after.given();
        let (block, _) = self.clock();
        let before = |generation| {
            let mut live = self.before.live.iter();
            live.find(move |tx| tx.generation == generation)
        };
        let age = |tx: &Live| tx.last_frame.map(|last| block - last);
        let filled = given.live().filter(|tx| tx.queue != 0);
        let idle = filled.filter_map(|tx| before(tx.generation).filter(|tx| tx.queue == 0));
        let idle: Vec<&Live> = idle.collect();
        if !idle.is_empty() {
            add("queued");
        }
        if idle.iter().any(|tx| age(tx) == Some(16)) {
            add("queued at 16 blocks");
        }
        if given
            .live()
            .any(|tx| tx.queue == 0 && tx.in_flight == 0 && age(&tx) == Some(15))
        {
            add("15 blocks");
        }
        if given.selected().is_some() {
            return add("with a selection");
        }
        let live: Vec<u64> = given.live().map(|tx| tx.generation).collect();
        let was = self.before.live.iter().map(|tx| tx.generation);
        let was: Vec<u64> = was.filter(|generation| live.contains(generation)).collect();
        if was.first() != live.first() && was.len() == live.len() {
            add("moved");
            let ready = given.live().filter(|tx| tx.queue != 0);
            let ages: Vec<Option<u64>> = ready.map(|tx| age(&tx)).collect();
            let oldest = ages.iter().max();
            if ages.iter().filter(|age| Some(*age) == oldest).count() > 1 {
                add("moved of equal ages");
            }
        }
    }
}
