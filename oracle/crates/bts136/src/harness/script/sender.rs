//! The protocol of SENDER.md, answered by the original code.
use super::{
    super::{
        sending::{
            self, Asked, LENT_OCTETS, LENT_WORDS, Lent, Live, Refused, Sending, Token, event_parts,
        },
        wire,
    },
    Answered, MESSAGE, MESSAGE_OCTETS, NO_CALL, Operands, ROOM, Refusal, TOKENS, Values, answer,
    call_if, row, run_on, set_eighth,
};
use crate::{
    link::rach::MobileIdentity,
    runtime::spach_arq::{Error, Event, PreparedFrame, Sender},
};

pub const SENDER: u8 = 0x27;
pub const LEND: u8 = 0x28;
pub const CAN_ENQUEUE: u8 = 0x29;
pub const ENQUEUE: u8 = 0x2a;
pub const SENDER_ADVANCE: u8 = 0x2b;
pub const PREPARE: u8 = 0x2c;
pub const HAS_ECHO: u8 = 0x2d;
pub const INTERRUPT: u8 = 0x2e;
pub const PRIORITIZED: u8 = 0x2f;
pub const SUBMITTED: u8 = 0x30;
pub const SUBMITTED_MESSAGE: u8 = 0x31;
pub const TRANSMITTED: u8 = 0x32;
pub const SENDER_STATUS: u8 = 0x33;
pub const CANCEL: u8 = 0x34;
pub const CANCEL_TRANSACTION: u8 = 0x35;
pub const CANCEL_ALL: u8 = 0x36;
pub const REFRESH: u8 = 0x37;
pub const IDENTITY_FOR_ECHO: u8 = 0x38;
pub const RADIO_ACTIVE: u8 = 0x39;
pub const READY: u8 = 0x3a;
pub const CONTAINS: u8 = 0x3b;
pub const POP_EVENT: u8 = 0x3c;
pub const PENDING: u8 = 0x3d;
pub const SENDER_STATE: u8 = 0x3e;
pub const SENDER_TRANSFER: u8 = 0x3f;
pub const SENDER_EVENT: u8 = 0x40;
pub const SENDER_ECHOES: u8 = 0x41;
pub const SENDER_SUMS: u8 = 0x42;

pub type Operation = super::Operation<Machine>;
pub type Step = super::Step<Machine>;
type Call<'a> = super::Call<'a, Machine>;

/// MESSAGE, then the others in the order of their op octets, the first of which is SENDER.
#[rustfmt::skip]
pub static OPERATIONS: [Operation; 29] = [
    row(MESSAGE,            "MESSAGE",             9,   1, &[NO_CALL],              message),
    row(SENDER,             "SENDER",             33,   1, &[19],                   new),
    row(LEND,               "LEND",                4,   1, &[NO_CALL],              lend),
    row(CAN_ENQUEUE,        "CAN_ENQUEUE",        16,   2, &[NO_CALL],              can_enqueue),
    row(ENQUEUE,            "ENQUEUE",            44,   9, &[1, 2, 3, 16, 18, 20, 21, 22, 23, NO_CALL], enqueue),
    row(SENDER_ADVANCE,     "SENDER_ADVANCE",     16,   1, &[16, 18, 22, NO_CALL],  advance),
    row(PREPARE,            "PREPARE",            16,  50, &[16, 18, 22, NO_CALL],  prepare),
    row(HAS_ECHO,           "HAS_ECHO",            1,   2, &[NO_CALL],              has_echo),
    row(INTERRUPT,          "INTERRUPT",          17,   2, &[16, 18, 22, NO_CALL],  interrupt),
    row(PRIORITIZED,        "PRIORITIZED",        17,  50, &[16, 18, 22, NO_CALL],  prioritized),
    row(SUBMITTED,          "SUBMITTED",          40,   1, &[16, 22, 24, NO_CALL],  submitted),
    row(SUBMITTED_MESSAGE,  "SUBMITTED_MESSAGE",  24,  10, &[NO_CALL],              submitted_message),
    row(TRANSMITTED,        "TRANSMITTED",        40,   3, &[16, 18, 22, NO_CALL],  transmitted),
    row(SENDER_STATUS,      "SENDER_STATUS",      21,   2, &[16, 18, 22, NO_CALL],  status),
    row(CANCEL,             "CANCEL",              9,   2, &[NO_CALL],              cancel),
    row(CANCEL_TRANSACTION, "CANCEL_TRANSACTION",  8,   2, &[NO_CALL],              cancel_transaction),
    row(CANCEL_ALL,         "CANCEL_ALL",          0,   1, &[NO_CALL],              cancel_all),
    row(REFRESH,            "REFRESH",            16,   1, &[16, 18, 22, NO_CALL],  refresh),
    row(IDENTITY_FOR_ECHO,  "IDENTITY_FOR_ECHO",   1,  11, &[NO_CALL],              identity_for_echo),
    row(RADIO_ACTIVE,       "RADIO_ACTIVE",        0,   2, &[NO_CALL],              radio_active),
    row(READY,              "READY",               0,   2, &[NO_CALL],              ready),
    row(CONTAINS,           "CONTAINS",            9,   2, &[NO_CALL],              contains),
    row(POP_EVENT,          "POP_EVENT",           0,  12, &[NO_CALL],              pop_event),
    row(PENDING,            "PENDING",             0,   2, &[NO_CALL],              pending),
    row(SENDER_STATE,       "SENDER_STATE",        0,  95, &[NO_CALL],              state),
    row(SENDER_TRANSFER,    "SENDER_TRANSFER",     1,  91, &[NO_CALL],              transfer),
    row(SENDER_EVENT,       "SENDER_EVENT",        2,  12, &[NO_CALL],              event),
    row(SENDER_ECHOES,      "SENDER_ECHOES",       1, 129, &[NO_CALL],              echoes),
    row(SENDER_SUMS,        "SENDER_SUMS",         0,  17, &[NO_CALL],              sums),
];
pub fn operation(op: u8) -> Option<&'static Operation> {
    match op {
        MESSAGE => OPERATIONS.first(),
        _ => OPERATIONS.get(1 + usize::from(op.checked_sub(SENDER)?)),
    }
}

/// Nothing is run and nothing answered if the memory to lend has other lengths than SENDER.md's.
pub fn run_sender(
    script: &[u8],
    answers: &mut [u8],
    octets: &mut [u8],
    words: &mut [u64],
) -> usize {
    run_sender_each(script, answers, octets, words, |_| ())
}
/// `run_sender`, telling each step after it was made.
pub fn run_sender_each(
    script: &[u8],
    answers: &mut [u8],
    octets: &mut [u8],
    words: &mut [u64],
    each: impl FnMut(Step),
) -> usize {
    if octets.len() != LENT_OCTETS || words.len() != LENT_WORDS {
        return 0;
    }
    let mut machine = Machine::new(octets, words);
    let written = run_on(&mut machine, operation, script, answers, each);
    let (left_octets, left_words) = machine.memory();
    octets.copy_from_slice(left_octets);
    words.copy_from_slice(left_words);
    written
}

/// What a sender's script runs on.
pub struct Machine {
    message: [u8; MESSAGE_OCTETS],
    sender: Option<Sending>,
    lent: Lent,
}
/// A memory of zeros.
impl Default for Machine {
    fn default() -> Self {
        Self::new(&[0; LENT_OCTETS], &[0; LENT_WORDS])
    }
}
impl Machine {
    fn new(octets: &[u8], words: &[u64]) -> Self {
        Self {
            message: [0; MESSAGE_OCTETS],
            sender: None,
            lent: Lent::new(octets, words),
        }
    }
    /// Writes the answer to one whole operation and gives its length.
    pub fn step(&mut self, op: u8, operands: &[u8], room: &mut [u8]) -> usize {
        let operation = operation(op).expect("an op octet of the table");
        answer(operation, self, operands, room)
    }
    pub fn sending(&self) -> Option<&Sending> {
        self.sender.as_ref()
    }
    /// The whole memory, whatever is lent of it.
    pub fn memory(&self) -> (&[u8], &[u64]) {
        self.lent.memory()
    }
    /// The sender, the lent memory and the message.
    fn sender(&mut self) -> Result<(&mut Sending, &mut Lent, &[u8]), Refusal> {
        let sender = self.sender.as_mut().ok_or(Refusal(NO_CALL))?;
        Ok((sender, &mut self.lent, &self.message))
    }
}
impl From<Refused> for Refusal {
    fn from(refused: Refused) -> Self {
        match refused {
            Refused::Room => ROOM,
            Refused::Tokens => TOKENS,
            Refused::Given(error) => Self(sending::number(error)),
        }
    }
}

const IDENTITY_OCTETS: usize = 9;
const PREPARED_OCTETS: usize = 48;
const TRANSFER_OCTETS: usize = 89;
const EVENT_OCTETS: usize = 10;
/// The parts of the echoes, and how many each has.
const ECHO_PARTS: usize = 8;
const PART_ECHOES: usize = 16;

impl Operands<'_> {
    fn clock(&mut self) -> Clock {
        Clock {
            block: self.value(),
            now_ms: self.value(),
        }
    }
    fn token(&mut self) -> Token {
        Token {
            generation: self.value(),
            submission: self.value(),
            frame: self.value(),
        }
    }
}
#[derive(Clone, Copy)]
struct Clock {
    block: u64,
    now_ms: u64,
}
impl Values<'_> {
    fn flag(&mut self, flag: bool) {
        self.octet(u8::from(flag));
    }
    /// Held, and what there is; zeros if there is nothing.
    fn held<T>(&mut self, octets: usize, value: Option<T>, write: impl FnOnce(&mut Self, T)) {
        let end = self.length + 1 + octets;
        self.flag(value.is_some());
        match value {
            Some(value) => write(self, value),
            None => self.room(octets).fill(0),
        }
        assert_eq!(self.length, end, "SENDER.md's length");
    }
    fn prepared(&mut self, prepared: Option<&PreparedFrame>) {
        self.held(PREPARED_OCTETS, prepared, |values, prepared| {
            values.identity(prepared.identity);
            values.octets(&wire::pack_frame(&prepared.information));
            let token = Token::from(&prepared.token);
            for number in [token.generation, token.submission, token.frame] {
                values.value(number);
            }
            values.octet(prepared.partial_echo());
        });
    }
    fn event(&mut self, event: Option<&Event<u64>>) {
        self.held(EVENT_OCTETS, event, |values, event| {
            let (kind, completion, error) = event_parts(event);
            values.octet(kind);
            values.value(completion);
            values.octet(error);
        });
    }
    fn transfer(&mut self, live: Option<Live>) {
        self.held(TRANSFER_OCTETS, live, |values, live| {
            values.identity(live.identity);
            values.octet(live.echo);
            values.value(live.owner);
            values.value(live.generation);
            values.octet(live.channel as u8);
            values.octet(live.octets);
            values.small(live.frames);
            for set in [live.queue, live.in_flight, live.transmitted, live.observed] {
                values.octets(&set.to_be_bytes());
            }
            values.flag(live.received_status);
            for since in [live.last_progress, live.last_frame, live.waiting_since] {
                values.held(8, since, Values::value);
            }
            values.value(live.deadline_ms);
            values.value(live.completion);
        });
    }
}

fn message(call: &mut Call<'_>) -> Answered {
    set_eighth(&mut call.machine.message, &mut call.operands)
}

fn new(call: &mut Call<'_>) -> Answered {
    let [capacity, guard_ms, first_block, first] = [(); 4].map(|()| call.operands.value());
    call.machine.lent.fill(call.operands.octet());
    call.machine.sender = None;
    let made = Sending::new(capacity as usize, guard_ms, first_block, first);
    call.machine.sender = Some(made?);
    Ok(())
}

fn lend(call: &mut Call<'_>) -> Answered {
    let (octets, words) = (call.operands.count(), call.operands.count());
    call_if(octets <= LENT_OCTETS && words <= LENT_WORDS)?;
    call.machine.lent.lend(octets, words);
    Ok(())
}

/// A query.
fn told<A>(call: &mut Call<'_>, query: impl FnOnce(&Sender<u64>) -> A) -> Result<A, Refusal> {
    let (sender, _, _) = call.machine.sender()?;
    Ok(query(sender.given()))
}
fn told_flag(call: &mut Call<'_>, query: impl FnOnce(&Sender<u64>) -> bool) -> Answered {
    let flag = told(call, query)?;
    call.values.flag(flag);
    Ok(())
}
/// A call with a clock that may take tokens.
fn clocked<A>(
    call: &mut Call<'_>,
    given: impl FnOnce(&mut Sending, &Lent, Clock) -> Result<A, Refused>,
) -> Result<A, Refusal> {
    let clock = call.operands.clock();
    let (sender, lent, _) = call.machine.sender()?;
    Ok(given(sender, lent, clock)?)
}
type Prepared = Result<Option<PreparedFrame>, Error>;
fn prepared(
    call: &mut Call<'_>,
    given: impl FnOnce(&mut Sender<u64>, Clock) -> Prepared,
) -> Answered {
    let prepared = clocked(call, |sender, lent, clock| {
        sender.call(lent, |sender| given(sender, clock))
    })?;
    call.values.prepared(prepared.as_ref());
    Ok(())
}

fn can_enqueue(call: &mut Call<'_>) -> Answered {
    let Clock { block, now_ms } = call.operands.clock();
    told_flag(call, |sender| sender.can_enqueue(block, now_ms))
}

fn enqueue(call: &mut Call<'_>) -> Answered {
    let identity = call.operands.identity()?;
    let channel = wire::channel(call.operands.octet()).ok_or(Refusal(NO_CALL))?;
    let (completion, deadline_ms) = (call.operands.value(), call.operands.value());
    let length = call.operands.count();
    let Clock { block, now_ms } = call.operands.clock();
    let (sender, lent, message) = call.machine.sender()?;
    let message = message.get(..length).ok_or(Refusal(NO_CALL))?;
    let asked = Asked {
        identity,
        channel,
        completion,
        deadline_ms,
    };
    let token = sender.enqueue(lent, &asked, message, block, now_ms)?;
    call.values.value(token);
    Ok(())
}

fn advance(call: &mut Call<'_>) -> Answered {
    clocked(call, |sender, lent, Clock { block, now_ms }| {
        sender.call(lent, |sender| sender.advance(block, now_ms))
    })
}

fn prepare(call: &mut Call<'_>) -> Answered {
    prepared(call, |sender, Clock { block, now_ms }| {
        sender.prepare(block, now_ms)
    })
}

fn has_echo(call: &mut Call<'_>) -> Answered {
    let echo = call.operands.octet();
    told_flag(call, |sender| sender.has_echo(echo))
}

fn interrupt(call: &mut Call<'_>) -> Answered {
    let echo = call.operands.octet();
    let found = clocked(call, |sender, lent, Clock { block, now_ms }| {
        sender.call(lent, |sender| sender.interrupt(echo, block, now_ms))
    })?;
    call.values.flag(found);
    Ok(())
}

fn prioritized(call: &mut Call<'_>) -> Answered {
    let echo = call.operands.octet();
    prepared(call, |sender, Clock { block, now_ms }| {
        sender.prepare_prioritized(echo, block, now_ms)
    })
}

fn submitted(call: &mut Call<'_>) -> Answered {
    let token = call.operands.token();
    let Clock { block, now_ms } = call.operands.clock();
    let (sender, lent, _) = call.machine.sender()?;
    Ok(sender.submitted(lent, token, block, now_ms)?)
}

fn submitted_message(call: &mut Call<'_>) -> Answered {
    let token = call.operands.token();
    let completion = told(call, |sender| {
        let token = sender.frame_token(token);
        sender.submitted_message(&token).copied()
    })?;
    call.values.held(8, completion, Values::value);
    Ok(())
}

fn transmitted(call: &mut Call<'_>) -> Answered {
    let token = call.operands.token();
    let (found, completed) = clocked(call, |sender, lent, Clock { block, now_ms }| {
        sender.transmitted(lent, token, block, now_ms)
    })?;
    call.values.flag(found);
    call.values.flag(completed);
    Ok(())
}

fn status(call: &mut Call<'_>) -> Answered {
    let echo = call.operands.octet();
    let map = u32::from_be_bytes(call.operands.octets());
    let status = wire::status(echo, map);
    let found = clocked(call, |sender, lent, Clock { block, now_ms }| {
        sender.call(lent, |sender| sender.status(&status, block, now_ms))
    })?;
    call.values.flag(found);
    Ok(())
}

fn cancelled(call: &mut Call<'_>, cancel: impl FnOnce(&mut Sender<u64>) -> bool) -> Answered {
    let (sender, _, _) = call.machine.sender()?;
    let found = sender.quiet(cancel);
    call.values.flag(found);
    Ok(())
}

fn cancel(call: &mut Call<'_>) -> Answered {
    let identity = call.operands.identity()?;
    cancelled(call, |sender| sender.cancel(identity))
}

fn cancel_transaction(call: &mut Call<'_>) -> Answered {
    let number = call.operands.value();
    cancelled(call, |sender| {
        let token = sender.transfer_token(number);
        sender.cancel_transaction(&token)
    })
}

fn cancel_all(call: &mut Call<'_>) -> Answered {
    let (sender, _, _) = call.machine.sender()?;
    sender.quiet(Sender::cancel_all);
    Ok(())
}

fn refresh(call: &mut Call<'_>) -> Answered {
    clocked(call, |sender, lent, Clock { block, now_ms }| {
        sender.call(lent, |sender| sender.refresh_waiting(block, now_ms))
    })
}

fn identity_for_echo(call: &mut Call<'_>) -> Answered {
    let echo = call.operands.octet();
    let identity = told(call, |sender| sender.identity_for_echo(echo))?;
    let write = |values: &mut Values<'_>, identity: MobileIdentity| values.identity(identity);
    call.values.held(IDENTITY_OCTETS, identity, write);
    Ok(())
}

fn radio_active(call: &mut Call<'_>) -> Answered {
    told_flag(call, Sender::radio_active)
}

fn ready(call: &mut Call<'_>) -> Answered {
    told_flag(call, Sender::ready)
}

fn contains(call: &mut Call<'_>) -> Answered {
    let identity = call.operands.identity()?;
    told_flag(call, |sender| sender.contains(identity))
}

fn pop_event(call: &mut Call<'_>) -> Answered {
    let (sender, _, _) = call.machine.sender()?;
    let event = sender.quiet(Sender::pop_event);
    call.values.event(event.as_ref());
    Ok(())
}

fn pending(call: &mut Call<'_>) -> Answered {
    let pending = told(call, Sender::pending)?;
    call.values.small(pending);
    Ok(())
}

fn state(call: &mut Call<'_>) -> Answered {
    let (sender, _, _) = call.machine.sender()?;
    let given = sender.given();
    let (last_block, last_ms) = given.clocks();
    let values = &mut call.values;
    values.small(given.capacity());
    values.value(given.guard_ms());
    values.value(given.first_block());
    values.small(given.pending());
    values.octets(&(given.events().len() as u16).to_be_bytes());
    values.small(given.next_echo());
    for word in [last_block, last_ms, sender.next()] {
        values.value(word);
    }
    values.prepared(given.selected());
    Ok(())
}

fn transfer(call: &mut Call<'_>) -> Answered {
    let place = usize::from(call.operands.octet());
    let live = told(call, |sender| sender.live_at(place))?;
    call.values.transfer(live);
    Ok(())
}

fn event(call: &mut Call<'_>) -> Answered {
    let place = call.operands.count();
    let (sender, _, _) = call.machine.sender()?;
    call.values.event(sender.given().events().get(place));
    Ok(())
}

fn echoes(call: &mut Call<'_>) -> Answered {
    let part = usize::from(call.operands.octet());
    let (sender, _, _) = call.machine.sender()?;
    call_if(part < ECHO_PARTS)?;
    let until = sender.given().echo_until_ms();
    for until in &until[PART_ECHOES * part..PART_ECHOES * (part + 1)] {
        call.values.value(*until);
    }
    Ok(())
}

fn sums(call: &mut Call<'_>) -> Answered {
    let (sender, lent, _) = call.machine.sender()?;
    let (state, memory) = (sender.sum(lent), lent.sum());
    call.values.value(state);
    call.values.value(memory);
    Ok(())
}
