//! The protocol of the README, answered by the original code.
use super::{
    numbered::Numbered,
    opened::{
        inactivity::{
            ArqInactivity, InactivityAction, InactivityError, StatusResult, TransactionToken,
        },
        procedure::{ArqProcedure, ProcedureError, ReceiveEvent, TimerEvent},
    },
    wire::{self, FRAME_OCTETS, TRANSMISSION_OCTETS},
};
use crate::{
    link::{
        rach::MobileIdentity,
        spach::{
            Channel, HeaderFlags, SingleMessage, SpachError, SpachReceiver as Given,
            arq::{self, ArqFrame, ArqHeader, ArqReassembler, Reception, ResponseMode},
        },
    },
    phy::control::INFORMATION_BITS,
};
use std::ops::Range;

pub mod sender;

pub const ANSWERED: u8 = 0;
pub const NO_CALL: u8 = 255;

pub const END: u8 = 0xe0;
pub const END_CUT: u8 = 0xe1;
pub const END_UNKNOWN: u8 = 0xe2;
pub const END_NO_ROOM: u8 = 0xe3;

pub const STORE_OCTETS: usize = 64;
pub const STORE_BITS: usize = 8 * STORE_OCTETS;
/// A `Reader::take` or `put` of the original is never wider than an IMSI.
pub const FIELD_BITS: usize = 50;
/// The last bit offsets at which a header A and the longest address fit a frame.
pub const LAST_HEADER_A: usize = 105;
pub const LAST_ADDRESS: usize = 57;
/// The longest input of DECODE.
pub const DECODE_OCTETS: usize = 32;
pub const MESSAGE_OCTETS: usize = 304;
/// The least room that a push takes.
pub const LEAST_ROOM: usize = 255;
/// Document 01's own: a bit of padding is set.
const PADDING: Refusal = Refusal(15);
/// Document 01's own: the lent buffer is too short for any message.
const ROOM: Refusal = Refusal(16);
/// The original's `ClockBackwards`.
const CLOCK: Refusal = Refusal(17);
/// Document 01's own: too few tokens are left for a call that may take some.
const TOKENS: Refusal = Refusal(18);

pub const PARTS: u8 = 0x01;
pub const CHECK: u8 = 0x02;
pub const EQUAL: u8 = 0x03;
pub const ACCEPT: u8 = 0x04;
pub const HEADER_A: u8 = 0x05;
pub const ADDRESS: u8 = 0x06;
pub const TAKE: u8 = 0x07;
pub const PUT: u8 = 0x08;
pub const FILL: u8 = 0x09;
pub const DUMP: u8 = 0x0a;
pub const COPY: u8 = 0x0b;
pub const ENCODE: u8 = 0x0c;
pub const DECODE: u8 = 0x0d;
pub const MESSAGE: u8 = 0x0e;
pub const COUNT: u8 = 0x0f;
pub const FRAME: u8 = 0x10;
pub const NEW: u8 = 0x11;
pub const PUSH: u8 = 0x12;
pub const RESET: u8 = 0x13;
pub const STATUS: u8 = 0x14;
pub const COMPLETE: u8 = 0x15;
pub const TIMER: u8 = 0x16;
pub const TIMER_TOKEN: u8 = 0x17;
pub const TIMER_OWNS: u8 = 0x18;
pub const TIMER_RESET: u8 = 0x19;
pub const TIMER_OBSERVE: u8 = 0x1a;
pub const TIMER_RECEIVED: u8 = 0x1b;
pub const TIMER_ADVANCE: u8 = 0x1c;
pub const TIMER_UNSOLICITED: u8 = 0x1d;
pub const TIMER_SOLICITED: u8 = 0x1e;
pub const TIMER_STATE: u8 = 0x1f;
pub const PROCEDURE: u8 = 0x20;
pub const PROCEDURE_RESET: u8 = 0x21;
pub const PROCEDURE_ACTIVE: u8 = 0x22;
pub const RECEIVE: u8 = 0x23;
pub const ADVANCE: u8 = 0x24;
pub const SENT: u8 = 0x25;
pub const PROCEDURE_STATE: u8 = 0x26;

/// A row of the README's table of operations, of those that run on this machine.
pub struct Operation<M = Machine> {
    pub op: u8,
    pub name: &'static str,
    /// How many octets the operands have.
    pub operands: usize,
    /// How many octets the longest answer has, the number octet among them.
    pub longest: usize,
    /// The number octets other than 0 that it can answer.
    pub refusals: &'static [u8],
    run: fn(&mut Call<'_, M>) -> Answered,
}

/// In the order of their op octets, the first of which is 1.
#[rustfmt::skip]
pub static OPERATIONS: [Operation; 38] = [
    row(PARTS,    "PARTS",     9, 11, &[NO_CALL],          parts),
    row(CHECK,    "CHECK",     9,  1, &[2, NO_CALL],       check),
    row(EQUAL,    "EQUAL",    18,  2, &[NO_CALL],          equal),
    row(ACCEPT,   "ACCEPT",    9, 10, &[2],                accept),
    row(HEADER_A, "HEADER_A", 15,  4, &[3, 6, NO_CALL],    header_a),
    row(ADDRESS,  "ADDRESS",  15, 12, &[2, 4, 5, NO_CALL], address),
    row(TAKE,     "TAKE",      3, 11, &[1, NO_CALL],       take),
    row(PUT,      "PUT",      11,  1, &[1, NO_CALL],       put),
    row(FILL,     "FILL",      9,  1, &[NO_CALL],          fill),
    row(DUMP,     "DUMP",      0, 65, &[],                 dump),
    row(COPY,     "COPY",      6,  1, &[1],                copy),
    row(ENCODE,   "ENCODE",   36, 15, &[2, 3, 7, 11, 12, 13, NO_CALL], encode),
    row(DECODE,   "DECODE",   33, 37, &[1, 2, 3, 4, 5, 6, 7, 12, 15, NO_CALL], decode),
    row(MESSAGE,  "MESSAGE",   9,  1, &[NO_CALL],          message),
    row(COUNT,    "COUNT",    16,  2, &[1, 2, 3, 11, NO_CALL], count),
    row(FRAME,    "FRAME",    18, 37, &[1, 2, 3, 11, 12, NO_CALL], frame),
    row(NEW,      "NEW",       9,  1, &[2, NO_CALL],       new),
    row(PUSH,     "PUSH",     36, 327, &[1, 2, 3, 4, 5, 6, 7, 12, 14, 15, 16, NO_CALL], push),
    row(RESET,    "RESET",     0,  1, &[NO_CALL],          reset),
    row(STATUS,   "STATUS",    0,  7, &[NO_CALL],          status),
    row(COMPLETE, "COMPLETE",  0,  2, &[NO_CALL],          complete),
    row(TIMER,             "TIMER",              8,  1, &[],                timer),
    row(TIMER_TOKEN,       "TIMER_TOKEN",        0,  9, &[NO_CALL],         timer_token),
    row(TIMER_OWNS,        "TIMER_OWNS",         8,  2, &[NO_CALL],         timer_owns),
    row(TIMER_RESET,       "TIMER_RESET",        0,  1, &[18, NO_CALL],     timer_reset),
    row(TIMER_OBSERVE,     "TIMER_OBSERVE",      8,  1, &[17, NO_CALL],     timer_observe),
    row(TIMER_RECEIVED,    "TIMER_RECEIVED",     8,  1, &[17, NO_CALL],     timer_received),
    row(TIMER_ADVANCE,     "TIMER_ADVANCE",      8,  2, &[17, 18, NO_CALL], timer_advance),
    row(TIMER_UNSOLICITED, "TIMER_UNSOLICITED", 17,  2, &[17, 18, NO_CALL], timer_unsolicited),
    row(TIMER_SOLICITED,   "TIMER_SOLICITED",   17,  2, &[17, 18, NO_CALL], timer_solicited),
    row(TIMER_STATE,       "TIMER_STATE",        0, 35, &[NO_CALL],         timer_state),
    row(PROCEDURE,         "PROCEDURE",         17,  1, &[2, NO_CALL],      procedure),
    row(PROCEDURE_RESET,   "PROCEDURE_RESET",    0,  1, &[18, NO_CALL],     procedure_reset),
    row(PROCEDURE_ACTIVE,  "PROCEDURE_ACTIVE",   0,  2, &[NO_CALL],         procedure_active),
    row(RECEIVE,           "RECEIVE",           44, 336, &[1, 2, 3, 4, 5, 6, 7, 12, 14, 15, 16, 17, 18, NO_CALL], receive),
    row(ADVANCE,           "ADVANCE",            8, 19, &[17, 18, NO_CALL], advance),
    row(SENT,              "SENT",              25,  2, &[17, 18, NO_CALL], sent),
    row(PROCEDURE_STATE,   "PROCEDURE_STATE",    0, 42, &[NO_CALL],         procedure_state),
];
const fn row<M>(
    op: u8,
    name: &'static str,
    operands: usize,
    longest: usize,
    refusals: &'static [u8],
    run: fn(&mut Call<'_, M>) -> Answered,
) -> Operation<M> {
    Operation {
        op,
        name,
        operands,
        longest,
        refusals,
        run,
    }
}
pub fn operation(op: u8) -> Option<&'static Operation> {
    OPERATIONS.get(usize::from(op).checked_sub(1)?)
}

/// An operation that was run: where its operands stand in the script, and its answer in the answers.
pub struct Step<M: 'static = Machine> {
    pub operation: &'static Operation<M>,
    pub operands: Range<usize>,
    pub answer: Range<usize>,
}

pub fn run(script: &[u8], answers: &mut [u8]) -> usize {
    run_each(script, answers, |_| ())
}
/// `run`, telling each step after it was made.
pub fn run_each(script: &[u8], answers: &mut [u8], each: impl FnMut(Step)) -> usize {
    run_on(&mut Machine::default(), operation, script, answers, each)
}
/// Runs a script of the operations that are found by their op octets.
fn run_on<M>(
    machine: &mut M,
    operation: fn(u8) -> Option<&'static Operation<M>>,
    script: &[u8],
    answers: &mut [u8],
    mut each: impl FnMut(Step<M>),
) -> usize {
    if answers.is_empty() {
        return 0;
    }
    let (mut at, mut written) = (0, 0);
    let end = loop {
        let operation = match next(operation, &script[at..], answers.len() - written) {
            Ok(operation) => operation,
            Err(end) => break end,
        };
        let operands = at + 1..at + 1 + operation.operands;
        let room = &mut answers[written..written + operation.longest];
        let length = answer(operation, machine, &script[operands.clone()], room);
        at = operands.end;
        each(Step {
            operation,
            operands,
            answer: written..written + length,
        });
        written += length;
    };
    answers[written] = end;
    written + 1
}
/// The operation that the rest of the script begins with, or the end octet instead of it.
fn next<M>(
    operation: fn(u8) -> Option<&'static Operation<M>>,
    rest: &[u8],
    room: usize,
) -> Result<&'static Operation<M>, u8> {
    let (op, rest) = rest.split_first().ok_or(END)?;
    let operation = operation(*op).ok_or(END_UNKNOWN)?;
    if rest.len() < operation.operands {
        return Err(END_CUT);
    }
    if room < operation.longest + 1 {
        return Err(END_NO_ROOM);
    }
    Ok(operation)
}
/// Writes the answer of one operation into its room and gives its length.
fn answer<M>(operation: &Operation<M>, machine: &mut M, operands: &[u8], room: &mut [u8]) -> usize {
    let (number, octets) = room
        .split_first_mut()
        .expect("a longest answer is 1 at least");
    let mut call = Call {
        machine,
        operands: Operands(operands),
        values: Values { octets, length: 0 },
    };
    match (operation.run)(&mut call) {
        Ok(()) => *number = ANSWERED,
        Err(Refusal(refusal)) => {
            assert!(operation.refusals.contains(&refusal));
            assert_eq!(call.values.length, 0, "a refusal has no values");
            *number = refusal;
        }
    }
    1 + call.values.length
}

/// What a script runs on.
pub struct Machine {
    store: [bool; STORE_BITS],
    message: [u8; MESSAGE_OCTETS],
    receiver: Option<ArqReassembler>,
    timer: Option<Numbered<ArqInactivity>>,
    procedure: Option<Numbered<ArqProcedure>>,
}
impl Default for Machine {
    fn default() -> Self {
        Self {
            store: [false; STORE_BITS],
            message: [0; MESSAGE_OCTETS],
            receiver: None,
            timer: None,
            procedure: None,
        }
    }
}
impl Machine {
    /// Writes the answer to one whole operation and gives its length.
    pub fn step(&mut self, op: u8, operands: &[u8], room: &mut [u8]) -> usize {
        let operation = operation(op).expect("an op octet of the table");
        answer(operation, self, operands, room)
    }
    fn receiver(&mut self) -> Result<&mut ArqReassembler, Refusal> {
        self.receiver.as_mut().ok_or(Refusal(NO_CALL))
    }
    fn timer(&mut self) -> Result<&mut Numbered<ArqInactivity>, Refusal> {
        self.timer.as_mut().ok_or(Refusal(NO_CALL))
    }
    fn procedure(&mut self) -> Result<&mut Numbered<ArqProcedure>, Refusal> {
        self.procedure.as_mut().ok_or(Refusal(NO_CALL))
    }
}

/// An operation that is being run.
struct Call<'a, M = Machine> {
    machine: &'a mut M,
    operands: Operands<'a>,
    values: Values<'a>,
}
type Answered = Result<(), Refusal>;
/// The number octet of an operation that gave nothing.
struct Refusal(u8);
impl From<SpachError> for Refusal {
    fn from(error: SpachError) -> Self {
        Self(wire::number(error))
    }
}
impl From<InactivityError> for Refusal {
    fn from(InactivityError::ClockBackwards: InactivityError) -> Self {
        CLOCK
    }
}
impl From<ProcedureError> for Refusal {
    fn from(error: ProcedureError) -> Self {
        match error {
            ProcedureError::Wire(error) => error.into(),
            ProcedureError::Clock(error) => error.into(),
        }
    }
}
/// Refuses operands that name no call.
fn call_if(named: bool) -> Answered {
    if named { Ok(()) } else { Err(Refusal(NO_CALL)) }
}

/// The operands that are not read yet.
struct Operands<'a>(&'a [u8]);
impl Operands<'_> {
    fn octets<const COUNT: usize>(&mut self) -> [u8; COUNT] {
        let (first, rest) = self.0.split_first_chunk().expect("the table's length");
        self.0 = rest;
        *first
    }
    fn octet(&mut self) -> u8 {
        u8::from_be_bytes(self.octets())
    }
    fn count(&mut self) -> usize {
        usize::from(u16::from_be_bytes(self.octets()))
    }
    fn value(&mut self) -> u64 {
        u64::from_be_bytes(self.octets())
    }
    fn identity(&mut self) -> Result<MobileIdentity, Refusal> {
        let (kind, value) = (self.octet(), self.value());
        wire::identity(kind, value).ok_or(Refusal(NO_CALL))
    }
    fn header(&mut self) -> Result<ArqHeader, Refusal> {
        wire::header(self.octets()).ok_or(Refusal(NO_CALL))
    }
    fn frame(&mut self) -> [bool; 8 * FRAME_OCTETS] {
        wire::unpack_frame(&self.octets::<FRAME_OCTETS>())
    }
    fn result(&mut self) -> Result<StatusResult, Refusal> {
        wire::status_result(self.octet()).ok_or(Refusal(NO_CALL))
    }
    fn heard(&mut self) -> Heard {
        Heard {
            length: usize::from(self.octet()),
            octets: self.octets(),
            room: self.count(),
            filling: self.octet(),
        }
    }
}

/// What was heard, and the buffer that is lent for its message.
struct Heard {
    length: usize,
    octets: [u8; DECODE_OCTETS],
    room: usize,
    filling: u8,
}
impl Heard {
    fn names_a_call(&self) -> Answered {
        call_if(self.length <= DECODE_OCTETS && self.room <= MESSAGE_OCTETS)
    }
    fn enough_room(&self) -> Answered {
        if self.room < LEAST_ROOM {
            return Err(ROOM);
        }
        Ok(())
    }
    fn information(&self) -> Result<Vec<bool>, Refusal> {
        information(&self.octets[..self.length])
    }
    /// The buffer afterwards.
    fn buffer(&self, message: Option<&SingleMessage>) -> [u8; MESSAGE_OCTETS] {
        let mut buffer = [0; MESSAGE_OCTETS];
        buffer[..self.room].fill(self.filling);
        if let Some(delivered) = message {
            buffer[..delivered.message.len()].copy_from_slice(&delivered.message);
        }
        buffer
    }
}

/// The values of an answer, after its number octet.
struct Values<'a> {
    octets: &'a mut [u8],
    length: usize,
}
impl Values<'_> {
    fn room(&mut self, count: usize) -> &mut [u8] {
        let start = self.length;
        self.length += count;
        &mut self.octets[start..self.length]
    }
    fn octets(&mut self, octets: &[u8]) {
        self.room(octets.len()).copy_from_slice(octets);
    }
    fn octet(&mut self, octet: u8) {
        self.octets(&[octet]);
    }
    /// An offset within a frame or a width, both of which fit an octet.
    fn small(&mut self, value: usize) {
        self.octet(u8::try_from(value).expect("an octet's value"));
    }
    fn value(&mut self, value: u64) {
        self.octets(&value.to_be_bytes());
    }
    fn identity(&mut self, identity: MobileIdentity) {
        let (kind, _, value) = identity.parts();
        self.octet(kind);
        self.value(value);
    }
}

fn parts(call: &mut Call<'_>) -> Answered {
    let (kind, width, value) = call.operands.identity()?.parts();
    call.values.octet(kind);
    call.values.small(width);
    call.values.value(value);
    Ok(())
}

fn check(call: &mut Call<'_>) -> Answered {
    Ok(encode_empty_begin(call.operands.identity()?)?)
}
/// The original's test of an identity is a part of `encode`; nothing else of this frame can be refused.
fn encode_empty_begin(identity: MobileIdentity) -> Result<(), SpachError> {
    let header = ArqHeader {
        channel: Channel::Arch,
        flags: HeaderFlags::default(),
        partial_echo: 0,
        polling: false,
        response_mode: ResponseMode::Contention,
    };
    let begin = ArqFrame::Begin {
        header,
        identity,
        message_octets: 0,
        data: Vec::new(),
    };
    begin.encode().map(|_| ())
}

fn equal(call: &mut Call<'_>) -> Answered {
    let (left, right) = (call.operands.identity()?, call.operands.identity()?);
    call.values.octet(u8::from(left == right));
    Ok(())
}

fn accept(call: &mut Call<'_>) -> Answered {
    let (kind, value) = (call.operands.octet(), call.operands.value());
    let identity = wire::identity(kind, value).ok_or(SpachError::Identity)?;
    encode_empty_begin(identity)?;
    call.values.identity(identity);
    Ok(())
}

fn header_a(call: &mut Call<'_>) -> Answered {
    let offset = usize::from(call.operands.octet());
    call_if(offset <= LAST_HEADER_A)?;
    let ((channel, flags), after) = Given::header_a(&call.operands.frame(), offset)?;
    call.values.octet(channel as u8);
    call.values.octet(wire::flags(flags));
    call.values.small(after);
    Ok(())
}

fn address(call: &mut Call<'_>) -> Answered {
    let offset = usize::from(call.operands.octet());
    call_if(offset <= LAST_ADDRESS)?;
    let ((identity, reservation_response), after) = Given::address(&call.operands.frame(), offset)?;
    call.values.identity(identity);
    call.values.octet(u8::from(reservation_response));
    call.values.small(after);
    Ok(())
}

fn take(call: &mut Call<'_>) -> Answered {
    let (offset, width) = (call.operands.count(), usize::from(call.operands.octet()));
    call_if((1..=FIELD_BITS).contains(&width))?;
    let (value, after) = Given::take(&call.machine.store, offset, width)?;
    call.values.value(value);
    call.values.octets(&(after as u16).to_be_bytes());
    Ok(())
}

fn put(call: &mut Call<'_>) -> Answered {
    let (offset, width) = (call.operands.count(), usize::from(call.operands.octet()));
    call_if((1..=FIELD_BITS).contains(&width))?;
    // `put` appends, so the length is ours to test.
    let after = call
        .machine
        .store
        .get(offset + width..)
        .ok_or(SpachError::Length)?;
    let mut bits = call.machine.store[..offset].to_vec();
    Given::put(&mut bits, call.operands.value(), width);
    bits.extend_from_slice(after);
    call.machine.store.copy_from_slice(&bits);
    Ok(())
}

fn fill(call: &mut Call<'_>) -> Answered {
    let eighth = usize::from(call.operands.octet());
    call_if(eighth < 8)?;
    let bits = &mut call.machine.store[64 * eighth..64 * (eighth + 1)];
    wire::unpack(&call.operands.octets::<8>(), bits);
    Ok(())
}

fn dump(call: &mut Call<'_>) -> Answered {
    wire::pack(&call.machine.store, call.values.room(STORE_OCTETS));
    Ok(())
}

fn copy(call: &mut Call<'_>) -> Answered {
    let (to, from, count) = (
        call.operands.count(),
        call.operands.count(),
        call.operands.count(),
    );
    let before = call.machine.store;
    let source = before.get(from..from + count).ok_or(SpachError::Length)?;
    let place = call
        .machine
        .store
        .get_mut(to..to + count)
        .ok_or(SpachError::Length)?;
    place.copy_from_slice(source);
    Ok(())
}

fn encode(call: &mut Call<'_>) -> Answered {
    let frame = wire::frame(&call.operands.octets()).ok_or(Refusal(NO_CALL))?;
    call.values.octets(&wire::pack_frame(&frame.encode()?));
    Ok(())
}

fn decode(call: &mut Call<'_>) -> Answered {
    let length = usize::from(call.operands.octet());
    call_if(length <= DECODE_OCTETS)?;
    let bits = information(&call.operands.octets::<DECODE_OCTETS>()[..length])?;
    call.values
        .octets(&wire::frame_octets(&arq::decode(&bits)?));
    Ok(())
}
/// The bits of what was heard. The original takes a frame without its padding; other lengths it refuses itself.
fn information(octets: &[u8]) -> Result<Vec<bool>, Refusal> {
    let mut bits = vec![false; 8 * octets.len()];
    wire::unpack(octets, &mut bits);
    if octets.len() == FRAME_OCTETS && bits.drain(INFORMATION_BITS..).any(|bit| bit) {
        return Err(PADDING);
    }
    Ok(bits)
}

fn message(call: &mut Call<'_>) -> Answered {
    set_eighth(&mut call.machine.message, &mut call.operands)
}
fn set_eighth(message: &mut [u8; MESSAGE_OCTETS], operands: &mut Operands<'_>) -> Answered {
    let start = 8 * usize::from(operands.octet());
    call_if(start < MESSAGE_OCTETS)?;
    message[start..start + 8].copy_from_slice(&operands.octets::<8>());
    Ok(())
}

/// The frames of a header, an identity and a length of the message.
fn cut(call: &mut Call<'_>) -> Result<Vec<ArqFrame>, Refusal> {
    let (header, identity) = (call.operands.header()?, call.operands.identity()?);
    let message = call.machine.message.get(..call.operands.count());
    let message = message.ok_or(Refusal(NO_CALL))?;
    Ok(arq::fragment_message(header, identity, message)?)
}

fn count(call: &mut Call<'_>) -> Answered {
    let count = cut(call)?.len();
    call.values.small(count);
    Ok(())
}

fn frame(call: &mut Call<'_>) -> Answered {
    let frames = cut(call)?;
    // Past the last: document 01's own use of this number.
    let frame = frames
        .get(call.operands.count())
        .ok_or(SpachError::FrameNumber)?;
    call.values.octets(&wire::frame_octets(frame));
    Ok(())
}

fn new(call: &mut Call<'_>) -> Answered {
    let made = ArqReassembler::try_new(call.operands.identity()?);
    call.machine.receiver = None;
    call.machine.receiver = Some(made?);
    Ok(())
}

fn push(call: &mut Call<'_>) -> Answered {
    let heard = call.operands.heard();
    let receiver = call.machine.receiver()?;
    heard.names_a_call()?;
    heard.enough_room()?;
    let reception = receiver.push(&heard.information()?)?;
    let message = match &reception {
        Reception::Ignored => None,
        Reception::Accepted { message, .. } => message.as_ref(),
    };
    call.values.octets(&wire::reception_octets(&reception));
    call.values.octets(&heard.buffer(message));
    Ok(())
}

fn reset(call: &mut Call<'_>) -> Answered {
    call.machine.receiver()?.reset();
    Ok(())
}

fn status(call: &mut Call<'_>) -> Answered {
    let status = call.machine.receiver()?.status();
    call.values.octets(&wire::status_octets(status.as_ref()));
    Ok(())
}

fn complete(call: &mut Call<'_>) -> Answered {
    let complete = call.machine.receiver()?.complete();
    call.values.octet(u8::from(complete));
    Ok(())
}

/// Document 01's own refusal of a call that may take tokens.
fn tokens_left<T: AsRef<ArqInactivity>>(numbered: &Numbered<T>) -> Answered {
    if numbered.short_of_tokens() {
        return Err(TOKENS);
    }
    Ok(())
}
/// The same where the original answers a foreign token before anything else.
fn tokens_left_if_own<T: AsRef<ArqInactivity>>(
    numbered: &Numbered<T>,
    token: &TransactionToken,
) -> Answered {
    if numbered.timer().owns(token) {
        tokens_left(numbered)?;
    }
    Ok(())
}

fn timer(call: &mut Call<'_>) -> Answered {
    let first = call.operands.value();
    let made = Numbered::new(first, || Ok::<_, Refusal>(ArqInactivity::default()));
    call.machine.timer = Some(made?);
    Ok(())
}

fn timer_token(call: &mut Call<'_>) -> Answered {
    let token = call.machine.timer()?.timer().token();
    call.values.value(token.number());
    Ok(())
}

fn timer_owns(call: &mut Call<'_>) -> Answered {
    let number = call.operands.value();
    let timer = call.machine.timer()?;
    let owns = timer.timer().owns(&timer.token(number));
    call.values.octet(u8::from(owns));
    Ok(())
}

fn timer_reset(call: &mut Call<'_>) -> Answered {
    let timer = call.machine.timer()?;
    tokens_left(timer)?;
    timer.call(ArqInactivity::reset);
    Ok(())
}

fn timer_observe(call: &mut Call<'_>) -> Answered {
    let block = call.operands.value();
    let timer = call.machine.timer()?;
    Ok(timer.call(|timer| timer.observe(block))?)
}

fn timer_received(call: &mut Call<'_>) -> Answered {
    let block = call.operands.value();
    let timer = call.machine.timer()?;
    Ok(timer.call(|timer| timer.received_frame(block))?)
}

fn timer_advance(call: &mut Call<'_>) -> Answered {
    let block = call.operands.value();
    let timer = call.machine.timer()?;
    tokens_left(timer)?;
    let action = timer.call(|timer| timer.advance(block))?;
    call.values.octet(action as u8);
    Ok(())
}

fn timer_unsolicited(call: &mut Call<'_>) -> Answered {
    timer_result(call, ArqInactivity::unsolicited_status_result)
}
fn timer_solicited(call: &mut Call<'_>) -> Answered {
    timer_result(call, ArqInactivity::solicited_status_result)
}
type ResultCall = fn(
    &mut ArqInactivity,
    &TransactionToken,
    u64,
    StatusResult,
) -> Result<InactivityAction, InactivityError>;
fn timer_result(call: &mut Call<'_>, given: ResultCall) -> Answered {
    let (number, block) = (call.operands.value(), call.operands.value());
    let timer = call.machine.timer()?;
    let result = call.operands.result()?;
    let token = timer.token(number);
    tokens_left_if_own(timer, &token)?;
    let action = timer.call(|timer| given(timer, &token, block, result))?;
    call.values.octet(action as u8);
    Ok(())
}

fn timer_state(call: &mut Call<'_>) -> Answered {
    let timer = call.machine.timer()?;
    let octets = wire::timer_octets(timer.timer(), timer.next());
    call.values.octets(&octets);
    Ok(())
}

fn procedure(call: &mut Call<'_>) -> Answered {
    let (identity, first) = (call.operands.identity()?, call.operands.value());
    call.machine.procedure = None;
    let made = Numbered::new(first, || ArqProcedure::try_new(identity));
    call.machine.procedure = Some(made?);
    Ok(())
}

fn procedure_reset(call: &mut Call<'_>) -> Answered {
    let procedure = call.machine.procedure()?;
    tokens_left(procedure)?;
    procedure.call(ArqProcedure::reset);
    Ok(())
}

fn procedure_active(call: &mut Call<'_>) -> Answered {
    let active = call.machine.procedure()?.given().active();
    call.values.octet(u8::from(active));
    Ok(())
}

fn receive(call: &mut Call<'_>) -> Answered {
    let (block, heard) = (call.operands.value(), call.operands.heard());
    let procedure = call.machine.procedure()?;
    heard.names_a_call()?;
    tokens_left(procedure)?;
    heard.enough_room()?;
    let bits = match heard.information() {
        Ok(bits) => bits,
        // The original's clock goes before its decode, of which document 01's padding is a part.
        Err(padding) => {
            procedure.call(|procedure| procedure.observe(block))?;
            return Err(padding);
        }
    };
    let event = procedure.call(|procedure| procedure.receive(block, &bits))?;
    let message = match &event {
        ReceiveEvent::Ignored => None,
        ReceiveEvent::Accepted { message, .. } => message.as_ref(),
    };
    call.values.octets(&wire::receive_octets(&event));
    call.values.octets(&heard.buffer(message));
    Ok(())
}

fn advance(call: &mut Call<'_>) -> Answered {
    let block = call.operands.value();
    let procedure = call.machine.procedure()?;
    tokens_left(procedure)?;
    let event = procedure.call(|procedure| procedure.advance(block))?;
    let (event, transmission) = match &event {
        TimerEvent::None => (0, None),
        TimerEvent::SendStatus(transmission) => (1, Some(transmission)),
        TimerEvent::Terminated => (2, None),
    };
    call.values.octet(event);
    call.values.octets(&wire::transmission_octets(transmission));
    Ok(())
}

fn sent(call: &mut Call<'_>) -> Answered {
    let block = call.operands.value();
    let octets = call.operands.octets::<TRANSMISSION_OCTETS>();
    let procedure = call.machine.procedure()?;
    let result = call.operands.result()?;
    let transmission = wire::transmission(&octets, |number| procedure.token(number));
    let transmission = transmission.ok_or(Refusal(NO_CALL))?;
    tokens_left_if_own(procedure, transmission.token())?;
    let event = procedure.call(|procedure| procedure.status_sent(block, transmission, result))?;
    call.values.octet(event as u8);
    Ok(())
}

fn procedure_state(call: &mut Call<'_>) -> Answered {
    let procedure = call.machine.procedure()?;
    let timer = wire::timer_octets(procedure.timer(), procedure.next());
    let receiver = procedure.given().receiver();
    let status = wire::status_octets(receiver.status().as_ref());
    let complete = receiver.complete();
    call.values.octets(&timer);
    call.values.octets(&status);
    call.values.octet(u8::from(complete));
    Ok(())
}
