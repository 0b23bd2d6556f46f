//! Document 01's numbered tokens and lent memory around the original's sender, which has `Arc`s and owns its messages.
use crate::{
    link::{rach::MobileIdentity, spach::Channel},
    runtime::spach_arq::{Error, Event, PreparedFrame, Request, Sender, reuse::ReusePolicy},
};
use std::{
    collections::BTreeMap,
    sync::{next_number, set_next_number},
};

pub use crate::runtime::spach_arq::reuse::{Live, Token};

/// What a sender needs of the lent memory, for its 128 messages.
pub const NEEDED_OCTETS: usize = MESSAGES * MESSAGE_ROOM;
pub const NEEDED_WORDS: usize = MESSAGES * FRAMES;
/// The memory of a script: 32 octets and 4 words more than that.
pub const LENT_OCTETS: usize = NEEDED_OCTETS + 32;
pub const LENT_WORDS: usize = NEEDED_WORDS + 4;
const MESSAGES: usize = 128;
const MESSAGE_ROOM: usize = 255;
const FRAMES: usize = 27;
/// Document 01 refuses a call that may take tokens while fewer than these are left.
const LEAST_LEFT: u64 = 512;
const LANES: usize = 4;

/// Document 01's numbers.
#[derive(Debug, Clone, Copy, PartialEq, Eq)]
pub enum Refused {
    Room,
    Tokens,
    Given(Error),
}
impl From<Error> for Refused {
    fn from(error: Error) -> Self {
        Self::Given(error)
    }
}

/// The lent memory, and how much of it is lent. The original has none: what is written here is document 01's.
pub struct Lent {
    octets: Vec<u8>,
    words: Vec<u64>,
    lent_octets: usize,
    lent_words: usize,
    /// The sum, if nothing was written since it was made.
    sum: Option<u64>,
}
impl Lent {
    /// All that a sender needs of this memory is lent.
    pub fn new(octets: &[u8], words: &[u64]) -> Self {
        Self {
            octets: octets.to_vec(),
            words: words.to_vec(),
            lent_octets: NEEDED_OCTETS,
            lent_words: NEEDED_WORDS,
            sum: None,
        }
    }
    /// The whole of it.
    pub fn memory(&self) -> (&[u8], &[u64]) {
        (&self.octets, &self.words)
    }
    pub fn fill(&mut self, filling: u8) {
        self.octets.fill(filling);
        self.words.fill(u64::from_be_bytes([filling; 8]));
        self.sum = None;
    }
    pub fn lend(&mut self, octets: usize, words: usize) {
        (self.lent_octets, self.lent_words) = (octets, words);
    }
    pub fn short(&self) -> bool {
        self.lent_octets < NEEDED_OCTETS || self.lent_words < NEEDED_WORDS
    }
    /// SENDER.md's sum of the whole memory, whatever is lent of it.
    pub fn sum(&mut self) -> u64 {
        *self.sum.get_or_insert_with(|| {
            let mut lanes: [u64; LANES] = std::array::from_fn(|lane| lane as u64);
            for octets in self.octets.chunks_exact(8 * LANES) {
                for (lane, octets) in lanes.iter_mut().zip(octets.chunks_exact(8)) {
                    let word = u64::from_be_bytes(octets.try_into().expect("8 octets"));
                    *lane = mixed(*lane, word);
                }
            }
            for words in self.words.chunks_exact(LANES) {
                for (lane, word) in lanes.iter_mut().zip(words) {
                    *lane = mixed(*lane, *word);
                }
            }
            lanes.into_iter().fold(0, mixed)
        })
    }
    fn put_message(&mut self, place: usize, message: &[u8]) {
        let start = MESSAGE_ROOM * place;
        self.octets[start..start + message.len()].copy_from_slice(message);
        self.sum = None;
    }
    fn put_word(&mut self, place: usize, token: Token) {
        self.words[word_of(place, token)] = token.submission;
        self.sum = None;
    }
}
fn word_of(place: usize, token: Token) -> usize {
    FRAMES * place + token.frame as usize
}
/// A sum with one word more.
pub fn mixed(sum: u64, word: u64) -> u64 {
    let sum = sum ^ word;
    let sum = sum ^ sum << 13;
    sum ^ sum >> 7
}

/// A sender, the next number of its own counter, and the place in the lent memory of each live transfer, by its owner: the
/// original has no such places.
pub struct Sending {
    given: Sender<u64>,
    next: u64,
    places: BTreeMap<u64, usize>,
}
impl Sending {
    pub fn new(
        capacity: usize,
        guard_ms: u64,
        first_block: u64,
        first: u64,
    ) -> Result<Self, Refused> {
        let policy = ReusePolicy {
            quiet_ms: guard_ms,
            first_block,
        };
        Ok(Self {
            given: Sender::after_restart(capacity, policy)?,
            next: first,
            places: BTreeMap::new(),
        })
    }
    pub fn given(&self) -> &Sender<u64> {
        &self.given
    }
    pub fn next(&self) -> u64 {
        self.next
    }
    /// A call that takes no tokens.
    pub fn quiet<A>(&mut self, call: impl FnOnce(&mut Sender<u64>) -> A) -> A {
        set_next_number(self.next);
        let answer = call(&mut self.given);
        assert_eq!(self.next, next_number(), "no token was taken");
        answer
    }
    /// A call that may take tokens: the thread's counter is this one's meanwhile.
    pub fn call<A>(
        &mut self,
        lent: &Lent,
        call: impl FnOnce(&mut Sender<u64>) -> Result<A, Error>,
    ) -> Result<A, Refused> {
        if lent.short() {
            return Err(Refused::Room);
        }
        if u64::MAX - self.next < LEAST_LEFT {
            return Err(Refused::Tokens);
        }
        set_next_number(self.next);
        let answer = call(&mut self.given);
        self.next = next_number();
        Ok(answer?)
    }

    pub fn enqueue(
        &mut self,
        lent: &mut Lent,
        asked: &Asked,
        message: &[u8],
        block: u64,
        now_ms: u64,
    ) -> Result<u64, Refused> {
        let request = Request {
            identity: asked.identity,
            channel: asked.channel,
            message: message.to_vec(),
            completion: asked.completion,
            deadline_ms: asked.deadline_ms,
        };
        let token = self.call(lent, |sender| sender.enqueue(request, block, now_ms))?;
        let live: Vec<u64> = self.given.owners().collect();
        // The lowest place that no live transfer has; a replaced one is live no more.
        self.places.retain(|owner, _| live.contains(owner));
        let place = (0..MESSAGES).find(|place| self.places.values().all(|taken| taken != place));
        let place = place.expect("at most 128 live transfers");
        self.places.insert(token.number(), place);
        lent.put_message(place, message);
        Ok(token.number())
    }
    pub fn submitted(
        &mut self,
        lent: &mut Lent,
        token: Token,
        block: u64,
        now_ms: u64,
    ) -> Result<(), Refused> {
        if lent.short() {
            return Err(Refused::Room);
        }
        let given = self.given.frame_token(token);
        self.quiet(|sender| sender.submitted(&given, block, now_ms))?;
        lent.put_word(self.place_of(token), token);
        Ok(())
    }
    fn place_of(&self, token: Token) -> usize {
        let owner = self.given.owner_of(token.generation);
        self.places[&owner.expect("a submitted frame is of a live transfer")]
    }
    /// Found, and completed.
    pub fn transmitted(
        &mut self,
        lent: &Lent,
        token: Token,
        block: u64,
        now_ms: u64,
    ) -> Result<(bool, bool), Refused> {
        let given = self.given.frame_token(token);
        let mut completed = false;
        let found = self.call(lent, |sender| {
            sender.transmitted_with(&given, block, now_ms, |_| completed = true)
        })?;
        Ok((found, completed))
    }

    /// SENDER.md's sum of the state.
    pub fn sum(&self, lent: &Lent) -> u64 {
        let sender = &self.given;
        for (owner, token) in sender.flight() {
            let word = lent.words[word_of(self.places[&owner], token)];
            assert_eq!(word, token.submission, "the word of a frame in flight");
        }
        let mut sum = Sum(0);
        let (last_block, last_ms) = sender.clocks();
        sum.all(&[
            sender.live().len() as u64,
            sender.events().len() as u64,
            sender.next_echo() as u64,
            last_block,
            last_ms,
            self.next,
        ]);
        sum.prepared(sender.selected());
        for tx in sender.live() {
            sum.identity(tx.identity);
            sum.all(&[
                u64::from(tx.echo),
                tx.owner,
                tx.generation,
                tx.channel as u64,
                u64::from(tx.octets),
                tx.frames as u64,
                u64::from(tx.queue),
                u64::from(tx.in_flight),
                u64::from(tx.transmitted),
                u64::from(tx.observed),
                u64::from(tx.received_status),
            ]);
            for since in [tx.last_progress, tx.last_frame, tx.waiting_since] {
                sum.all(&[u64::from(since.is_some()), since.unwrap_or(0)]);
            }
            sum.all(&[tx.deadline_ms, tx.completion]);
        }
        for event in sender.events() {
            let (kind, completion, error) = event_parts(event);
            sum.all(&[u64::from(kind), completion, u64::from(error)]);
        }
        sum.all(sender.echo_until_ms());
        sum.0
    }
}
/// What is asked for with a message.
pub struct Asked {
    pub identity: MobileIdentity,
    pub channel: Channel,
    pub completion: u64,
    pub deadline_ms: u64,
}
/// Kind, completion and the number of the error, if it has one.
pub fn event_parts(event: &Event<u64>) -> (u8, u64, u8) {
    match event {
        Event::Complete(completion) => (0, *completion, 0),
        Event::Expired(completion) => (1, *completion, 0),
        Event::Cancelled(completion) => (2, *completion, 0),
        Event::Failed { completion, error } => (3, *completion, number(*error)),
    }
}
/// The number that document 01 gives a refusal of the sender.
pub fn number(error: Error) -> u8 {
    match error {
        Error::Limits => 19,
        Error::Capacity => 20,
        Error::EchoExhausted => 21,
        Error::Clock => 22,
        Error::Deadline => 23,
        Error::Stale => 24,
        Error::Wire(error) => super::wire::number(error),
    }
}

struct Sum(u64);
impl Sum {
    fn all(&mut self, words: &[u64]) {
        self.0 = words.iter().fold(self.0, |sum, word| mixed(sum, *word));
    }
    fn identity(&mut self, identity: MobileIdentity) {
        let (kind, _, value) = identity.parts();
        self.all(&[u64::from(kind), value]);
    }
    /// 0 alone if there is none.
    fn prepared(&mut self, prepared: Option<&PreparedFrame>) {
        let Some(prepared) = prepared else {
            return self.all(&[0]);
        };
        let octets = super::wire::pack_frame(&prepared.information);
        let mut words = [0; 16];
        words[..octets.len()].copy_from_slice(&octets);
        let words = u128::from_be_bytes(words);
        let token = Token::from(&prepared.token);
        self.all(&[1]);
        self.identity(prepared.identity);
        self.all(&[
            (words >> 64) as u64,
            words as u64,
            token.generation,
            token.submission,
            token.frame,
            u64::from(prepared.partial_echo()),
        ]);
    }
}
