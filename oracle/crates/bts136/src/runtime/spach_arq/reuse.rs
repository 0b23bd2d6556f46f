//! Shim: not given. `ReusePolicy` carries the two numbers of the sender's constructor. As a child of the given
//! `spach_arq.rs` this module sees its private state and lends it to the harness.
use super::{Event, FrameToken, PreparedFrame, Sender, Transfer, TransferToken};
use crate::link::{
    rach::MobileIdentity,
    spach::{
        Channel,
        arq::{ArqFrame, ArqHeader},
    },
};
use std::{collections::VecDeque, sync::Arc};

#[derive(Debug, Clone, Copy)]
pub struct ReusePolicy {
    pub quiet_ms: u64,
    pub first_block: u64,
}
impl ReusePolicy {
    pub fn quiet_blocks(self) -> u64 {
        self.first_block
    }
}

/// A live transfer: its tokens are their numbers, and its sets of frames have bit k for frame k, so that Continue k of the
/// original's `observed` is bit k + 1.
#[derive(Debug, Clone, Copy, PartialEq, Eq)]
pub struct Live {
    pub identity: MobileIdentity,
    pub echo: u8,
    pub owner: u64,
    pub generation: u64,
    pub channel: Channel,
    pub octets: u8,
    pub frames: usize,
    pub queue: u32,
    pub in_flight: u32,
    pub transmitted: u32,
    pub observed: u32,
    pub received_status: bool,
    pub last_progress: Option<u64>,
    pub last_frame: Option<u64>,
    pub waiting_since: Option<u64>,
    pub deadline_ms: u64,
    pub completion: u64,
}
impl From<&Transfer<u64>> for Live {
    fn from(tx: &Transfer<u64>) -> Self {
        assert!(!tx.restart_requested, "no request to restart outlives a call");
        let (header, octets) = match &tx.frames[0] {
            ArqFrame::Begin {
                header,
                message_octets,
                ..
            } => (header, *message_octets),
            ArqFrame::Continue { .. } => panic!("the first frame is a Begin"),
        };
        let ArqHeader { channel, .. } = *header;
        Self {
            identity: tx.identity,
            echo: tx.echo,
            owner: Arc::number(&tx.owner),
            generation: Arc::number(&tx.generation),
            channel,
            octets,
            frames: tx.frames.len(),
            queue: queued(&tx.queue),
            in_flight: in_flight(&tx.in_flight),
            transmitted: set(&tx.transmitted),
            observed: set(&tx.observed) << 1,
            received_status: tx.received_status,
            last_progress: tx.last_progress,
            last_frame: tx.last_frame,
            waiting_since: tx.waiting_since,
            deadline_ms: tx.deadline_ms,
            completion: tx.completion,
        }
    }
}
fn queued(queue: &VecDeque<usize>) -> u32 {
    queue.iter().fold(0, |set, frame| {
        let bit = 1 << frame;
        assert!(set < bit, "a queue rises");
        set | bit
    })
}
fn in_flight(tokens: &[FrameToken]) -> u32 {
    tokens.iter().fold(0, |set, token| {
        let bit = 1 << token.frame;
        assert!(set & bit == 0, "a frame is in flight once");
        set | bit
    })
}
fn set(members: &[bool]) -> u32 {
    let members = members.iter().rev();
    members.fold(0, |set, member| set << 1 | u32::from(*member))
}

/// A frame token as numbers.
#[derive(Debug, Clone, Copy, PartialEq, Eq)]
pub struct Token {
    pub generation: u64,
    pub submission: u64,
    pub frame: u64,
}
impl From<&FrameToken> for Token {
    fn from(token: &FrameToken) -> Self {
        Self {
            generation: Arc::number(&token.transaction),
            submission: Arc::number(&token.submission),
            frame: token.frame as u64,
        }
    }
}
/// No call takes the last number of the counter, so that no token of the original has it.
const NOBODY: u64 = u64::MAX;

impl TransferToken {
    pub fn number(&self) -> u64 {
        Arc::number(&self.0)
    }
}
impl Sender<u64> {
    pub fn live(&self) -> impl ExactSizeIterator<Item = Live> {
        self.transfers.iter().map(Live::from)
    }
    pub fn live_at(&self, place: usize) -> Option<Live> {
        self.transfers.get(place).map(Live::from)
    }
    /// The owners of the live transfers, in order.
    pub fn owners(&self) -> impl Iterator<Item = u64> {
        self.transfers.iter().map(|tx| Arc::number(&tx.owner))
    }
    /// The echoes of the live transfers, in order.
    pub fn echoes(&self) -> impl Iterator<Item = u8> {
        self.transfers.iter().map(|tx| tx.echo)
    }
    /// Owner and token of every frame in flight.
    pub fn flight(&self) -> impl Iterator<Item = (u64, Token)> {
        self.transfers.iter().flat_map(|tx| {
            let owner = Arc::number(&tx.owner);
            tx.in_flight.iter().map(move |token| (owner, token.into()))
        })
    }
    pub fn owner_of(&self, generation: u64) -> Option<u64> {
        let mut transfers = self.transfers.iter();
        transfers
            .find(|tx| Arc::number(&tx.generation) == generation)
            .map(|tx| Arc::number(&tx.owner))
    }
    pub fn events(&self) -> &VecDeque<Event<u64>> {
        &self.events
    }
    pub fn echo_until_ms(&self) -> &[u64] {
        &self.echo_until_ms
    }
    pub fn next_echo(&self) -> usize {
        self.next_echo
    }
    pub fn selected(&self) -> Option<&PreparedFrame> {
        self.selected.as_ref()
    }
    pub fn capacity(&self) -> usize {
        self.capacity
    }
    pub fn first_block(&self) -> u64 {
        self.startup_until_block
    }
    pub fn guard_ms(&self) -> u64 {
        self.echo_guard_ms
    }
    pub fn clocks(&self) -> (u64, u64) {
        (self.last_block, self.last_ms)
    }

    /// The original's own token of these numbers. A number that no live transfer has is made up, which is no other. So is
    /// the submission if its frame has another number, since the original does not compare those.
    pub fn frame_token(&self, token: Token) -> FrameToken {
        let generation = self.transfers.iter().map(|tx| &tx.generation);
        let prepared = self.selected.iter().map(|prepared| &prepared.token);
        let flying = self.transfers.iter().flat_map(|tx| &tx.in_flight);
        let submission = prepared
            .chain(flying)
            .find(|known| Arc::number(&known.submission) == token.submission);
        FrameToken {
            transaction: known(generation, token.generation),
            submission: match submission {
                Some(known) if known.frame as u64 == token.frame => known.submission.clone(),
                Some(_) => Arc::numbered((), NOBODY),
                None => Arc::numbered((), token.submission),
            },
            // Where the number is read, it is that of the token found.
            frame: token.frame as usize,
        }
    }
    pub fn transfer_token(&self, number: u64) -> TransferToken {
        TransferToken(known(self.transfers.iter().map(|tx| &tx.owner), number))
    }
}
/// The one of this number, or one made up.
fn known<'a>(mut arcs: impl Iterator<Item = &'a Arc<()>>, number: u64) -> Arc<()> {
    let known = arcs.find(|arc| Arc::number(arc) == number).cloned();
    known.unwrap_or_else(|| Arc::numbered((), number))
}
