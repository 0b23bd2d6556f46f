//! The fixed script of the program `replay_sender`.
use super::pair;
use crate::{
    generate::{MESSAGE_EIGHTHS, identity_operand},
    senders::{clock_octets, token_octets},
};
use bts136::harness::{
    script::{
        MESSAGE,
        sender::{
            CAN_ENQUEUE, CANCEL, CANCEL_ALL, CANCEL_TRANSACTION, CONTAINS, ENQUEUE, HAS_ECHO,
            IDENTITY_FOR_ECHO, INTERRUPT, LEND, Machine, PENDING, POP_EVENT, PREPARE, PRIORITIZED,
            RADIO_ACTIVE, READY, REFRESH, SENDER, SENDER_ADVANCE, SENDER_ECHOES, SENDER_EVENT,
            SENDER_STATE, SENDER_STATUS, SENDER_SUMS, SENDER_TRANSFER, SUBMITTED,
            SUBMITTED_MESSAGE, TRANSMITTED, operation,
        },
    },
    sending::{LENT_OCTETS, LENT_WORDS, Live, NEEDED_OCTETS, NEEDED_WORDS, Token},
};

const LAST: u64 = u64::MAX;
const ARCH: u8 = 3;
const SMSCH: u8 = 4;
const PCH: u8 = 7;
/// A deadline that no list reaches.
const FAR: u64 = 1 << 40;
/// Octets of a message to a Tmsi20 that need so many frames.
const ONE: usize = 6;
const TWO: usize = 7;
const THREE: usize = 17;
const FIVE: usize = 37;

pub fn fixed_script() -> Vec<u8> {
    let mut script = Script {
        octets: Vec::new(),
        machine: Machine::default(),
    };
    script.unmade();
    script.messages();
    script.limits();
    script.waits();
    script.first_block();
    script.equal_ages();
    script.tokens();
    script.short();
    script.refusals();
    script.few_tokens();
    script.interrupts();
    script.prioritized();
    script.statuses();
    script.longest();
    script.replaced();
    script.ends();
    script.exhausted();
    script.shared();
    script.restarts_of_64();
    script.ages();
    script.missing();
    script.none_heard();
    script.forgotten();
    script.others_stay();
    script.overdue();
    script.same_number();
    script.around();
    script.later_frames();
    script.large();
    script.five_on_arch();
    script.of_continues();
    script.over_another();
    script.many_wait();
    script.octets
}

/// The script, and the machine that has run it so far: it tells the tokens.
struct Script {
    octets: Vec<u8>,
    machine: Machine,
}
impl Script {
    fn push(&mut self, op: u8, operands: &[&[u8]]) {
        let operands = operands.concat();
        let longest = operation(op).expect("an op octet of the table").longest;
        self.machine.step(op, &operands, &mut vec![0; longest]);
        self.octets.push(op);
        self.octets.extend(operands);
    }
    /// A call and the sums after it.
    fn lived(&mut self, op: u8, operands: &[&[u8]]) {
        self.push(op, operands);
        self.push(SENDER_SUMS, &[]);
    }
    /// The state and the first transfers.
    fn shown(&mut self, count: u8) {
        self.push(SENDER_STATE, &[]);
        for place in 0..count {
            self.push(SENDER_TRANSFER, &[&[place]]);
        }
    }
    fn made(&mut self, capacity: u64, guard_ms: u64, first_block: u64, first: u64) {
        let words = [capacity, guard_ms, first_block, first].map(u64::to_be_bytes);
        self.lived(SENDER, &[&words.concat(), &[0x5a]]);
    }
    /// A call whose last operands are block and time.
    fn clocked(&mut self, op: u8, block: u64, now_ms: u64) {
        self.lived(op, &[&clock_octets(block, now_ms)]);
        self.push(SENDER_STATE, &[]);
    }
    fn enqueued(&mut self, asked: Asked, block: u64, now_ms: u64) {
        self.lived(ENQUEUE, &[&asked.operands(), &clock_octets(block, now_ms)]);
    }
    /// An enqueue with a completion of its own.
    fn completing(&mut self, asked: Asked, completion: u64, block: u64) {
        let operands = asked.with_completion(completion);
        self.lived(ENQUEUE, &[&operands, &clock_octets(block, 0)]);
    }
    fn echoed(&mut self, op: u8, echo: u8, block: u64, now_ms: u64) {
        self.lived(op, &[&[echo], &clock_octets(block, now_ms)]);
        self.push(SENDER_STATE, &[]);
    }
    fn with_token(&mut self, op: u8, token: Token, block: u64, now_ms: u64) {
        let clock = clock_octets(block, now_ms);
        self.lived(op, &[&token_octets(token), &clock]);
    }
    fn status(&mut self, echo: u8, map: u32, block: u64) {
        let clock = clock_octets(block, 0);
        self.lived(SENDER_STATUS, &[&[echo], &map.to_be_bytes(), &clock]);
        self.push(SENDER_STATE, &[]);
    }
    fn selected(&self) -> Token {
        let sender = self.machine.sending().expect("a sender");
        let selected = sender.given().selected().expect("a selected frame");
        Token::from(&selected.token)
    }
    fn live(&self, place: usize) -> Live {
        let sender = self.machine.sending().expect("a sender");
        sender.given().live_at(place).expect("a transfer")
    }
    /// The next frame, prepared and submitted.
    fn sent(&mut self, block: u64) -> Token {
        self.clocked(PREPARE, block, 0);
        let token = self.selected();
        self.with_token(SUBMITTED, token, block, 0);
        token
    }
    fn popped(&mut self, count: usize) {
        for _ in 0..count {
            self.push(POP_EVENT, &[]);
        }
    }

    /// Operations that have no sender; LEND needs none.
    fn unmade(&mut self) {
        for op in SENDER + 1..=SENDER_SUMS {
            let operands = operation(op).expect("an op octet of the table").operands;
            self.push(op, &[&vec![0; operands]]);
        }
        self.push(LEND, &[&pair(NEEDED_OCTETS), &pair(NEEDED_WORDS)]);
    }
    fn messages(&mut self) {
        for eighth in 0..MESSAGE_EIGHTHS {
            let octets: [u8; 8] = std::array::from_fn(|place| 0xc1 ^ (29 * place as u8) ^ eighth);
            self.push(MESSAGE, &[&[eighth], &octets]);
        }
        self.push(MESSAGE, &[&[MESSAGE_EIGHTHS], &[0xff; 8]]);
    }
    fn limits(&mut self) {
        for capacity in [0, 129, LAST, 1, 128] {
            self.made(capacity, 7, 9, 11);
        }
        for part in [0, 7, 8, 255] {
            self.push(SENDER_ECHOES, &[&[part]]);
        }
    }
    /// Restarts at 64 blocks and not at 63: since progress, and since waiting, which a frame that is sent again leaves.
    fn waits(&mut self) {
        self.made(3, 0, 0, 100);
        self.enqueued(to(1, ONE), 10, 0);
        self.sent(10);
        self.clocked(SENDER_ADVANCE, 73, 0);
        self.clocked(SENDER_ADVANCE, 74, 0);
        self.shown(2);
        let token = self.sent(80);
        self.with_token(TRANSMITTED, token, 90, 0);
        self.clocked(REFRESH, 95, 0);
        self.clocked(REFRESH, 96, 0);
        let token = self.sent(100);
        self.with_token(TRANSMITTED, token, 101, 0);
        self.shown(1);
        self.clocked(SENDER_ADVANCE, 153, 0);
        self.clocked(SENDER_ADVANCE, 154, 0);
        self.shown(1);
    }
    fn first_block(&mut self) {
        self.made(1, 0, 40, 0);
        for block in [39, 40] {
            self.push(CAN_ENQUEUE, &[&clock_octets(block, 0)]);
            self.enqueued(to(1, ONE), block, 0);
        }
    }
    /// Of three that are as old, the last one goes first.
    fn equal_ages(&mut self) {
        self.made(4, 0, 0, 0);
        for who in [1, 2, 3] {
            self.enqueued(to(who, ONE), 10, 0);
        }
        let tokens = [(); 3].map(|()| self.sent(10));
        for token in tokens {
            self.with_token(TRANSMITTED, token, 11, 0);
        }
        self.enqueued(to(4, ONE), 11, 0);
        self.clocked(REFRESH, 25, 0);
        self.clocked(REFRESH, 26, 0);
        self.shown(4);
        self.clocked(PREPARE, 26, 0);
        self.clocked(REFRESH, 43, 0);
        self.push(READY, &[]);
        self.push(RADIO_ACTIVE, &[]);
    }
    /// Tokens with another number in them, and used twice.
    fn tokens(&mut self) {
        self.made(2, 0, 0, 1000);
        self.enqueued(to(1, THREE), 1, 0);
        self.enqueued(to(2, TWO), 1, 0);
        self.push(RADIO_ACTIVE, &[]);
        self.clocked(PREPARE, 1, 0);
        let own = self.selected();
        for token in forged(own) {
            self.with_token(SUBMITTED, token, 2, 0);
        }
        self.with_token(SUBMITTED, own, 3, 0);
        self.with_token(SUBMITTED, own, 3, 0);
        for token in forged(own) {
            self.with_token(TRANSMITTED, token, 4, 0);
            self.push(SUBMITTED_MESSAGE, &[&token_octets(token)]);
        }
        self.with_token(TRANSMITTED, own, 5, 0);
        self.with_token(TRANSMITTED, own, 5, 0);
        // The whole of the second is in flight, then transmitted.
        let other = [self.sent(6), self.sent(6), self.sent(6)];
        for token in other {
            self.push(SUBMITTED_MESSAGE, &[&token_octets(token)]);
            self.with_token(TRANSMITTED, token, 7, 0);
        }
        // The generation alone is read.
        for token in forged(other[0]) {
            self.push(SUBMITTED_MESSAGE, &[&token_octets(token)]);
        }
        self.shown(3);
        // What was selected before a restart.
        self.clocked(PREPARE, 7, 0);
        let old = self.selected();
        self.echoed(INTERRUPT, self.live(0).echo, 7, 0);
        self.echoed(INTERRUPT, self.live(1).echo, 7, 0);
        self.with_token(SUBMITTED, old, 7, 0);
    }
    /// Too little lent, by one; more than enough; and more than there is.
    fn short(&mut self) {
        self.made(2, 0, 0, 0);
        self.enqueued(to(1, ONE), 1, 1);
        self.clocked(PREPARE, 1, 1);
        let token = self.selected();
        for (octets, words) in [
            (NEEDED_OCTETS - 1, NEEDED_WORDS),
            (NEEDED_OCTETS, NEEDED_WORDS - 1),
            (0, 0),
        ] {
            self.push(LEND, &[&pair(octets), &pair(words)]);
            self.each_clocked(token, 0, 0);
        }
        self.push(LEND, &[&pair(LENT_OCTETS + 1), &pair(NEEDED_WORDS)]);
        self.push(LEND, &[&pair(NEEDED_OCTETS), &pair(LENT_WORDS + 1)]);
        self.clocked(PREPARE, 1, 1);
        self.push(LEND, &[&pair(LENT_OCTETS), &pair(LENT_WORDS)]);
        self.each_clocked(token, 0, 1);
        self.each_clocked(token, 1, 0);
        self.with_token(SUBMITTED, token, 1, 1);
        self.push(LEND, &[&pair(NEEDED_OCTETS), &pair(NEEDED_WORDS)]);
        self.with_token(TRANSMITTED, token, 1, 1);
    }
    /// Each call that has a clock, without the state after it.
    fn each_clocked(&mut self, token: Token, block: u64, now_ms: u64) {
        let (clock, token) = (clock_octets(block, now_ms), token_octets(token));
        self.push(ENQUEUE, &[&to(2, ONE).operands(), &clock]);
        for op in [SENDER_ADVANCE, PREPARE, REFRESH] {
            self.push(op, &[&clock]);
        }
        for op in [INTERRUPT, PRIORITIZED] {
            self.push(op, &[&[0], &clock]);
        }
        for op in [SUBMITTED, TRANSMITTED] {
            self.push(op, &[&token, &clock]);
        }
        self.lived(SENDER_STATUS, &[&[0], &[0; 4], &clock]);
    }
    /// Each fault of an enqueue, and it again with one that is tested later.
    fn refusals(&mut self) {
        self.made(1, 10, 5, 0);
        let good = to(1, ONE);
        let all = Asked {
            who: (0, 0),
            channel: PCH,
            deadline_ms: LAST,
            length: 256,
        };
        for asked in [
            Asked {
                deadline_ms: 0,
                length: 0,
                ..all
            },
            Asked { length: 0, ..all },
            all,
            Asked { length: 255, ..all },
            Asked {
                channel: SMSCH,
                length: 255,
                ..all
            },
            Asked {
                who: (0, 1 << 20),
                ..good
            },
            // Before the first block.
            Asked {
                deadline_ms: LAST,
                ..good
            },
        ] {
            self.enqueued(asked, 4, 0);
        }
        for deadline_ms in [LAST, LAST - 9, LAST - 10] {
            let asked = Asked {
                deadline_ms,
                ..good
            };
            self.enqueued(asked, 5, 0);
        }
        // At capacity, for another and for the same; then with its event waiting.
        self.enqueued(to(2, ONE), 5, 0);
        self.enqueued(to(2, 256), 5, 0);
        self.enqueued(to(1, TWO), 5, 0);
        self.enqueued(Asked { length: 0, ..good }, 5, 0);
        self.enqueued(good, 4, 0);
        // What names no call.
        for asked in [
            Asked {
                who: (4, 1),
                ..good
            },
            Asked {
                who: (1, 1 << 32),
                ..good
            },
            Asked { channel: 5, ..good },
            Asked {
                length: 305,
                ..good
            },
        ] {
            self.enqueued(asked, 5, 0);
        }
        self.popped(2);
    }
    /// 513, 512 and 511 tokens left.
    fn few_tokens(&mut self) {
        self.made(2, 0, 0, LAST - 513);
        self.enqueued(to(1, ONE), 1, 1);
        self.clocked(PREPARE, 1, 1);
        let token = self.selected();
        self.each_clocked(token, 0, 1);
        self.with_token(SUBMITTED, token, 2, 1);
        self.with_token(TRANSMITTED, token, 2, 1);
        self.made(2, 0, 0, LAST);
        self.clocked(PREPARE, 0, 0);
    }
    /// Of an echo that is not held, with the clock alone moved; in time; at the deadline.
    fn interrupts(&mut self) {
        self.made(2, 50, 0, 0);
        let soon = |who| Asked {
            deadline_ms: 100,
            ..to(who, THREE)
        };
        self.enqueued(soon(1), 1, 0);
        self.enqueued(soon(2), 1, 0);
        self.sent(1);
        self.echoed(INTERRUPT, 0, 1, 0);
        self.shown(2);
        self.echoed(INTERRUPT, 0, 2, 100);
        self.echoed(INTERRUPT, 1, 2, 100);
        for place in [0, 1, 2, 65535] {
            self.push(SENDER_EVENT, &[&pair(place)]);
        }
        self.popped(3);
        self.push(SENDER_ECHOES, &[&[0]]);
    }
    /// One that is in flight goes to the front, with nothing to send: the selection of another is dropped.
    fn prioritized(&mut self) {
        self.made(3, 0, 0, 0);
        for who in [1, 2, 3] {
            self.enqueued(to(who, ONE), 1, 0);
        }
        let flying = self.sent(1);
        self.clocked(PREPARE, 1, 0);
        let dropped = self.selected();
        self.echoed(PRIORITIZED, 0, 1, 0);
        self.shown(3);
        self.with_token(SUBMITTED, dropped, 1, 0);
        self.echoed(PRIORITIZED, 2, 1, 0);
        self.echoed(PRIORITIZED, 2, 1, 0);
        self.echoed(PRIORITIZED, 9, 1, 0);
        self.with_token(TRANSMITTED, flying, 2, 0);
        // Its last frame again.
        self.echoed(PRIORITIZED, 0, 2, 0);
        self.shown(3);
    }
    /// Before the Begin; of frames that were sent and of others; with bits of no frame; of all.
    fn statuses(&mut self) {
        self.made(1, 0, 0, 0);
        self.enqueued(to(1, THREE), 1, 0);
        self.status(0, LAST as u32, 1);
        let begin = self.sent(1);
        self.status(128, 0, 1);
        self.status(0, LAST as u32, 1);
        self.with_token(TRANSMITTED, begin, 2, 0);
        let [first, second] = [(); 2].map(|()| self.sent(3));
        self.status(0, 0xfc00_0001, 4);
        self.with_token(TRANSMITTED, first, 4, 0);
        self.with_token(TRANSMITTED, second, 4, 0);
        self.shown(1);
        let again = self.sent(5);
        self.status(0, 0b10, 6);
        self.shown(1);
        self.with_token(TRANSMITTED, again, 7, 0);
        self.popped(2);
        // The one that was not heard is not the last, and is polled.
        self.enqueued(to(1, THREE), 7, 0);
        let sent = [(); 3].map(|()| self.sent(7));
        for token in sent {
            self.with_token(TRANSMITTED, token, 7, 0);
        }
        self.status(1, 0b10, 8);
        self.sent(8);
    }
    /// All of 27 frames, each of which has a word.
    fn longest(&mut self) {
        self.made(2, 0, 0, 0);
        self.enqueued(to(1, ONE), 1, 0);
        let asked = Asked {
            who: (3, (1 << 50) - 1),
            channel: SMSCH,
            ..to(0, 255)
        };
        self.enqueued(asked, 1, 0);
        self.sent(1);
        let clock = clock_octets(1, 0);
        let tokens = [(); 27].map(|()| {
            self.push(PREPARE, &[&clock]);
            let token = token_octets(self.selected());
            self.push(SUBMITTED, &[&token, &clock]);
            token
        });
        self.push(SENDER_SUMS, &[]);
        self.status(1, (1 << 26) - 1, 1);
        for token in tokens {
            self.push(TRANSMITTED, &[&token, &clock]);
        }
        self.push(SENDER_SUMS, &[]);
        self.popped(1);
    }
    /// 1 2 3, 2 again, and 1, which is selected; the place of the one replaced is taken again.
    fn replaced(&mut self) {
        self.made(4, 0, 0, 0);
        for who in [1, 2, 3] {
            self.enqueued(to(who, THREE), 1, 0);
        }
        self.clocked(PREPARE, 1, 0);
        let replaced = Asked {
            channel: SMSCH,
            ..to(2, 255)
        };
        self.enqueued(replaced, 1, 0);
        self.shown(4);
        self.enqueued(to(1, ONE), 1, 0);
        self.shown(3);
        let owners = [0, 1, 2].map(|place| self.live(place).owner);
        self.lived(CANCEL_TRANSACTION, &[&LAST.to_be_bytes()]);
        self.lived(CANCEL_TRANSACTION, &[&owners[0].to_be_bytes()]);
        self.enqueued(to(4, 1), 1, 0);
        self.lived(CANCEL, &[&identity_operand(0, 1)]);
        self.lived(CANCEL, &[&identity_operand(0, 1)]);
        self.push(CANCEL, &[&identity_operand(9, 3)]);
        for (kind, value) in [(0, 2), (1, 2), (0, 0), (4, 2)] {
            self.push(CONTAINS, &[&identity_operand(kind, value)]);
        }
        self.push(PENDING, &[]);
        for echo in [1, 3, 127, 128] {
            self.push(HAS_ECHO, &[&[echo]]);
            self.push(IDENTITY_FOR_ECHO, &[&[echo]]);
        }
        // A token is its owner's, whatever its generation.
        let live = self.live(0);
        self.echoed(INTERRUPT, live.echo, 1, 0);
        let live = self.live(0);
        self.lived(CANCEL_TRANSACTION, &[&live.generation.to_be_bytes()]);
        self.lived(CANCEL_TRANSACTION, &[&live.owner.to_be_bytes()]);
        self.lived(CANCEL_ALL, &[]);
        self.push(PENDING, &[]);
        self.push(READY, &[]);
        self.popped(7);
    }
    /// One that is done at its deadline, and one a millisecond before.
    fn ends(&mut self) {
        for now_ms in [99, 100] {
            self.made(1, 0, 0, 0);
            let asked = Asked {
                deadline_ms: 100,
                ..to(1, ONE)
            };
            self.enqueued(asked, 1, 0);
            let token = self.sent(1);
            self.status(0, 0, 1);
            self.with_token(TRANSMITTED, token, 1, now_ms);
            self.popped(2);
        }
    }
    /// The last echo is taken by a restart; the next one finds none, and no enqueue does until the first are free again.
    fn exhausted(&mut self) {
        self.made(1, 5, 0, 0);
        let soon = Asked {
            deadline_ms: 100,
            ..to(1, TWO)
        };
        self.enqueued(soon, 1, 0);
        for echo in 0..127 {
            self.push(INTERRUPT, &[&[echo], &clock_octets(1, 0)]);
        }
        self.echoed(INTERRUPT, 127, 1, 0);
        self.popped(1);
        self.push(CAN_ENQUEUE, &[&clock_octets(1, 104)]);
        let late = Asked {
            deadline_ms: LAST,
            ..to(1, TWO)
        };
        self.enqueued(late, 1, 104);
        self.enqueued(to(1, TWO), 1, 104);
        self.enqueued(to(1, TWO), 1, 105);
    }
    /// One echo of two transfers, the first of which is overdue; then the second, since its frame was submitted late.
    fn shared(&mut self) {
        for (deadline_ms, late) in [(FAR, false), (100, true)] {
            self.made(2, 0, 0, 0);
            let overdue = Asked {
                deadline_ms: 100,
                ..to(1, TWO)
            };
            self.enqueued(overdue, 1, 0);
            let other = Asked {
                deadline_ms,
                ..to(2, TWO)
            };
            self.enqueued(other, 1, 0);
            self.clocked(PREPARE, 1, 0);
            let token = self.selected();
            for echo in 1..127 {
                self.push(INTERRUPT, &[&[echo], &clock_octets(1, 99)]);
            }
            self.enqueued(to(2, ONE), 1, 100);
            if late {
                self.with_token(SUBMITTED, token, 1, 100);
            }
            self.shown(2);
            self.push(HAS_ECHO, &[&[0]]);
            self.push(IDENTITY_FOR_ECHO, &[&[0]]);
            self.echoed(INTERRUPT, 0, 1, 100);
            self.shown(1);
            self.popped(3);
        }
    }
    /// 64 transfers of 128 restart in one prepare, which takes 65 tokens of the last 512.
    fn restarts_of_64(&mut self) {
        self.made(128, 0, 0, LAST - 640);
        let clock = clock_octets(0, 0);
        for who in 1..=64 {
            self.push(ENQUEUE, &[&to(who, ONE).operands(), &clock]);
        }
        for _ in 0..64 {
            self.push(PREPARE, &[&clock]);
            let token = token_octets(self.selected());
            self.push(SUBMITTED, &[&token, &clock]);
        }
        self.clocked(SENDER_ADVANCE, 63, 0);
        self.clocked(PREPARE, 64, 0);
        for place in [0, 63, 64, 255] {
            self.push(SENDER_TRANSFER, &[&[place]]);
        }
        self.push(SENDER_ECHOES, &[&[4]]);
        self.clocked(PREPARE, 64, 0);
    }
    /// A status between its last frame and the refresh leaves the age of the second, which is the oldest that is ready;
    /// what is selected need not be of the first.
    fn ages(&mut self) {
        self.made(4, 0, 0, 0);
        for (who, length) in [(1, ONE), (2, TWO), (3, TWO)] {
            self.enqueued(to(who, length), 10, 0);
        }
        self.echoed(PRIORITIZED, 1, 10, 0);
        let second = self.selected();
        self.with_token(SUBMITTED, second, 10, 0);
        self.push(RADIO_ACTIVE, &[]);
        let first = self.sent(12);
        self.sent(13);
        self.echoed(PRIORITIZED, 0, 13, 0);
        self.push(READY, &[]);
        self.clocked(PREPARE, 13, 0);
        self.clocked(PREPARE, 13, 0);
        self.echoed(PRIORITIZED, 0, 13, 0);
        self.with_token(TRANSMITTED, first, 14, 0);
        self.status(1, 0, 20);
        self.clocked(REFRESH, 29, 0);
        self.shown(3);
        self.clocked(PREPARE, 29, 0);
        self.push(READY, &[]);
    }
    /// Of five frames, confirmed in another order: the last again; three Continues missing, of which a later status shows
    /// two while they are queued; then one, which is polled though it is not the last.
    fn missing(&mut self) {
        self.made(1, 1000, 0, 0);
        let asked = Asked {
            channel: SMSCH,
            ..to(1, FIVE)
        };
        self.enqueued(asked, 10, 0);
        let sent = [(); 5].map(|()| self.sent(10));
        for frame in [2, 0, 4, 1, 3] {
            self.with_token(TRANSMITTED, sent[frame], 11, 0);
        }
        self.push(RADIO_ACTIVE, &[]);
        self.echoed(PRIORITIZED, 0, 16, 0);
        let last = self.selected();
        self.with_token(SUBMITTED, last, 16, 0);
        self.status(0, 0b10, 17);
        self.with_token(TRANSMITTED, last, 18, 0);
        self.shown(1);
        self.push(SUBMITTED_MESSAGE, &[&token_octets(last)]);
        self.clocked(PREPARE, 19, 0);
        let first = self.selected();
        self.status(0, 0b1001, 20);
        self.status(0, 0b1001, 21);
        self.with_token(SUBMITTED, first, 21, 0);
        self.shown(1);
        let third = self.sent(22);
        self.with_token(TRANSMITTED, third, 22, 0);
        let fourth = self.sent(23);
        self.with_token(TRANSMITTED, fourth, 24, 0);
        self.with_token(TRANSMITTED, first, 24, 0);
        self.shown(1);
        self.clocked(PREPARE, 24, 0);
        self.status(0, 0b1111, 25);
        self.popped(1);
        self.push(SENDER_ECHOES, &[&[0]]);
    }
    /// A waiting order of three frames is put first: its last frame again; then a status that shows none.
    fn none_heard(&mut self) {
        self.made(1, 0, 0, 0);
        self.enqueued(to(1, THREE), 10, 0);
        let sent = [(); 3].map(|()| self.sent(10));
        for token in sent {
            self.with_token(TRANSMITTED, token, 11, 0);
        }
        self.echoed(PRIORITIZED, 0, 12, 0);
        let last = self.selected();
        self.with_token(SUBMITTED, last, 12, 0);
        self.with_token(TRANSMITTED, last, 12, 0);
        self.status(0, 0, 13);
        self.shown(1);
    }
    /// A restart that is asked for and one that is due in the same walk, with a status kept and a frame selected; then two
    /// that are due when a frame of one is confirmed.
    fn forgotten(&mut self) {
        self.made(4, 1000, 0, 0);
        self.enqueued(to(1, THREE), 10, 0);
        self.enqueued(to(2, ONE), 10, 0);
        for block in [10, 10, 11] {
            self.sent(block);
        }
        self.status(0, 0b1, 12);
        self.clocked(PREPARE, 12, 0);
        self.echoed(INTERRUPT, 0, 74, 0);
        self.shown(2);
        let token = self.sent(74);
        let owner = self.live(1).owner;
        for generation in [token.generation, owner] {
            let token = Token {
                generation,
                ..token
            };
            self.push(SUBMITTED_MESSAGE, &[&token_octets(token)]);
        }
        self.sent(75);
        self.clocked(PREPARE, 76, 0);
        self.with_token(TRANSMITTED, token, 139, 0);
        self.shown(2);
    }
    /// What is selected stays when others expire, are complete, replaced or restarted; it goes when its own transfer does.
    fn others_stay(&mut self) {
        self.made(4, 0, 0, 0);
        let until = |who, deadline_ms| Asked {
            deadline_ms,
            ..to(who, ONE)
        };
        for (who, deadline_ms) in [(1, 200), (2, FAR), (3, 300)] {
            self.enqueued(until(who, deadline_ms), 10, 100);
        }
        self.echoed(PRIORITIZED, 1, 10, 100);
        let token = self.selected();
        self.clocked(SENDER_ADVANCE, 11, 200);
        self.clocked(PREPARE, 11, 200);
        self.lived(SENDER_STATUS, &[&[99], &[0; 4], &clock_octets(11, 300)]);
        self.popped(2);
        self.enqueued(until(4, 400), 11, 300);
        self.with_token(SUBMITTED, token, 12, 300);
        self.clocked(PREPARE, 12, 300);
        self.with_token(TRANSMITTED, token, 13, 300);
        self.lived(SENDER_STATUS, &[&[1], &[0; 4], &clock_octets(14, 300)]);
        self.popped(1);
        self.enqueued(to(5, ONE), 14, 300);
        self.enqueued(to(5, ONE), 14, 300);
        self.echoed(INTERRUPT, 5, 14, 300);
        self.clocked(PREPARE, 14, 300);
        self.clocked(SENDER_ADVANCE, 15, 400);
        self.clocked(PREPARE, 15, 400);
        self.enqueued(until(5, 600), 15, 400);
        self.shown(1);
        self.lived(CANCEL_ALL, &[]);
        self.popped(4);
        self.push(SENDER_ECHOES, &[&[0]]);
    }
    /// An overdue transfer is live until `advance`: asked for, counted, cancelled. Clocks of which one alone goes back, and
    /// echoes over 127.
    fn overdue(&mut self) {
        self.made(1, 0, 0, 0);
        let until = |deadline_ms| Asked {
            deadline_ms,
            ..to(1, ONE)
        };
        self.enqueued(until(50), 10, 10);
        self.echoed(INTERRUPT, 9, 11, 50);
        self.push(PENDING, &[]);
        self.push(CONTAINS, &[&identity_operand(0, 1)]);
        self.push(HAS_ECHO, &[&[0]]);
        self.push(IDENTITY_FOR_ECHO, &[&[0]]);
        self.push(READY, &[]);
        self.push(CAN_ENQUEUE, &[&clock_octets(11, 50)]);
        self.enqueued(to(2, ONE), 11, 50);
        self.lived(CANCEL_ALL, &[]);
        self.push(CAN_ENQUEUE, &[&clock_octets(11, 50)]);
        self.popped(1);
        self.push(CAN_ENQUEUE, &[&clock_octets(5, 5)]);
        self.enqueued(until(100), 11, 50);
        self.echoed(PRIORITIZED, 129, 11, 50);
        self.clocked(PREPARE, 11, 50);
        let token = self.selected();
        self.with_token(SUBMITTED, token, 11, 50);
        self.clocked(SENDER_ADVANCE, 10, 100);
        self.clocked(SENDER_ADVANCE, 12, 49);
        self.echoed(INTERRUPT, 129, 11, 50);
        self.lived(SENDER_STATUS, &[&[129], &[0; 4], &clock_octets(11, 50)]);
        self.with_token(TRANSMITTED, Token { frame: 1, ..token }, 12, 100);
        self.push(SUBMITTED_MESSAGE, &[&token_octets(token)]);
        self.push(RADIO_ACTIVE, &[]);
        self.clocked(SENDER_ADVANCE, 12, 100);
        self.popped(1);
        self.enqueued(until(200), 12, 100);
        self.echoed(INTERRUPT, 9, 12, 200);
        self.lived(CANCEL, &[&identity_operand(0, 1)]);
        self.popped(1);
        self.enqueued(until(201), 12, 200);
        self.echoed(PRIORITIZED, 3, 12, 201);
        self.popped(1);
        self.clocked(PREPARE, 12, 201);
    }
    /// Identities of other types with one value; the lowest place that is free, with as many events as leave no room in sum.
    fn same_number(&mut self) {
        self.made(3, 0, 0, 0);
        for who in [(0, 1), (1, 1), (0, 2)] {
            self.enqueued(Asked { who, ..to(1, ONE) }, 10, 0);
        }
        for kind in [2, 1] {
            self.push(CONTAINS, &[&identity_operand(kind, 1)]);
        }
        self.push(IDENTITY_FOR_ECHO, &[&[1]]);
        for kind in [2, 1, 0] {
            self.lived(CANCEL, &[&identity_operand(kind, 1)]);
        }
        self.push(CAN_ENQUEUE, &[&clock_octets(10, 0)]);
        let asked = Asked {
            who: (2, 3),
            channel: SMSCH,
            ..to(1, THREE)
        };
        self.enqueued(asked, 10, 0);
        self.shown(2);
        self.lived(CANCEL_ALL, &[]);
        self.popped(4);
    }
    /// Echoes with free ones on both sides of the next: 5 alone is free at 50; 2, 3, 9 and 12 are at 100; the one before the
    /// next alone is at 200.
    fn around(&mut self) {
        self.made(8, 0, 5, 0);
        let clock = clock_octets(10, 0);
        let runs = [
            (1000, 2),
            (100, 2),
            (1000, 1),
            (50, 1),
            (1000, 3),
            (100, 1),
            (1000, 2),
            (100, 1),
            (1000, 115),
        ];
        for (deadline_ms, count) in runs {
            let asked = Asked {
                deadline_ms,
                ..to(9, ONE)
            };
            self.push(ENQUEUE, &[&asked.operands(), &clock]);
            for _ in 1..count {
                self.push(INTERRUPT, &[&[self.live(0).echo], &clock]);
            }
            self.push(CANCEL, &[&identity_operand(0, 9)]);
            self.popped(1);
        }
        for now_ms in [49, 50] {
            self.push(CAN_ENQUEUE, &[&clock_octets(10, now_ms)]);
        }
        self.enqueued(to(1, ONE), 10, 50);
        self.enqueued(to(2, ONE), 10, 99);
        self.enqueued(to(2, ONE), 10, 100);
        for (block, now_ms) in [(10, 99), (4, 100)] {
            self.push(CAN_ENQUEUE, &[&clock_octets(block, now_ms)]);
        }
        self.echoed(INTERRUPT, 5, 10, 100);
        for (who, deadline_ms) in [(3, FAR), (4, 200), (5, FAR), (2, FAR)] {
            let asked = Asked {
                deadline_ms,
                ..to(who, ONE)
            };
            self.enqueued(asked, 10, 100);
        }
        self.shown(4);
        self.echoed(PRIORITIZED, 9, 11, 100);
        self.echoed(INTERRUPT, 9, 11, 100);
        self.popped(1);
        self.enqueued(to(5, ONE), 11, 200);
        self.push(SENDER_ECHOES, &[&[0]]);
    }
    /// One that has frames queued and one in flight is served first from 16 blocks on; its last frame is queued again 16
    /// blocks after it, also while another's is selected, and not while it is in flight; with a status 64 blocks count from
    /// that.
    fn later_frames(&mut self) {
        self.made(4, 0, 0, 0);
        self.enqueued(to(1, THREE), 10, 0);
        self.enqueued(to(2, ONE), 10, 0);
        let begin = self.sent(10);
        self.clocked(REFRESH, 25, 0);
        self.clocked(REFRESH, 26, 0);
        self.with_token(TRANSMITTED, begin, 26, 0);
        let sent = [26, 27].map(|block| {
            self.echoed(PRIORITIZED, 0, block, 0);
            let token = self.selected();
            self.with_token(SUBMITTED, token, block, 0);
            token
        });
        self.clocked(REFRESH, 43, 0);
        for token in sent {
            self.with_token(TRANSMITTED, token, 43, 0);
        }
        self.clocked(PREPARE, 43, 0);
        self.clocked(REFRESH, 43, 0);
        self.shown(2);
        self.echoed(PRIORITIZED, 0, 44, 0);
        let last = self.selected();
        self.with_token(SUBMITTED, last, 44, 0);
        self.status(0, 0b11, 45);
        self.clocked(SENDER_ADVANCE, 108, 0);
        self.with_token(TRANSMITTED, last, 108, 0);
        self.popped(1);
        // Fewer than 512 tokens left: no clock moves.
        self.made(2, 0, 0, LAST - 511);
        self.clocked(SENDER_ADVANCE, 5, 5);
    }
    /// Capacities between the ends; a guard and blocks over 32 bits; a completion of 64, of each kind of event.
    fn large(&mut self) {
        for capacity in [2, 33, 64, 65, 100, 127] {
            self.made(capacity, LAST - 1, 1 << 63, 11);
            self.shown(0);
        }
        let first = 1 << 33;
        self.made(65, 1 << 40 | 5, first, 100);
        for block in [first - 1, first] {
            self.push(CAN_ENQUEUE, &[&clock_octets(block, 0)]);
            self.completing(to(1, TWO), LAST, block);
        }
        self.shown(1);
        let sent = [(); 2].map(|()| self.sent(first));
        for token in sent {
            self.push(SUBMITTED_MESSAGE, &[&token_octets(token)]);
            self.with_token(TRANSMITTED, token, first, 0);
        }
        self.push(PENDING, &[]);
        self.clocked(SENDER_ADVANCE, first + 63, 0);
        self.clocked(SENDER_ADVANCE, first + 64, 0);
        self.shown(1);
        self.push(SENDER_ECHOES, &[&[0]]);
        // Replaced, cancelled by each call, expired.
        self.completing(to(1, TWO), LAST - 1, first + 64);
        self.lived(CANCEL, &[&identity_operand(0, 1)]);
        self.completing(to(1, TWO), LAST - 2, first + 64);
        let owner = self.live(0).owner;
        self.lived(CANCEL_TRANSACTION, &[&owner.to_be_bytes()]);
        self.completing(to(1, TWO), LAST - 3, first + 64);
        self.lived(CANCEL_ALL, &[]);
        let soon = Asked {
            deadline_ms: 100,
            ..to(1, ONE)
        };
        self.completing(soon, LAST - 4, first + 64);
        self.completing(to(2, ONE), LAST - 5, first + 64);
        self.clocked(SENDER_ADVANCE, first + 64, 100);
        for place in 0..5 {
            self.push(SENDER_EVENT, &[&pair(place)]);
        }
        self.popped(6);
    }
    /// Five frames on Arch: of each, the clock gone back and tokens with another number, when it is handed in and when it
    /// is confirmed; the last is handed in again, and its former submission comes late.
    fn five_on_arch(&mut self) {
        self.made(2, 0, 0, 100);
        self.enqueued(to(1, FIVE), 10, 1);
        let sent = [11, 12, 13, 14, 15].map(|block| {
            self.clocked(PREPARE, block, 1);
            let own = self.selected();
            self.with_token(SUBMITTED, own, block - 1, 1);
            self.with_token(SUBMITTED, own, block, 0);
            for token in forged(own) {
                self.with_token(SUBMITTED, token, block, 1);
            }
            self.with_token(SUBMITTED, own, block, 1);
            self.push(SUBMITTED_MESSAGE, &[&token_octets(own)]);
            own
        });
        for frame in [3, 1, 4, 0, 2] {
            let own = sent[frame];
            for token in forged(own) {
                self.with_token(TRANSMITTED, token, 16, 1);
            }
            self.with_token(TRANSMITTED, own, 16, 1);
            self.with_token(TRANSMITTED, own, 16, 1);
        }
        self.shown(1);
        self.push(PENDING, &[]);
        self.lived(
            SENDER_STATUS,
            &[&[0], &7u32.to_be_bytes(), &clock_octets(17, 1)],
        );
        self.clocked(PREPARE, 17, 1);
        let last = self.selected();
        self.with_token(SUBMITTED, last, 17, 1);
        self.with_token(TRANSMITTED, sent[4], 17, 1);
        self.with_token(TRANSMITTED, last, 17, 1);
        self.lived(
            SENDER_STATUS,
            &[&[0], &8u32.to_be_bytes(), &clock_octets(18, 1)],
        );
        self.popped(1);
    }
    /// A selected Continue stays while another order is refreshed, cancelled, restarted or complete; it goes when another
    /// echo is put first, and when its own order is replaced, restarted, cancelled or expires.
    fn of_continues(&mut self) {
        self.made(4, 0, 0, 0);
        self.enqueued(to(1, TWO), 10, 0);
        self.enqueued(to(2, TWO), 10, 0);
        let begin = self.sent(10);
        self.sent(10);
        self.clocked(PREPARE, 10, 0);
        let dropped = self.selected();
        self.echoed(PRIORITIZED, 0, 10, 0);
        self.clocked(REFRESH, 26, 0);
        self.shown(2);
        self.lived(CANCEL, &[&identity_operand(0, 2)]);
        self.clocked(PREPARE, 26, 0);
        self.enqueued(to(2, TWO), 26, 0);
        self.echoed(PRIORITIZED, 2, 26, 0);
        self.with_token(SUBMITTED, dropped, 26, 0);
        let other = self.selected();
        self.with_token(SUBMITTED, other, 26, 0);
        self.echoed(PRIORITIZED, 0, 26, 0);
        let last = self.selected();
        self.echoed(INTERRUPT, 2, 26, 0);
        self.with_token(SUBMITTED, last, 27, 0);
        self.sent(27);
        self.clocked(PREPARE, 27, 0);
        let kept = self.selected();
        for token in [begin, Token { frame: 1, ..begin }, last, last] {
            self.with_token(TRANSMITTED, token, 27, 0);
        }
        self.status(0, 1, 28);
        self.clocked(PREPARE, 28, 0);
        // Replaced, then restarted, cancelled and expired.
        self.enqueued(to(2, TWO), 28, 0);
        self.with_token(SUBMITTED, kept, 28, 0);
        self.sent(28);
        self.clocked(PREPARE, 28, 0);
        let restarted = self.selected();
        self.echoed(INTERRUPT, self.live(0).echo, 28, 0);
        self.with_token(SUBMITTED, restarted, 28, 0);
        self.sent(28);
        self.clocked(PREPARE, 28, 0);
        self.lived(CANCEL, &[&identity_operand(0, 2)]);
        self.shown(0);
        self.popped(5);
        let soon = Asked {
            deadline_ms: 100,
            ..to(2, TWO)
        };
        self.enqueued(soon, 28, 0);
        self.sent(28);
        self.clocked(PREPARE, 28, 0);
        self.clocked(SENDER_ADVANCE, 28, 100);
        self.popped(2);
    }
    /// Messages over longer ones, in two places: what is past them stays.
    fn over_another(&mut self) {
        self.made(2, 0, 0, 0);
        for who in [1, 2] {
            self.enqueued(to(who, 255), 1, 0);
        }
        for length in [254, 100, 38, FIVE, 1] {
            for who in [1, 2] {
                let asked = Asked {
                    channel: SMSCH,
                    ..to(who, length)
                };
                self.enqueued(asked, 1, 0);
                self.popped(1);
            }
        }
        self.shown(2);
    }
    /// 20 orders wait and are counted; all of them are refreshed at once, and the last goes first unless a frame is
    /// selected.
    fn many_wait(&mut self) {
        for selected in [false, true] {
            self.made(32, 0, 0, 0);
            let clock = clock_octets(1, 0);
            for who in 1..=20 {
                self.push(ENQUEUE, &[&to(who, ONE).operands(), &clock]);
            }
            for _ in 1..=20 {
                self.push(PREPARE, &[&clock]);
                let token = token_octets(self.selected());
                self.push(SUBMITTED, &[&token, &clock]);
                self.push(TRANSMITTED, &[&token, &clock]);
            }
            self.push(PENDING, &[]);
            self.push(READY, &[]);
            if selected {
                self.enqueued(to(21, ONE), 1, 0);
                self.clocked(PREPARE, 1, 0);
            }
            self.clocked(REFRESH, 16, 0);
            self.clocked(REFRESH, 17, 0);
            for place in [0, 1, 15, 16, 17, 19, 20] {
                self.push(SENDER_TRANSFER, &[&[place]]);
            }
            self.clocked(PREPARE, 17, 0);
        }
    }
}
/// What is asked for; the completion is 7 and the value of the identity.
#[derive(Clone, Copy)]
struct Asked {
    who: (u8, u64),
    channel: u8,
    deadline_ms: u64,
    length: usize,
}
/// To a Tmsi20, on Arch.
fn to(value: u64, length: usize) -> Asked {
    Asked {
        who: (0, value),
        channel: ARCH,
        deadline_ms: FAR,
        length,
    }
}
impl Asked {
    fn operands(self) -> Vec<u8> {
        self.with_completion(7 << 32 | self.who.1)
    }
    fn with_completion(self, completion: u64) -> Vec<u8> {
        let words = [completion, self.deadline_ms].map(u64::to_be_bytes);
        [
            &identity_operand(self.who.0, self.who.1)[..],
            &[self.channel],
            &words.concat(),
            &pair(self.length),
        ]
        .concat()
    }
}
/// Each with other numbers than this token.
fn forged(own: Token) -> [Token; 7] {
    let frame = |frame| Token { frame, ..own };
    let Token {
        generation,
        submission,
        ..
    } = own;
    [
        frame(own.frame + 1),
        frame(27),
        frame(32),
        frame(LAST),
        Token {
            generation: generation + 1,
            ..own
        },
        Token {
            submission: submission + 1,
            ..own
        },
        Token {
            generation: submission,
            submission: generation,
            ..own
        },
    ]
}

#[cfg(test)]
mod tests {
    use super::*;
    use crate::{counter, senders::Memory, tally::Tally};
    use bts136::harness::script::sender::{OPERATIONS, run_sender_each};

    #[test]
    fn the_script_of_senders_has_every_number_octet_of_every_operation() {
        let mut memory = Memory::default();
        let (mut steps, mut answers) = (Vec::new(), vec![0; 1 << 16]);
        run_sender_each(
            &fixed_script(),
            &mut answers,
            &mut memory.octets,
            &mut memory.words,
            |step| steps.push(step),
        );
        let mut tally = Tally::default();
        tally.add_steps(&steps, &answers);
        let rows = tally.rows(&OPERATIONS);
        assert_eq!(counter::missing(&rows), Vec::<String>::new());
    }
}
