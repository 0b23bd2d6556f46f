//! Lives of a sender: the original answers each call as it is made, so that tokens, echoes and clocks of later calls are,
//! mostly, those of its state.
use crate::{
    compare::{Answers, Case},
    counter::{self, Row},
    counts::{Counts, differs, report},
    generate::{MESSAGE_EIGHTHS, good_identity, identity, identity_operand},
    lives,
    port::{Port, SenderRun as Run},
    random::Random,
};
use bts136::harness::{
    script::{
        ANSWERED, END, MESSAGE, MESSAGE_OCTETS,
        sender::{
            CAN_ENQUEUE, CANCEL, CANCEL_ALL, CANCEL_TRANSACTION, CONTAINS, ENQUEUE, HAS_ECHO,
            IDENTITY_FOR_ECHO, INTERRUPT, LEND, Machine, OPERATIONS, PENDING, POP_EVENT, PREPARE,
            PRIORITIZED, RADIO_ACTIVE, READY, REFRESH, SENDER, SENDER_ADVANCE, SENDER_ECHOES,
            SENDER_EVENT, SENDER_STATE, SENDER_STATUS, SENDER_SUMS, SENDER_TRANSFER, SUBMITTED,
            SUBMITTED_MESSAGE, Step, TRANSMITTED, operation, run_sender_each,
        },
    },
    sending::{LENT_OCTETS, LENT_WORDS, Live, NEEDED_OCTETS, NEEDED_WORDS, Sending, Token},
};
use std::{ops::Range, process::ExitCode};

mod seen;
use seen::Forged;
pub use seen::Seen;

/// The longest answer of a sender's operations, and an end octet.
const LONGEST: usize = 130;
/// Of PREPARE and of PRIORITIZED, where the token of an answer stands.
const PREPARED_TOKEN: usize = 25;
const LAST: u64 = u64::MAX;
/// The group of how spoiled scripts end.
pub const SPOILED: &str = "spoiled scripts' ends";
/// The lengths of a script's memory.
const WHOLE: (usize, usize) = (LENT_OCTETS, LENT_WORDS);

pub fn main(seed: u64, count: u64, port: Port) -> ExitCode {
    let compared = run(seed, count, port).and_then(|counts| {
        counts.print_senders();
        match counter::missing(&counts.sender_rows()) {
            missing if missing.is_empty() => Ok(counts),
            missing => Err(format!("not seen: {}", missing.join(", "))),
        }
    });
    report(compared, |Counts { senders, seen, .. }| {
        println!(
            "compared {} operations, {} of them calls, in the lives of {} senders, seed {seed}: no difference",
            senders.operations, seen.calls, senders.scripts
        );
    })
}
/// So many lives.
pub fn run(seed: u64, count: u64, port: Port) -> Result<Counts, String> {
    // What is spoiled has a source of its own: the lives of a seed are the same without it.
    let (mut random, mut spoiling) = (Random(seed), Random(!seed));
    let mut counts = Counts::default();
    while counts.senders.scripts < count {
        let life = Life::new(&mut random, &mut counts.seen);
        let compared = life.compare(&mut random, port.sender_run);
        let compared = compared.and_then(|()| life.compare_spoiled(&mut spoiling, port.sender_run));
        let (steps, answers) =
            compared.map_err(|difference| differs(seed, counts.senders.scripts, &difference))?;
        counts.spoiled.add(&steps, &answers);
        counts.senders.add_steps(&life.steps, &life.answers);
    }
    Ok(counts)
}
impl Counts {
    fn print_senders(&self) {
        self.senders.print_met(&OPERATIONS);
        counter::print(&self.seen.rows());
        counter::print(&self.spoiled.end_rows(SPOILED));
    }
    /// What must be met in the lives of senders.
    pub fn sender_rows(&self) -> Vec<Row> {
        [
            self.senders.rows(&OPERATIONS),
            self.seen.rows(),
            self.spoiled.end_rows(SPOILED),
        ]
        .concat()
    }
}

/// A memory to lend, of zeros at first.
pub struct Memory {
    pub octets: Vec<u8>,
    pub words: Vec<u64>,
}
impl Default for Memory {
    fn default() -> Self {
        Self::new(LENT_OCTETS, LENT_WORDS)
    }
}
impl Memory {
    fn new(octets: usize, words: usize) -> Self {
        Self {
            octets: vec![0; octets],
            words: vec![0; words],
        }
    }
    pub fn lent_to(&mut self, run: Run, script: &[u8], answers: &mut [u8]) -> usize {
        run(script, answers, &mut self.octets, &mut self.words)
    }
    fn is(&self, (octets, words): (&[u8], &[u64])) -> bool {
        self.octets == octets && self.words == words
    }
    /// Where another one differs from this one, which is the original's.
    fn first_difference(&self, other: &Self) -> Option<String> {
        fn first<T: PartialEq>(left: &[T], right: &[T]) -> Option<usize> {
            left.iter()
                .zip(right)
                .position(|(left, right)| left != right)
        }
        if let Some(at) = first(&self.octets, &other.octets) {
            return Some(format!(
                "octet {at} of the memory that is left\n  original {:02x}\n  port     {:02x}",
                self.octets[at], other.octets[at]
            ));
        }
        let at = first(&self.words, &other.words)?;
        Some(format!(
            "word {at} of the memory that is left\n  original {:016x}\n  port     {:016x}",
            self.words[at], other.words[at]
        ))
    }
}
/// The original's steps and answers on a memory of these lengths, or what differs, be it in the memory that is left.
fn compare_on(
    (octets, words): (usize, usize),
    case: &Case,
    other: Run,
) -> Result<(Vec<Step>, Answers), String> {
    let [mut memory, mut others] = [(); 2].map(|()| Memory::new(octets, words));
    let compared = case.between(
        |script, room, steps| {
            let Memory { octets, words } = &mut memory;
            run_sender_each(script, room, octets, words, |step| steps.push(step))
        },
        |script, room| others.lent_to(other, script, room),
    )?;
    match memory.first_difference(&others) {
        None => Ok(compared),
        Some(difference) => Err(difference),
    }
}

/// A life as it is made, and the machine that lives it.
struct Life {
    script: Vec<u8>,
    steps: Vec<Step>,
    answers: Vec<u8>,
    machine: Machine,
    style: Style,
    pool: Vec<[u8; 9]>,
    /// Every frame token that was given out, and those that were submitted and not yet found.
    prepared: Vec<Token>,
    flying: Vec<Token>,
    owners: Vec<u64>,
    completion: u64,
    /// How many calls are left before all is lent again.
    short: usize,
    /// The octets and words that are lent.
    lent: (usize, usize),
}
/// How a life goes, each in percent.
struct Style {
    /// Of calls: enqueues at first, what a radio would do, interrupts.
    fill: usize,
    polite: usize,
    drain: usize,
    /// Of clocks: blocks that go on by a wait, times that go on to a deadline.
    jumps: usize,
    leaps: usize,
    cancels: usize,
    short: usize,
    /// The most milliseconds to a deadline.
    span: u64,
}
impl Style {
    fn new(random: &mut Random) -> Self {
        Self {
            fill: random.pick(&[0, 0, 30, 90]),
            polite: random.pick(&[0, 60, 90, 90]),
            drain: random.pick(&[0, 0, 0, 0, 60]),
            jumps: random.pick(&[0, 2, 6, 15]),
            leaps: random.pick(&[0, 0, 1, 4]),
            cancels: random.pick(&[2, 2, 30]),
            short: random.pick(&[0, 0, 2]),
            span: random.pick(&[5, 400, 1_000_000, 1 << 50]),
        }
    }
}
/// How a life begins: 128 transfers; some replaced when all are overdue, which share echoes then; those all replaced, and
/// all cancelled; the first few replaced twice, when the first few echoes are free, so that the second search passes 127; or 64
/// of 128, a frame of each of which is submitted, and which restart in one call.
#[derive(Clone, Copy, PartialEq, Eq)]
enum Opening {
    Plain,
    Full,
    Shared,
    Replaced,
    Passed,
    Half,
}
/// What a sender is made with.
struct Limits {
    capacity: u64,
    guard_ms: u64,
    first_block: u64,
    first: u64,
}
impl Life {
    fn new(random: &mut Random, seen: &mut Seen) -> Self {
        let calls = 20 + random.below(381);
        let opening = match random.below(50) {
            0 => Opening::Full,
            1 => Opening::Replaced,
            2 => Opening::Half,
            3..=5 => Opening::Shared,
            6 => Opening::Passed,
            _ => Opening::Plain,
        };
        Self::of(random, seen, opening, calls)
    }
    fn of(random: &mut Random, seen: &mut Seen, opening: Opening, calls: usize) -> Self {
        let mut life = Self {
            script: Vec::new(),
            steps: Vec::new(),
            answers: Vec::new(),
            machine: Machine::default(),
            style: Style::new(random),
            pool: Vec::new(),
            prepared: Vec::new(),
            flying: Vec::new(),
            owners: Vec::new(),
            completion: 0,
            short: 0,
            lent: (NEEDED_OCTETS, NEEDED_WORDS),
        };
        let limits = limits(random, opening);
        life.pool = pool(random, limits.capacity as usize);
        life.style.span = life.style.span.min((LAST - limits.guard_ms) / 2 + 1);
        life.messages(random);
        if random.chance(2) {
            life.unmade(random);
        }
        if random.chance(6) {
            let capacity = random_capacity(random);
            life.made(random, seen, &Limits { capacity, ..limits });
            life.any_call(random, seen);
        }
        life.made(random, seen, &limits);
        let opened = life.open(random, seen, opening);
        for call in opened..calls {
            life.call(random, seen, call, calls);
        }
        life
    }
    /// Runs the other side alone: the answers of the life are the original's.
    fn compare(&self, random: &mut Random, other: Run) -> Result<(), String> {
        let filler = random.octet();
        let room = self.answers.len() + LONGEST + random.below(LONGEST);
        let mut memory = Memory::default();
        let mut buffer = vec![filler; room];
        let length = memory.lent_to(other, &self.script, &mut buffer);
        let (answers, rest) = buffer.split_at(self.answers.len());
        let same = answers == self.answers
            && rest[0] == END
            && rest[1..].iter().all(|octet| *octet == filler)
            && length == answers.len() + 1
            && memory.is(self.machine.memory());
        if same {
            return Ok(());
        }
        let differs =
            |step: &&Step| buffer[step.answer.clone()] != self.answers[step.answer.clone()];
        let step = self.steps.iter().find(differs);
        let script = self.script.clone();
        let whole = Case {
            script,
            room,
            filler,
        };
        let report = compare_on(WHOLE, &whole, other).err();
        let report = report.unwrap_or_else(|| "the second run has no difference".to_owned());
        let shown = step.map(|step| self.shown(step.operands.end));
        let shown = shown.and_then(|shown| compare_on(WHOLE, &shown, other).err());
        let shown = shown.map_or(String::new(), |shown| format!("\n  shown whole: {shown}"));
        Err(report + &shown)
    }
    /// Its first operations, whole, cut, with another octet or in little room, on the memory of a script or on another.
    fn compare_spoiled(
        &self,
        random: &mut Random,
        other: Run,
    ) -> Result<(Vec<Step>, Answers), String> {
        let last = &self.steps[random.below(self.steps.len().min(160))];
        let mut script = self.script[..last.operands.end].to_vec();
        let mut room = last.answer.end + 2 * LONGEST;
        let mut lengths = WHOLE;
        let any = random.octet();
        match random.below(6) {
            0 => script.truncate(random.below(script.len() + 1)),
            1 => script.truncate(last.operands.start + random.below(last.operands.len().max(1))),
            2 => script.push(random.pick(&[0, 1, MESSAGE - 1, MESSAGE + 1, 0x26, 0x43, 255, any])),
            3 => {
                let at = random.below(script.len());
                script[at] = any;
            }
            _ => {}
        }
        match random.below(6) {
            0 | 1 => room = last.answer.start + random.below(last.operation.longest + 3),
            2 => room = random.below(3),
            3 => lengths = (near(random, LENT_OCTETS), near(random, LENT_WORDS)),
            _ => {}
        }
        let case = Case {
            script,
            room,
            filler: random.octet(),
        };
        let compared = compare_on(lengths, &case, other);
        compared.map_err(|difference| format!("spoiled, {difference}, memory of {lengths:?}"))
    }
    /// The script up to here without its sums, and the whole state after it.
    fn shown(&self, end: usize) -> Case {
        let steps = self.steps.iter().filter(|step| step.operands.end <= end);
        let steps = steps.filter(|step| step.operation.op != SENDER_SUMS);
        let mut script: Vec<u8> = steps
            .flat_map(|step| &self.script[step.operands.start - 1..step.operands.end])
            .copied()
            .collect();
        script.push(SENDER_STATE);
        for place in 0..128 {
            script.extend([SENDER_TRANSFER, place]);
        }
        for place in 0..=u8::MAX {
            script.extend([SENDER_EVENT, 0, place]);
        }
        for part in 0..8 {
            script.extend([SENDER_ECHOES, part]);
        }
        script.push(SENDER_SUMS);
        Case {
            script,
            room: self.answers.len() + 20_000,
            filler: 0,
        }
    }

    fn step(&mut self, op: u8, operands: &[&[u8]]) -> &[u8] {
        let operation = operation(op).expect("an op octet of the table");
        self.script.push(op);
        let start = self.script.len();
        for operand in operands {
            self.script.extend_from_slice(operand);
        }
        let written = self.answers.len();
        self.answers.resize(written + operation.longest, 0);
        let operands = start..self.script.len();
        let room = &mut self.answers[written..];
        let length = self.machine.step(op, &self.script[operands.clone()], room);
        self.answers.truncate(written + length);
        self.steps.push(Step {
            operation,
            operands,
            answer: written..written + length,
        });
        &self.answers[written..]
    }
    /// A call and the state after it.
    fn lived(&mut self, random: &mut Random, seen: &mut Seen, op: u8, operands: &[&[u8]]) -> u8 {
        let before = seen::Before::new(self.machine.sending(), self.lent, op);
        self.step(op, operands);
        let call = self.steps.len() - 1;
        self.state(random);
        let Step {
            operands, answer, ..
        } = &self.steps[call];
        let (operands, answer) = (
            &self.script[operands.clone()],
            &self.answers[answer.clone()],
        );
        seen.add(op, operands, answer, &before, self.machine.sending());
        self.learn(op, call);
        self.answers[self.steps[call].answer.start]
    }
    fn state(&mut self, random: &mut Random) {
        self.step(SENDER_STATE, &[]);
        if random.chance(8) {
            let live = self.sending().map_or(0, |sender| sender.given().pending());
            let events = self
                .sending()
                .map_or(0, |sender| sender.given().events().len());
            match random.below(3) {
                0 => self.step(SENDER_TRANSFER, &[&[random.below(live + 2) as u8]]),
                1 => self.step(SENDER_EVENT, &[&pair(random.below(events + 2))]),
                _ => self.step(SENDER_ECHOES, &[&[random.below(9) as u8]]),
            };
        }
        self.step(SENDER_SUMS, &[]);
    }
    /// Keeps the tokens of an answered call.
    fn learn(&mut self, op: u8, call: usize) {
        let Step {
            operands, answer, ..
        } = &self.steps[call];
        let (operands, answer) = (
            &self.script[operands.clone()],
            &self.answers[answer.clone()],
        );
        match (op, answer) {
            (ENQUEUE, [ANSWERED, owner @ ..]) => {
                self.owners.push(number(owner));
            }
            (PREPARE | PRIORITIZED, [ANSWERED, 1, ..]) => {
                let token = token_at(&answer[PREPARED_TOKEN..]);
                if self.prepared.last() != Some(&token) {
                    self.prepared.push(token);
                }
            }
            (SUBMITTED, [ANSWERED]) => self.flying.push(token_at(operands)),
            (TRANSMITTED, [ANSWERED, 1, ..]) => {
                let token = token_at(operands);
                self.flying.retain(|known| *known != token);
            }
            _ => {}
        }
    }
    fn sending(&self) -> Option<&Sending> {
        self.machine.sending()
    }
    fn some_live(&self, random: &mut Random) -> Option<Live> {
        let given = self.sending()?.given();
        match given.pending() {
            0 => None,
            count => given.live_at(random.below(count)),
        }
    }

    /// The whole message, so that an enqueue changes some eighths of it alone.
    fn messages(&mut self, random: &mut Random) {
        for eighth in 0..MESSAGE_EIGHTHS {
            self.step(MESSAGE, &[&[eighth], &random.octets::<8>()]);
        }
    }
    /// Every operation without a sender, and an eighth past the last.
    fn unmade(&mut self, random: &mut Random) {
        self.step(MESSAGE, &[&[MESSAGE_EIGHTHS], &[0xff; 8]]);
        for op in LEND + 1..=SENDER_SUMS {
            let mut octets = Vec::new();
            operands(random, op, &mut octets);
            self.step(op, &[&octets]);
        }
    }
    fn made(&mut self, random: &mut Random, seen: &mut Seen, limits: &Limits) {
        let Limits {
            capacity,
            guard_ms,
            first_block,
            first,
        } = *limits;
        let words = [capacity, guard_ms, first_block, first].map(u64::to_be_bytes);
        let answer = self.step(SENDER, &[&words.concat(), &[random.octet()]]);
        seen.made(capacity, answer[0]);
        self.state(random);
    }
    /// How many calls it took.
    fn open(&mut self, random: &mut Random, seen: &mut Seen, opening: Opening) -> usize {
        let before = seen.calls;
        match opening {
            Opening::Plain => {}
            Opening::Full => self.ask(random, seen, 0..128, 1 << 40, 0),
            Opening::Passed => {
                let few = 1 + random.below(5);
                self.ask(random, seen, 0..few, 5, 0);
                self.ask(random, seen, few..128, 1 << 40, 0);
                self.ask(random, seen, 0..few, 15, 10);
                self.ask(random, seen, 0..few, 1 << 40, 20);
            }
            Opening::Shared | Opening::Replaced => {
                self.ask(random, seen, 0..128, 1 << 40, 0);
                let count = match opening {
                    Opening::Shared => 1 + random.pick(&[0, 0, 3, 20]),
                    _ => 128,
                };
                // An overdue one that is submitted goes behind the one that shares its echo.
                if random.chance(60) {
                    self.lived(random, seen, PREPARE, &[&[0; 16]]);
                }
                let clock = clock_octets(random.below(3) as u64, (1 << 40) + 1);
                for place in 0..count {
                    self.completion += 1;
                    let who = identity_operand(2, 128 - place as u64);
                    let words = [self.completion, 1 << 42].map(u64::to_be_bytes).concat();
                    let operands: [&[u8]; 5] = [&who, &[4], &words, &pair(9), &clock];
                    self.lived(random, seen, ENQUEUE, &operands);
                }
                if let Some(token) = self.selected() {
                    self.lived(random, seen, SUBMITTED, &[&token_octets(token), &clock]);
                }
                if opening == Opening::Replaced {
                    self.lived(random, seen, CANCEL_ALL, &[]);
                }
            }
            Opening::Half => {
                self.ask(random, seen, 0..64, 1 << 40, 0);
                for _ in 0..64 {
                    self.lived(random, seen, PREPARE, &[&[0; 16]]);
                    let token = self.selected().map_or([0; 24], token_octets);
                    self.lived(random, seen, SUBMITTED, &[&token, &[0; 16]]);
                }
                let block = random.pick(&[63, 64, 64, 64, 65]);
                let op = random.pick(&[PREPARE, PREPARE, PREPARE, SENDER_ADVANCE]);
                self.lived(random, seen, op, &[&clock_octets(block, 0)]);
            }
        }
        (seen.calls - before) as usize
    }
    /// An enqueue for each of these, with one deadline and at one time.
    fn ask(
        &mut self,
        random: &mut Random,
        seen: &mut Seen,
        places: Range<usize>,
        deadline: u64,
        now: u64,
    ) {
        for place in places {
            self.completion += 1;
            let who = identity_operand(2, 1 + place as u64);
            let words = [self.completion, deadline].map(u64::to_be_bytes).concat();
            let clock = clock_octets(0, now);
            let operands: [&[u8]; 5] = [&who, &[3], &words, &pair(1 + place % 9), &clock];
            self.lived(random, seen, ENQUEUE, &operands);
        }
    }
    fn selected(&self) -> Option<Token> {
        let selected = self.sending()?.given().selected()?;
        Some(Token::from(&selected.token))
    }

    /// One call, as the style has it.
    fn call(&mut self, random: &mut Random, seen: &mut Seen, call: usize, calls: usize) {
        self.lend(random);
        let shared = self.shared(random);
        if let Some(echo) = shared
            && random.chance(40)
        {
            let (block, now) = self.sending().expect("one is made").given().clocks();
            let clock = clock_octets(block, now);
            let op = random.pick(&[INTERRUPT, INTERRUPT, HAS_ECHO, IDENTITY_FOR_ECHO]);
            match op {
                INTERRUPT => self.lived(random, seen, op, &[&[echo], &clock]),
                _ => self.lived(random, seen, op, &[&[echo]]),
            };
            return;
        }
        if call < calls / 2 && random.chance(self.style.fill) {
            return self.enqueue(random, seen);
        }
        let idle = self
            .sending()
            .is_none_or(|sender| sender.given().pending() == 0);
        if !idle && random.chance(self.style.drain) {
            return self.interrupt(random, seen);
        }
        if random.chance(self.style.polite) {
            return self.polite(random, seen);
        }
        self.any_call(random, seen);
    }
    /// An echo that two transfers hold.
    fn shared(&self, random: &mut Random) -> Option<u8> {
        let held = seen::shared(self.sending()?);
        let echoes: Vec<u8> = (0..128).filter(|echo| held >> echo & 1 != 0).collect();
        match echoes.is_empty() {
            true => None,
            false => Some(random.pick(&echoes)),
        }
    }
    /// Now and then too little is lent for some calls; more than enough is lent too.
    fn lend(&mut self, random: &mut Random) {
        if self.short > 0 {
            self.short -= 1;
            if self.short > 0 {
                return;
            }
            let lent = match random.below(3) {
                0 => (LENT_OCTETS, LENT_WORDS),
                1 => (NEEDED_OCTETS + 1, NEEDED_WORDS),
                _ => (NEEDED_OCTETS, NEEDED_WORDS),
            };
            self.lent(lent);
        } else if random.chance(self.style.short) {
            let octets = random.pick(&[0, 255, NEEDED_OCTETS - 1, NEEDED_OCTETS, LENT_OCTETS]);
            let words = random.pick(&[0, 27, NEEDED_WORDS - 1, NEEDED_WORDS, LENT_WORDS]);
            self.lent((octets, words));
            self.short = 1 + random.below(4);
            if random.chance(10) {
                let over =
                    random.pick(&[(LENT_OCTETS + 1, 0), (0, LENT_WORDS + 1), (65535, 65535)]);
                self.lent(over);
            }
        }
    }
    /// The lengths stay if there are not so many.
    fn lent(&mut self, (octets, words): (usize, usize)) {
        let answer = self.step(LEND, &[&pair(octets), &pair(words)]);
        if answer[0] == ANSWERED {
            self.lent = (octets, words);
        }
    }

    /// Forward by little, to the end of a wait or just not, now and then back.
    fn clock(&self, random: &mut Random) -> [u8; 16] {
        let Some(sender) = self.sending() else {
            return clock_octets(random.below(80) as u64, random.below(80) as u64);
        };
        let (block, now) = sender.given().clocks();
        let (block, now) = (self.block(random, block), self.now(random, now));
        clock_octets(block, now)
    }
    fn block(&self, random: &mut Random, last: u64) -> u64 {
        let first = self
            .sending()
            .map_or(0, |sender| sender.given().first_block());
        if last < first && random.chance(10) {
            return random.pick(&[first - 1, first, first, first]);
        }
        if random.chance(self.style.jumps) {
            if let Some(live) = self.some_live(random)
                && random.chance(60)
            {
                let (since, waits) = match random.below(3) {
                    0 => (live.last_progress, [63, 64]),
                    1 => (live.waiting_since, [63, 64]),
                    _ => (live.last_frame, [15, 16]),
                };
                let since = since.unwrap_or(last);
                return since.saturating_add(random.pick(&waits)).max(last);
            }
            let step = random.pick(&[15, 16, 16, 17, 63, 64, 64, 65]);
            return last.saturating_add(step);
        }
        match random.below(400) {
            0..=3 => last.saturating_sub(1),
            4 => last.saturating_sub(random.any_length()),
            5 if random.chance(10) => random.any_length().max(last),
            6..=120 => last.saturating_add(1),
            _ => last,
        }
    }
    fn now(&self, random: &mut Random, last: u64) -> u64 {
        if random.chance(self.style.leaps) {
            let until = self.sending().map_or(0, |sender| {
                sender.given().echo_until_ms()[random.below(128)]
            });
            let far = last.saturating_add(1 << 55);
            let deadline = self.some_live(random).map_or(last, |live| live.deadline_ms);
            return match random.below(6) {
                0 => deadline,
                1 => deadline.saturating_sub(1),
                2 if until < far => until,
                3 if until < far => until.saturating_sub(1),
                4 => last.saturating_add(1000),
                _ => last.saturating_add(random.below(100) as u64),
            }
            .max(last);
        }
        match random.below(400) {
            0..=3 => last.saturating_sub(1),
            4 => last.saturating_sub(random.any_length()),
            5 if random.chance(5) => random.any_length().max(last),
            6..=120 => last.saturating_add(1),
            _ => last,
        }
    }
    fn echo(&self, random: &mut Random) -> u8 {
        match self.some_live(random) {
            Some(live) if random.chance(85) => live.echo,
            _ => random.octet(),
        }
    }
    fn some_identity(&self, random: &mut Random) -> [u8; 9] {
        match random.chance(4) {
            true => identity(random),
            false => random.pick(&self.pool),
        }
    }

    fn enqueue(&mut self, random: &mut Random, seen: &mut Seen) {
        let identity = self.some_identity(random);
        let channel = match random.below(100) {
            0 | 1 => 7,
            2 => random.octet(),
            _ => random.pick(&[3, 4]),
        };
        let length = match random.below(40) {
            0 => 0,
            1 => 255,
            2 => 256,
            3 => random.below(MESSAGE_OCTETS - 3),
            4 => random.pick(&[304, 305, 65535]),
            5..=24 => 1 + random.below(7),
            _ => 1 + random.below(60),
        };
        for _ in 0..random.below(3) {
            let eighth = random.below(length.div_ceil(8).clamp(1, usize::from(MESSAGE_EIGHTHS)));
            self.step(MESSAGE, &[&[eighth as u8], &random.octets::<8>()]);
        }
        let clock = self.clock(random);
        let (now, guard) = (
            number(&clock[8..]),
            self.sending().map_or(0, |sender| sender.given().guard_ms()),
        );
        let deadline = match random.below(60) {
            0 => now,
            1 => now.saturating_sub(1),
            2 => LAST,
            3 => (LAST - guard).saturating_add(1),
            4 => LAST - guard,
            5 => now.saturating_add(1),
            _ => now.saturating_add(1 + random.next() % self.style.span),
        };
        self.completion = match random.below(20) {
            0 => random.any_length(),
            1 => self.completion,
            _ => self.completion.wrapping_add(1),
        };
        let words = [self.completion, deadline].map(u64::to_be_bytes).concat();
        let operands: [&[u8]; 5] = [&identity, &[channel], &words, &pair(length), &clock];
        let number = self.lived(random, seen, ENQUEUE, &operands);
        // Room for events, mostly.
        let full = |sender: &Sending| sender.given().events().len() >= sender.given().capacity();
        if number == 20 && self.sending().is_some_and(full) && random.chance(70) {
            for _ in 0..1 + random.below(4) {
                self.lived(random, seen, POP_EVENT, &[]);
            }
        }
    }
    fn interrupt(&mut self, random: &mut Random, seen: &mut Seen) {
        let echo = self.echo(random);
        let clock = self.clock(random);
        self.lived(random, seen, INTERRUPT, &[&[echo], &clock]);
    }
    /// What a radio does: each frame prepared, submitted and transmitted, and a status after the last one.
    fn polite(&mut self, random: &mut Random, seen: &mut Seen) {
        let Some(sender) = self.sending() else {
            return self.any_call(random, seen);
        };
        let given = sender.given();
        let (idle, ready, selected) = (
            given.pending() == 0,
            given.ready(),
            given
                .selected()
                .map(|prepared| Token::from(&prepared.token)),
        );
        if idle {
            return self.enqueue(random, seen);
        }
        let clock = self.clock(random);
        if let Some(token) = selected
            && random.chance(90)
        {
            self.lived(random, seen, SUBMITTED, &[&token_octets(token), &clock]);
        } else if !self.flying.is_empty() && random.chance(if ready { 45 } else { 80 }) {
            let token = self.flying[random.below(self.flying.len())];
            self.flying.retain(|known| *known != token);
            self.lived(random, seen, TRANSMITTED, &[&token_octets(token), &clock]);
        } else if ready && random.chance(90) {
            self.lived(random, seen, PREPARE, &[&clock]);
        } else {
            match random.below(8) {
                0..=3 => self.status(random, seen),
                4 | 5 => {
                    self.lived(random, seen, REFRESH, &[&clock]);
                }
                6 => self.enqueue(random, seen),
                _ => {
                    self.lived(random, seen, SENDER_ADVANCE, &[&clock]);
                }
            }
        }
    }
    fn status(&mut self, random: &mut Random, seen: &mut Seen) {
        let live = self.some_live(random);
        let echo = match live {
            Some(live) if random.chance(92) => live.echo,
            _ => random.octet(),
        };
        let sent = live.map_or(0, |live| (live.transmitted | live.in_flight) >> 1);
        let map = match random.below(12) {
            0 => 0,
            1 => random.next() as u32,
            2 => LAST as u32,
            3..=6 => sent & random.next() as u32,
            7 => sent & !(1 << random.below(26)) | 0xfc00_0000,
            _ => sent,
        };
        let clock = self.clock(random);
        let operands: [&[u8]; 3] = [&[echo], &map.to_be_bytes(), &clock];
        self.lived(random, seen, SENDER_STATUS, &operands);
    }
    /// Mostly the one at hand; else an older one, or one with another number in it.
    fn token(&self, random: &mut Random, at_hand: Option<Token>) -> Token {
        let any = Token {
            generation: random.any_length(),
            submission: random.any_length(),
            frame: random.below(28) as u64,
        };
        let older = match self.prepared.is_empty() {
            true => any,
            false => random.pick(&self.prepared),
        };
        let mut token = at_hand.unwrap_or(older);
        match random.below(20) {
            0..=8 => {}
            9 | 10 => token = older,
            11 => token = any,
            12 | 13 => token.frame = token.frame.wrapping_add(1),
            14 => {
                let frame = random.any_length();
                token.frame = random.pick(&[0, 26, 27, 31, 32, 63, 64, 1 << 32, LAST, frame]);
            }
            15 => token.generation = older.generation,
            16 => {
                let live = self.some_live(random).map(|live| live.generation);
                token.generation = live.unwrap_or(token.submission);
            }
            17 => token.submission = older.submission,
            18 => token.submission = token.submission.wrapping_add(1),
            _ => (token.generation, token.submission) = (token.submission, token.generation),
        }
        token
    }

    fn any_call(&mut self, random: &mut Random, seen: &mut Seen) {
        let clock = self.clock(random);
        if random.chance(self.style.cancels / 2) {
            return self.cancel(random, seen);
        }
        match random.below(24) {
            0..=2 => self.enqueue(random, seen),
            3..=5 => {
                self.lived(random, seen, PREPARE, &[&clock]);
            }
            6 => {
                let echo = self.echo(random);
                self.lived(random, seen, PRIORITIZED, &[&[echo], &clock]);
            }
            7..=9 => {
                if self.selected().is_none() && random.chance(60) {
                    self.lived(random, seen, PREPARE, &[&clock]);
                }
                let selected = self.selected();
                let token = self.token(random, selected);
                let forged = Forged::of(token, selected, &self.prepared);
                seen.forged(SUBMITTED, forged);
                self.lived(random, seen, SUBMITTED, &[&token_octets(token), &clock]);
            }
            10..=12 => {
                let flying = match self.flying.is_empty() {
                    true => None,
                    false => Some(random.pick(&self.flying)),
                };
                let token = self.token(random, flying);
                let forged = Forged::of(token, flying, &self.prepared);
                seen.forged(TRANSMITTED, forged);
                self.lived(random, seen, TRANSMITTED, &[&token_octets(token), &clock]);
            }
            13..=15 => self.status(random, seen),
            16 => self.interrupt(random, seen),
            17 => {
                self.lived(random, seen, REFRESH, &[&clock]);
            }
            18 => {
                self.lived(random, seen, SENDER_ADVANCE, &[&clock]);
            }
            19 | 20 => {
                self.lived(random, seen, POP_EVENT, &[]);
            }
            21 => self.cancel(random, seen),
            _ => self.query(random, seen),
        }
    }
    fn cancel(&mut self, random: &mut Random, seen: &mut Seen) {
        match random.below(12) {
            0 => self.lived(random, seen, CANCEL_ALL, &[]),
            1..=6 => {
                let identity = self.some_identity(random);
                self.lived(random, seen, CANCEL, &[&identity])
            }
            _ => {
                let live = self.some_live(random);
                let number = match random.below(8) {
                    0 => random.any_length(),
                    1 => live.map_or(0, |live| live.generation),
                    2 if !self.owners.is_empty() => random.pick(&self.owners),
                    _ => live.map_or(0, |live| live.owner),
                };
                self.lived(random, seen, CANCEL_TRANSACTION, &[&number.to_be_bytes()])
            }
        };
    }
    fn query(&mut self, random: &mut Random, seen: &mut Seen) {
        let echo = self.echo(random);
        let clock = self.clock(random);
        let identity = self.some_identity(random);
        let flying = match self.flying.is_empty() {
            true => None,
            false => Some(random.pick(&self.flying)),
        };
        let token = token_octets(self.token(random, flying));
        match random.below(8) {
            0 => self.lived(random, seen, CAN_ENQUEUE, &[&clock]),
            1 => self.lived(random, seen, HAS_ECHO, &[&[echo]]),
            2 => self.lived(random, seen, SUBMITTED_MESSAGE, &[&token]),
            3 => self.lived(random, seen, IDENTITY_FOR_ECHO, &[&[echo]]),
            4 => self.lived(random, seen, RADIO_ACTIVE, &[]),
            5 => self.lived(random, seen, READY, &[]),
            6 => self.lived(random, seen, CONTAINS, &[&identity]),
            _ => self.lived(random, seen, PENDING, &[]),
        };
    }
}
/// The operands of one operation, without a life around it.
fn operands(random: &mut Random, op: u8, script: &mut Vec<u8>) {
    let clock = clock_octets(random.below(80) as u64, random.below(80) as u64);
    let token = Token {
        generation: random.below(20) as u64,
        submission: random.below(20) as u64,
        frame: random.below(28) as u64,
    };
    let echo = random.octet() % 130;
    match op {
        SENDER => {
            let numbers = [
                random_capacity(random),
                0,
                random.below(3) as u64,
                lives::number(random),
            ];
            script.extend(numbers.map(u64::to_be_bytes).concat());
            script.push(random.octet());
        }
        LEND => {
            script.extend(pair(NEEDED_OCTETS - 1 + random.below(34)));
            script.extend(pair(NEEDED_WORDS - 1 + random.below(6)));
        }
        ENQUEUE => {
            script.extend(identity(random));
            script.push(random.pick(&[3, 4, 7, 5]));
            script.extend(random.octets::<8>());
            script.extend((random.below(1000) as u64).to_be_bytes());
            script.extend(pair(random.below(306)));
            script.extend(clock);
        }
        SUBMITTED | TRANSMITTED => {
            script.extend(token_octets(token));
            script.extend(clock);
        }
        SENDER_STATUS => {
            script.push(echo);
            script.extend(random.octets::<4>());
            script.extend(clock);
        }
        CAN_ENQUEUE | SENDER_ADVANCE | PREPARE | REFRESH => script.extend(clock),
        INTERRUPT | PRIORITIZED => {
            script.push(echo);
            script.extend(clock);
        }
        SUBMITTED_MESSAGE => script.extend(token_octets(token)),
        CANCEL | CONTAINS => script.extend(identity(random)),
        CANCEL_TRANSACTION => script.extend(token.generation.to_be_bytes()),
        HAS_ECHO | IDENTITY_FOR_ECHO | SENDER_TRANSFER => script.push(echo),
        SENDER_EVENT => script.extend(pair(random.below(4))),
        SENDER_ECHOES => script.push(random.octet() % 9),
        _ => {}
    }
}
/// This length, or another one.
fn near(random: &mut Random, length: usize) -> usize {
    let less = random.below(length);
    random.pick(&[length, length, length, length - 1, length + 1, less, 0])
}
/// A capacity that is none, mostly.
fn random_capacity(random: &mut Random) -> u64 {
    random.pick(&[0, 129, 256, 65536, 1 << 32, LAST, 1, 128])
}
fn limits(random: &mut Random, opening: Opening) -> Limits {
    if opening != Opening::Plain {
        // 64 enqueues and 64 submissions leave 513, 512 or 511.
        let first = LAST - random.pick(&[640, 641, 639, 1 << 40]);
        return Limits {
            capacity: 128,
            guard_ms: random.pick(&[0, 0, 1]),
            first_block: 0,
            first: match opening {
                Opening::Half => first,
                _ => random.below(1000) as u64,
            },
        };
    }
    let capacity = match random.below(8) {
        0..=4 => random.pick(&[1, 2, 3, 16, 128]),
        5 => 1 + random.below(128) as u64,
        _ => random.pick(&[16, 128]),
    };
    let guard_ms = match random.below(24) {
        0..=9 => 0,
        10..=12 => 1,
        13..=19 => random.pick(&[500, 5000]),
        20 => LAST - random.below(3000) as u64,
        21 => LAST - (1 << 40),
        22 if random.chance(20) => LAST,
        _ => random.any_length(),
    };
    let first_block = match random.below(24) {
        0..=19 => 0,
        20 => 3,
        21 | 22 => 40,
        _ => random.any_length(),
    };
    let first = match random.below(20) {
        0..=13 => random.below(1000) as u64,
        14 | 15 => random.any_length(),
        16 => LAST - random.pick(&[511, 512, 513, 530, 1, 0]),
        _ => LAST - random.pick(&[600, 577, 650, 900]),
    };
    Limits {
        capacity,
        guard_ms,
        first_block,
        first,
    }
}
/// Few identities are replaced often; many fill the list.
fn pool(random: &mut Random, capacity: usize) -> Vec<[u8; 9]> {
    let count = random.pick(&[2, capacity, capacity + 1, 2 * capacity]);
    let identity = |random: &mut Random| {
        let kind = random.octet() % 4;
        good_identity(random, kind)
    };
    (0..count).map(|_| identity(random)).collect()
}
fn number(octets: &[u8]) -> u64 {
    u64::from_be_bytes(*octets.first_chunk().expect("8 octets"))
}
fn token_at(octets: &[u8]) -> Token {
    Token {
        generation: number(octets),
        submission: number(&octets[8..]),
        frame: number(&octets[16..]),
    }
}
pub fn token_octets(token: Token) -> [u8; 24] {
    let mut octets = [0; 24];
    let numbers = [token.generation, token.submission, token.frame];
    for (octets, number) in octets.chunks_exact_mut(8).zip(numbers) {
        octets.copy_from_slice(&number.to_be_bytes());
    }
    octets
}
pub fn clock_octets(block: u64, now_ms: u64) -> [u8; 16] {
    (u128::from(block) << 64 | u128::from(now_ms)).to_be_bytes()
}
fn pair(value: usize) -> [u8; 2] {
    u16::try_from(value).expect("two octets").to_be_bytes()
}

#[cfg(test)]
mod tests {
    use super::*;
    use bts136::harness::script::sender::run_sender;

    #[test]
    fn lives_have_every_number_octet_every_kind_and_every_end() {
        let counts = run(1, 1000, Port::DRY).expect("the same twice");
        let rows = counts.sender_rows();
        assert_eq!(counter::missing(&rows), Vec::<String>::new());
    }
    #[test]
    fn a_life_is_lived_alike_again() {
        let mut random = Random(2);
        for _ in 0..20 {
            let life = Life::new(&mut random, &mut Seen::default());
            assert_eq!(life.compare(&mut random, run_sender), Ok(()));
        }
    }
    #[test]
    fn a_memory_that_is_left_otherwise_is_told() {
        /// The original, but for the last word that no sender needs.
        fn other(script: &[u8], answers: &mut [u8], octets: &mut [u8], words: &mut [u64]) -> usize {
            let length = run_sender(script, answers, octets, words);
            words[LENT_WORDS - 1] ^= 1;
            length
        }
        let mut random = Random(3);
        let life = Life::new(&mut random, &mut Seen::default());
        let difference = life.compare(&mut random, other).expect_err("a difference");
        assert!(difference.starts_with("word 3459 of the memory that is left"));
    }
}
