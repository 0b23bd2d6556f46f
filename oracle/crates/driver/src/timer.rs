//! A timer as TIMER_STATE and PROCEDURE_STATE show it.
use bts136::harness::script::ANSWERED;

#[derive(Clone, Copy, Default, PartialEq, Eq)]
pub enum State {
    #[default]
    Idle,
    Waiting,
    SendingUnsolicited,
    FinalWait,
}
#[derive(Default)]
pub struct Timer {
    pub state: State,
    pub since: u64,
    pub last_block: u64,
    pub pending: bool,
    pub token: u64,
    pub next: u64,
}
impl Timer {
    /// Of an answer; `None` if there is no timer.
    pub fn of(answer: &[u8]) -> Option<Self> {
        if answer[0] != ANSWERED {
            return None;
        }
        let word = |at: usize| u64::from_be_bytes(*answer[at..].first_chunk().expect("a timer"));
        let states = [
            State::Idle,
            State::Waiting,
            State::SendingUnsolicited,
            State::FinalWait,
        ];
        Some(Self {
            state: states[usize::from(answer[1])],
            since: word(2),
            last_block: word(10),
            pending: answer[18] == 1,
            token: word(19),
            next: word(27),
        })
    }
    /// How many tokens are left.
    pub fn left(&self) -> u64 {
        u64::MAX - self.next
    }
}
