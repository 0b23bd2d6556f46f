//! The given timer and procedure compiled a second time, unchanged, inside the harness: so it sees their private state,
//! and makes up tokens and transmissions, as any caller of the port can.
use crate::link::{
    rach::MobileIdentity,
    spach::{SingleMessage, SpachError, arq::*},
};

pub mod inactivity {
    include!("../link/spach/arq/inactivity.rs");

    impl ArqInactivity {
        /// The number of the state and its block, 0 where it has none.
        pub fn state(&self) -> (u8, u64) {
            match self.state {
                State::Idle => (0, 0),
                State::Waiting { since_block } => (1, since_block),
                State::SendingUnsolicited => (2, 0),
                State::FinalWait { since_block } => (3, since_block),
            }
        }
        pub fn last_block(&self) -> u64 {
            self.last_block
        }
        pub fn unsolicited_pending(&self) -> bool {
            self.unsolicited_pending
        }
    }
    impl AsRef<ArqInactivity> for ArqInactivity {
        fn as_ref(&self) -> &ArqInactivity {
            self
        }
    }
    impl TransactionToken {
        pub fn numbered(number: u64) -> Self {
            Self(Arc::numbered((), number))
        }
        pub fn number(&self) -> u64 {
            Arc::number(&self.0)
        }
    }
}

pub mod procedure {
    include!("../link/spach/arq/procedure.rs");

    impl ArqProcedure {
        pub fn receiver(&self) -> &ArqReassembler {
            &self.receiver
        }
        /// The first step of `receive`.
        pub fn observe(&mut self, tdma_block: u64) -> Result<(), InactivityError> {
            self.inactivity.observe(tdma_block)
        }
    }
    impl AsRef<ArqInactivity> for ArqProcedure {
        fn as_ref(&self) -> &ArqInactivity {
            &self.inactivity
        }
    }
    impl StatusTransmission {
        pub fn new(
            request: StatusRequest,
            token: TransactionToken,
            unsolicited: bool,
            complete_at_poll: bool,
        ) -> Self {
            Self {
                request,
                token,
                kind: match unsolicited {
                    false => StatusKind::Solicited,
                    true => StatusKind::Unsolicited,
                },
                complete_at_poll,
            }
        }
        pub fn token(&self) -> &TransactionToken {
            &self.token
        }
        pub fn unsolicited(&self) -> bool {
            matches!(self.kind, StatusKind::Unsolicited)
        }
        pub fn complete_at_poll(&self) -> bool {
            self.complete_at_poll
        }
    }
}
