//! What a caller gives and gets (document 01, Numbers a caller gets).

/// How a packet ended on its link.
#[derive(Clone, Copy, Debug, PartialEq, Eq)]
pub enum End {
    Eop,
    Eep,
}

/// The fate of a packet, its status if it was given one, and the length of the reply written.
#[derive(Clone, Copy, Debug, PartialEq, Eq)]
pub struct Answer {
    pub fate: u8,
    pub status: Option<u8>,
    pub reply: usize,
}

impl Answer {
    /// An answer with neither status nor reply.
    pub(crate) fn bare(fate: u8) -> Answer {
        Answer { fate, status: None, reply: 0 }
    }

    /// The answer for a command given `status`, with a reply of `reply` bytes, or 0 for none.
    pub(crate) fn with_status(status: u8, reply: usize) -> Answer {
        let fate = match (reply, status) {
            (0, status::OBEYED) => fate::OBEYED,
            (0, _) => fate::REFUSED,
            _ => fate::REPLIED,
        };
        Answer { fate, status: Some(status), reply }
    }
}

/// The numbers of document 01's first table.
pub mod fate {
    pub const TAKEN: u8 = 0;
    pub const UNUSABLE: u8 = 1;
    pub const NO_SUCH_LINK: u8 = 2;
    pub const REPLY_TOO_LONG: u8 = 3;
    pub const INCOMPLETE: u8 = 11;
    pub const UNKNOWN_PROTOCOL: u8 = 12;
    pub const EXTENDED_PROTOCOL: u8 = 13;
    pub const IS_A_REPLY: u8 = 14;
    pub const HEADER_CRC: u8 = 15;
    pub const TIME_THROWN_AWAY: u8 = 16;
    pub const REFUSED: u8 = 17;
    pub const OBEYED: u8 = 18;
    pub const TIME_TAKEN: u8 = 19;
    pub const REPLIED: u8 = 20;
}

/// The statuses of commands (document 01, Reading a packet and Fields).
pub mod status {
    pub const OBEYED: u8 = 0;
    pub const UNUSED: u8 = 2;
    pub const KEY: u8 = 3;
    pub const DATA_CRC: u8 = 4;
    pub const EARLY_EOP: u8 = 5;
    pub const TOO_MUCH_DATA: u8 = 6;
    pub const EEP: u8 = 7;
    pub const VERIFY_OVERRUN: u8 = 9;
    pub const NOT_AUTHORISED: u8 = 10;
    pub const RMW_LENGTH: u8 = 11;
    pub const LOGICAL_ADDRESS: u8 = 12;
    pub const NOT_THE_OWNER: u8 = 0xF0;
    pub const NO_SUCH_FIELD: u8 = 0xF1;
    pub const READ_ONLY: u8 = 0xF2;
    pub const SWAP_ONLY: u8 = 0xF3;
}
