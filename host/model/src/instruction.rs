//! The instruction byte of a command (document 01, Reading a packet).

/// What a command code asks for.
#[derive(Clone, Copy, Debug, PartialEq, Eq)]
pub enum Kind {
    Read,
    Write,
    Rmw,
    Unused,
}

/// The kinds of the sixteen command codes, bits 5 to 2 of the instruction.
const KINDS: [Kind; 16] = {
    use Kind::{Read, Rmw, Unused, Write};
    [
        Unused, Unused, Read, Read, Unused, Unused, Unused, Rmw, //
        Write, Write, Write, Write, Write, Write, Write, Write,
    ]
};

/// An instruction byte as received.
#[derive(Clone, Copy, Debug, PartialEq, Eq)]
pub struct Instruction(pub u8);

impl Instruction {
    const TYPE: u8 = 0b1100_0000;
    const TYPE_REPLY: u8 = 0b0000_0000;
    const TYPE_COMMAND: u8 = 0b0100_0000;
    const WRITE: u8 = 0b0010_0000;
    const VERIFY: u8 = 0b0001_0000;
    const REPLY: u8 = 0b0000_1000;
    const INCREMENTING: u8 = 0b0000_0100;
    const REPLY_ADDRESS: u8 = 0b0000_0011;

    pub fn is_reply(self) -> bool {
        self.0 & Self::TYPE == Self::TYPE_REPLY
    }

    pub fn is_command(self) -> bool {
        self.0 & Self::TYPE == Self::TYPE_COMMAND
    }

    /// The command code, whatever the type says.
    pub fn code(self) -> u8 {
        (self.0 >> 2) & 0b1111
    }

    pub fn kind(self) -> Kind {
        KINDS[usize::from(self.code())]
    }

    pub fn has_write_bit(self) -> bool {
        self.0 & Self::WRITE != 0
    }

    pub fn verifies(self) -> bool {
        self.0 & Self::VERIFY != 0
    }

    pub fn wants_reply(self) -> bool {
        self.0 & Self::REPLY != 0
    }

    pub fn is_incrementing(self) -> bool {
        self.0 & Self::INCREMENTING != 0
    }

    /// The bytes the reply address takes: 4r.
    pub fn reply_address_size(self) -> usize {
        4 * usize::from(self.0 & Self::REPLY_ADDRESS)
    }

    pub fn header_size(self) -> usize {
        16 + self.reply_address_size()
    }

    /// The instruction of this command's reply: all bits kept but the type.
    pub fn reply_form(self) -> u8 {
        self.0 & !Self::TYPE
    }
}
