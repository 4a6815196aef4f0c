//! The rules of document 01, one by one. A number can come from several rules; here they are told apart, so that tests can count which of
//! them were met. Where several rules apply, the tag tells the first one it checked.

/// Makes the enum and, for each rule, its number and its name in words.
macro_rules! rules {
    ($($number:literal { $($rule:ident $words:literal,)+ })+) => {
        #[derive(Clone, Copy, Debug, PartialEq, Eq)]
        pub enum Rule {
            $($($rule,)+)+
        }

        impl Rule {
            pub const ALL: &'static [Rule] = &[$($(Rule::$rule,)+)+];

            pub const fn number(self) -> u8 {
                match self {
                    $($(Rule::$rule)|+ => $number,)+
                }
            }

            pub const fn words(self) -> &'static str {
                match self {
                    $($(Rule::$rule => $words,)+)+
                }
            }
        }
    };
}

impl Rule {
    /// Why a WRITE was refused: the rule's place in request E6's order. 0 for every rule that is none of its six (D69). BLOCK_LOCK_KEY is a
    /// key lock (D68).
    pub const fn reason(self) -> u8 {
        match self {
            Rule::WriteProtected => 1,
            Rule::RandomIdChange => 2,
            Rule::LockByte0 | Rule::LockByte1 => 3,
            Rule::LockByte2 | Rule::LockByte3 => 4,
            Rule::KeyLocksBlocked | Rule::DataProtKeyLocked | Rule::UidRetrKeyLocked => 5,
            Rule::ConfigurationLocked => 6,
            _ => 0,
        }
    }
}

rules! {
    0 {
        CarriedOut "carried out",
    }
    1 {
        Waiting "tag is WAITING",
    }
    2 {
        FrameShort "frame under 3 bytes",
        FrameLong "frame over 64 bytes",
        CrcWrong "CRC wrong",
    }
    3 {
        CodeUnknown "code unknown",
        ProofUnasked "AFh while not CHALLENGED",
        ProofExpected "another command than AFh while CHALLENGED",
    }
    4 {
        ReadLength "length of READ",
        FastReadLength "length of FAST_READ",
        WriteLength "length of WRITE",
        ReadCounterLength "length of READ_CNT",
        RaiseCounterLength "length of INCR_CNT",
        AuthenticateLength "length of AUTHENTICATE",
        ProofLength "length of AFh",
        HaltLength "length of HLTA",
    }
    5 {
        ReadPageHigh "READ from a page above 3Bh",
        FastReadOrder "FAST_READ with its start above its end",
        FastReadEndHigh "FAST_READ to a page above 3Bh",
        WritePageLow "WRITE to a page under 02h",
        WritePageHigh "WRITE to a page above 3Bh",
        ReadCounterNumber "READ_CNT of a counter above 2",
        RaiseCounterNumber "INCR_CNT of a counter above 2",
        KeyNumber "AUTHENTICATE with a key number above 2",
        HaltArgument "HLTA with another byte than 00h",
    }
    6 {
        ReadProtected "READ of a page at or above AUTH0 under PROT",
        FastReadProtected "FAST_READ of a page at or above AUTH0 under PROT",
        WriteProtected "WRITE to a page at or above AUTH0",
        RandomIdChange "WRITE that changes the Random ID bit in ACTIVE",
        ReadCounterClosed "READ_CNT of counter 2, CNT_RD_EN clear",
        RaiseCounterClosed "INCR_CNT of counter 2, CNT_INC_EN clear",
    }
    7 {
        LockByte0 "WRITE to 03h-07h, its bit of lock byte 0 set",
        LockByte1 "WRITE to 08h-0Fh, its bit of lock byte 1 set",
        LockByte2 "WRITE to 10h-1Fh, its pair's bit of lock byte 2 set",
        LockByte3 "WRITE to 20h-27h, its pair's bit of lock byte 3 set",
        ConfigurationLocked "WRITE to 29h or 2Ah under LOCK_USR_CFG",
        KeyLocksBlocked "WRITE to 2Dh under BLOCK_LOCK_KEY",
        DataProtKeyLocked "WRITE to 30h-33h under LOCK_AES_KEY0",
        UidRetrKeyLocked "WRITE to 34h-37h under LOCK_AES_KEY1",
    }
    8 {
        ProofFalseCounted "proof false, count raised",
        ProofFalse "proof false, AUTH_LIM 0",
    }
    9 {
        CounterPast "INCR_CNT past FFFFFFh",
    }
    10 {
        RecordLength "record buffer not 48 bytes",
        StoreLength "store not 240 bytes",
        ReplyLength "reply buffer under 242 bytes",
        RandomLength "random block not 16 bytes",
        ImageBufferLength "image buffer for writing under 271 bytes",
        CounterHigh "counter above FFFFFFh",
        FailedHigh "failed count above 1,023",
        StateUnknown "state that doesn't exist",
        KeptKeyNumber "CHALLENGED with a key number that doesn't exist",
    }
    11 {
        LimitAtPart1 "limit reached at part 1",
        LimitAtPart2 "limit reached at part 2",
    }
    12 {
        ImageShort "image under 271 bytes",
        ImageLong "image over 271 bytes",
        PagesCount "image, count of pages not 60",
        CountersCount "image, count of counters not 3",
        FailedCount "image, count of failed counts not 1",
        KeyCount "image, count of originality keys not 1",
        ImageFailedHigh "image, failed count above 1,023",
        CheckByte0 "BCC0 wrong",
        CheckByte1 "BCC1 wrong",
    }
}
