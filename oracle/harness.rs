// The Rust side of the comparison. The items of the Rust source come, word for word, from the files that ORACLE_ITEMS holds;
// what they lean on and the source tree lacks is put here in its smallest form. calls.rs runs them on the vectors; built with
// `--cfg combine`, `--cfg methylation` or `--cfg line`, the program is that folder's program.rs.
#![allow(dead_code, unused_imports, unexpected_cfgs)]

mod anyhow {
    pub type Result<T> = std::result::Result<T, String>;

    macro_rules! bail {
        ($($words:tt)*) => { return Err(format!($($words)*)) };
    }
    pub(crate) use bail;
}

mod fgumi_dna {
    pub const MIN_PHRED: u8 = 2;
    pub const NO_CALL_BASE: u8 = b'N';
    pub const NO_CALL_BASE_LOWER: u8 = b'n';
}

mod fgumi_sam {
    pub enum SamTag {
        MI,
    }
    pub type SimplifiedCigar = ();
}

mod fgumi_raw_bam {
    use crate::fgumi_sam::SamTag;

    pub mod flags {
        pub const PAIRED: u16 = 0x1;
        pub const UNMAPPED: u16 = 0x4;
        pub const MATE_UNMAPPED: u16 = 0x8;
        pub const REVERSE: u16 = 0x10;
        pub const FIRST_SEGMENT: u16 = 0x40;
        pub const LAST_SEGMENT: u16 = 0x80;
    }

    // A read: its number in the list, its flags, and its MI or none.
    pub struct RawRecord {
        pub number: usize,
        pub flags: u16,
        pub mi: Option<Vec<u8>>,
    }

    pub struct RawRecordView<'a>(&'a RawRecord);

    impl<'a> RawRecordView<'a> {
        pub fn new(record: &'a RawRecord) -> Self {
            Self(record)
        }
        pub fn flags(&self) -> u16 {
            self.0.flags
        }
        pub fn read_name(&self) -> &'a [u8] {
            b"read"
        }
        pub fn tags(&self) -> Self {
            Self(self.0)
        }
        pub fn find_string(&self, _: SamTag) -> Option<&'a [u8]> {
            self.0.mi.as_deref()
        }
    }
}

macro_rules! items {
    ($file:literal) => {
        include!(concat!(env!("ORACLE_ITEMS"), "/", $file));
    };
}

items!("lib.rs");

mod phred {
    pub use crate::fgumi_dna::{MIN_PHRED, NO_CALL_BASE, NO_CALL_BASE_LOWER};
    items!("phred.rs");
}

mod caller {
    items!("caller.rs");
}

mod methylation {
    use crate::fgumi_raw_bam::flags;
    use crate::vanilla_caller::SourceRead;
    items!("methylation.rs");
}

mod no_calls {
    include!("no_calls.rs");
}

mod order {
    include!("order.rs");
}

mod vanilla_caller {
    use crate::fgumi_sam::SimplifiedCigar;
    use crate::phred::{MIN_PHRED, NO_CALL_BASE_LOWER};
    items!("vanilla_caller.rs");
}

mod duplex_caller {
    use crate::anyhow::{self, Result, bail};
    use crate::caller::{clamp_combined_error_to_fgbio_short, clamp_per_base_to_fgbio_short};
    use crate::fgumi_raw_bam::{RawRecord, RawRecordView, flags};
    use crate::fgumi_sam::SamTag;
    use crate::methylation::ConversionPattern;
    use crate::phred::{MAX_PHRED, MIN_PHRED};
    use crate::vanilla_caller::{ReadType, SourceRead, VanillaConsensusRead};

    // It has the fields of no caller: the functions that are taken have no self.
    pub struct DuplexConsensusCaller;

    items!("duplex_caller.rs");

    // Below this module, so that it sees what is private here.
    pub mod program {
        #[cfg(not(any(calls, combine, methylation, line)))]
        include!("calls.rs");
        #[cfg(calls)]
        include!("calls/program.rs");
        #[cfg(combine)]
        include!("combine/program.rs");
        #[cfg(line)]
        include!("line/program.rs");
        #[cfg(methylation)]
        include!("methylation/program.rs");
    }
}

fn main() {
    duplex_caller::program::main();
}
