//! Stand-in for the executor: what copy.rs, types.rs and the cut items of
//! trace_builder.rs name of it.

pub mod vm {
    pub mod instruction {
        /// types.rs imports these four names and, as published, uses none.
        pub mod decoding {
            pub struct ArithOp;
            pub struct Comparison;
            pub struct Instruction;
            pub struct LoadStoreWidth;
        }

        pub mod execution {
            /// The ecall numbers -30 and -31 that copy.rs's header names. Only bus
            /// interactions use them, which document 01 leaves out.
            pub const DMA_MEMCPY_SYSCALL_NUMBER: u64 = 30u64.wrapping_neg();
            pub const DMA_MEMSET_SYSCALL_NUMBER: u64 = 31u64.wrapping_neg();

            /// A mark, not a gap. The original has a constant here where document 01
            /// has a parameter. copy.rs uses it only as the argument of
            /// `AddOperand::constant`, and the stand-in of that function puts the
            /// gap that was asked for in place of this value. No gap below 2^32 and
            /// no other constant of copy.rs is 2^63.
            pub const DMA_MEMSET_GAP: u64 = 1 << 63;

            /// From one edge to the next.
            const PAGE: u64 = 4096;

            /// Whether the eight bytes from here on lie on both sides of an edge. 2^64 is
            /// one too.
            fn crosses(start: u64) -> bool {
                start / PAGE != start.wrapping_add(7) / PAGE
            }

            /// Document 02, request 4: 8 if 8 or more bytes remain and neither the row's
            /// source bytes nor, unless it is a Write, its destination bytes lie on both
            /// sides of a multiple of 4,096; else 1.
            pub fn copy_row_width(
                src: u64,
                dst: u64,
                offset: u64,
                remaining: u64,
                is_write: bool,
            ) -> u8 {
                let crosses = crosses(src.wrapping_add(offset))
                    || (!is_write && crosses(dst.wrapping_add(offset)));
                if remaining >= 8 && !crosses { 8 } else { 1 }
            }
        }
    }
}
