//! Stand-in for the part of `object` that is used: the PT_ numbers, of the ELF specification and its GNU extensions.

pub trait Wrap {
    type Inner;
    fn into_inner(self) -> Self::Inner;
}

#[derive(Clone, Copy)]
pub struct SegmentType(u32);

impl Wrap for SegmentType {
    type Inner = u32;
    fn into_inner(self) -> u32 {
        self.0
    }
}

pub mod elf {
    use super::SegmentType;

    pub const PT_NULL: SegmentType = SegmentType(0);
    pub const PT_LOAD: SegmentType = SegmentType(1);
    pub const PT_DYNAMIC: SegmentType = SegmentType(2);
    pub const PT_INTERP: SegmentType = SegmentType(3);
    pub const PT_NOTE: SegmentType = SegmentType(4);
    pub const PT_SHLIB: SegmentType = SegmentType(5);
    pub const PT_PHDR: SegmentType = SegmentType(6);
    pub const PT_TLS: SegmentType = SegmentType(7);
    pub const PT_GNU_EH_FRAME: SegmentType = SegmentType(0x6474e550);
    pub const PT_GNU_STACK: SegmentType = SegmentType(0x6474e551);
    pub const PT_GNU_RELRO: SegmentType = SegmentType(0x6474e552);
    pub const PT_GNU_PROPERTY: SegmentType = SegmentType(0x6474e553);
    pub const PT_GNU_SFRAME: SegmentType = SegmentType(0x6474e554);
}
