//! The instruction with which some bytes begin.

/// An instruction. What its format lacks is 0.
#[repr(C)]
#[derive(Clone, Copy, PartialEq, Eq, Debug, Default)]
pub struct Instruction {
    /// Its two, three or four hex digits as a number.
    pub opcode: u16,
    format: u8,
    length: u8,
    /// Numbers of registers, base and index among them, in the order of the format's operands.
    pub registers: [u8; 4],
    /// Masks and immediates of 8 bits, in that order too.
    pub masks: [u8; 3],
    /// The displacement in bytes.
    pub displacement: i32,
    /// A wider immediate, or the distance of a relative operand in bytes.
    pub immediate: i64,
}

impl Instruction {
    /// How many bytes it has: 2, 4 or 6.
    pub fn length(&self) -> usize {
        usize::from(self.length)
    }

    /// Its format.
    pub fn format(&self) -> Format {
        FORMATS[usize::from(self.format)]
    }
}

macro_rules! formats {
    ($($name:ident)*) => {
        /// The formats, by the manual's names (Principles of Operation, chapter 5). Where several have the same places, one
        /// name stands for them.
        #[allow(missing_docs)]
        #[derive(Clone, Copy, PartialEq, Eq, Debug)]
        pub enum Format { $($name),* }

        const FORMATS: &[Format] = &[$(Format::$name),*];
    };
}

formats! {
    E RiA RiB RiC RieA RieD RieF RieG RilA RilB RilC Rr Rre RrfAb RrfCde Rs Rsy Rx Rxy Si Sil Siy
    VriA VriB VriC VriK VrrA VrrB VrrC VrrD VrrE VrrF VrsA VrsB VrsC Vrx
}

extern "C" {
    fn s390x_decode(bytes: *const u8, length: usize, out: *mut Instruction) -> bool;
}

/// The instruction with which the bytes begin. `None` exactly where no machine row has these bytes, or there are fewer than
/// the instruction has.
///
/// ```
/// let ret = s390x_machine_layer::decode(&[0x07, 0xfe]).unwrap();
/// assert_eq!((ret.opcode, ret.length(), ret.registers), (0x07, 2, [15, 14, 0, 0]));
/// assert!(s390x_machine_layer::decode(&[0x07]).is_none());
/// ```
pub fn decode(bytes: &[u8]) -> Option<Instruction> {
    let mut out = Instruction::default();
    // A slice's pointer isn't null, and `out` is of this call alone.
    unsafe { s390x_decode(bytes.as_ptr(), bytes.len(), &mut out) }.then_some(out)
}

/// The instructions of some code, one behind the other, each with its offset. They end with the bytes, or at the first place
/// where no instruction stands.
///
/// ```
/// use s390x_machine_layer::Instructions;
/// let offsets: Vec<usize> = Instructions::new(&[0xb9, 0x04, 0x00, 0x23, 0x07, 0xfe]).map(|(offset, _)| offset).collect();
/// assert_eq!(offsets, [0, 4]);
/// ```
#[derive(Clone, Debug)]
pub struct Instructions<'a> {
    code: &'a [u8],
    offset: usize,
}

impl<'a> Instructions<'a> {
    /// Those of the code.
    pub fn new(code: &'a [u8]) -> Self {
        Instructions { code, offset: 0 }
    }

    /// How many bytes stand before the next one.
    pub fn offset(&self) -> usize {
        self.offset
    }
}

impl Iterator for Instructions<'_> {
    type Item = (usize, Instruction);

    fn next(&mut self) -> Option<Self::Item> {
        let at = self.offset;
        let found = decode(&self.code[at..])?;
        self.offset += found.length();
        Some((at, found))
    }
}
