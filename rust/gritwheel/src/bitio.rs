//! The bit reader: vrf-bitio/src/lib.rs.

use crate::error::{Error, Result};
use crate::ffi::{self, Answer, Window};

/// A cursor over borrowed bits, lowest first in each byte. Sub-readers are views; a window may start and end mid-byte.
///
/// A refused read leaves the reader where the Rust's does: [`Error::Eof`] at the position that it names,
/// [`Error::MalformedIntPacked`] and [`Error::IntPackedOverflow`] forty bits past the number's start, the others unmoved.
///
/// ```
/// use gritwheel::BitReader;
///
/// let mut reader = BitReader::new(&[0x06, 0b101])?;
/// assert_eq!(reader.read_int_packed()?, 3);
/// assert!(reader.read_bit()?);
/// let mut next = reader.sub_reader(2)?;
/// assert_eq!(next.read_bits(2)?, 0b10);
/// assert_eq!((reader.position(), reader.bits_remaining()), (11, 5));
/// # Ok::<(), gritwheel::Error>(())
/// ```
#[derive(Debug, Clone)]
pub struct BitReader<'a> {
    data: &'a [u8],
    window: Window,
}

impl<'a> BitReader<'a> {
    /// Over every bit of `data`. Refuses data above 67,108,864 bytes (7).
    pub fn new(data: &'a [u8]) -> Result<Self> {
        Self::opened(data, ffi::new(data))
    }

    /// Over the first `bit_len` bits of `data`. Refuses 7, and 5 where there aren't so many.
    ///
    /// ```
    /// use gritwheel::{BitReader, Error};
    ///
    /// let refused = BitReader::with_bit_len(&[0, 0], 17).unwrap_err();
    /// assert_eq!(refused, Error::InvalidBitLength { requested: 17, available: 16 });
    /// ```
    pub fn with_bit_len(data: &'a [u8], bit_len: u64) -> Result<Self> {
        Self::opened(data, ffi::with_bit_len(data, bit_len))
    }

    fn opened(data: &'a [u8], answer: Answer) -> Result<Self> {
        Error::check(&answer)?;
        Ok(Self::over(data, left(&answer)))
    }

    /// A window that the library answered for this data.
    pub(crate) fn over(data: &'a [u8], window: Window) -> Self {
        Self { data, window }
    }

    pub(crate) fn data(&self) -> &'a [u8] {
        self.data
    }

    pub(crate) fn window(&self) -> Window {
        self.window
    }

    pub(crate) fn set_window(&mut self, window: Window) {
        self.window = window;
    }

    /// The window's first bit, counted from the data's first: of a bunch's payload, from the packet's.
    #[must_use]
    pub fn start_bit(&self) -> u64 {
        self.window.start
    }

    /// Bits consumed so far.
    #[must_use]
    pub fn position(&self) -> u64 {
        ffi::position(self.window)
    }

    /// The window's bits.
    #[must_use]
    pub fn len_bits(&self) -> u64 {
        ffi::len_bits(self.window)
    }

    /// Bits left to read.
    #[must_use]
    pub fn bits_remaining(&self) -> u64 {
        let answer = ffi::bits_remaining(self.window);
        // It refuses a cursor past its window alone, and the library leaves none there.
        Error::check(&answer).expect("a window that the library left");
        answer[1]
    }

    /// Whether all is consumed.
    #[must_use]
    pub fn at_end(&self) -> bool {
        ffi::at_end(self.window)
    }

    /// Goes on from the answer's window, and hands out the value's words.
    fn go(&mut self, answer: Answer) -> Result<[u64; 3]> {
        self.window = left(&answer);
        Error::check(&answer)?;
        Ok([answer[1], answer[2], answer[3]])
    }

    /// One bit.
    pub fn read_bit(&mut self) -> Result<bool> {
        Ok(self.go(ffi::read_bit(self.data, self.window))?[0] != 0)
    }

    /// `count` bits, the first lowest. 0 reads nothing, even at the end; above 64 is refusal 6.
    pub fn read_bits(&mut self, count: u32) -> Result<u64> {
        Ok(self.go(ffi::read_bits(self.data, self.window, count))?[0])
    }

    /// 8 bits.
    pub fn read_u8(&mut self) -> Result<u8> {
        Ok(self.go(ffi::read_u8(self.data, self.window))?[0] as u8)
    }

    /// 16 bits.
    pub fn read_u16(&mut self) -> Result<u16> {
        Ok(self.go(ffi::read_u16(self.data, self.window))?[0] as u16)
    }

    /// 32 bits.
    pub fn read_u32(&mut self) -> Result<u32> {
        Ok(self.go(ffi::read_u32(self.data, self.window))?[0] as u32)
    }

    /// 32 bits as a signed number.
    pub fn read_i32(&mut self) -> Result<i32> {
        Ok(self.go(ffi::read_i32(self.data, self.window))?[0] as u32 as i32)
    }

    /// 64 bits.
    pub fn read_u64(&mut self) -> Result<u64> {
        Ok(self.go(ffi::read_u64(self.data, self.window))?[0])
    }

    /// An IEEE-754 single; a NaN keeps its bits.
    pub fn read_f32(&mut self) -> Result<f32> {
        let (value, answer) = ffi::read_f32(self.data, self.window);
        let [no_number, bits, _] = self.go(answer)?;
        Ok(if no_number == 0 { value } else { f32::from_bits(bits as u32) })
    }

    /// An IEEE-754 double; a NaN keeps its bits.
    pub fn read_f64(&mut self) -> Result<f64> {
        let (value, answer) = ffi::read_f64(self.data, self.window);
        let [no_number, bits, _] = self.go(answer)?;
        Ok(if no_number == 0 { value } else { f64::from_bits(bits) })
    }

    /// A packed number: seven value bits a byte, at most five bytes. Refuses 1, 2, 3.
    pub fn read_int_packed(&mut self) -> Result<u32> {
        Ok(self.go(ffi::read_int_packed(self.data, self.window))?[0] as u32)
    }

    /// A serialized number: as many bits as its maximum and its value ask for. Refuses 4, 1.
    ///
    /// ```
    /// let mut reader = gritwheel::BitReader::new(&[0b110])?;
    /// assert_eq!(reader.read_serialized_int(3)?, 2); // bits 0, 1
    /// assert_eq!(reader.read_serialized_int(3)?, 1); // bit 1
    /// assert_eq!(reader.position(), 3);
    /// # Ok::<(), gritwheel::Error>(())
    /// ```
    pub fn read_serialized_int(&mut self, max: u32) -> Result<u32> {
        Ok(self.go(ffi::read_serialized_int(self.data, self.window, max))?[0] as u32)
    }

    /// Copies `count` bits into `dst`, the last byte's spare bits 0; no later byte is touched. Refuses 5 where `dst` is
    /// short, then 1; nothing is written then.
    pub fn copy_bits_to(&mut self, dst: &mut [u8], count: u64) -> Result<()> {
        self.go(ffi::copy_bits_to(self.data, self.window, dst, count))?;
        Ok(())
    }

    /// The rest of the window as bytes of its own, the last one's spare bits 0. (The Rust copies into a buffer of the caller's.)
    ///
    /// ```
    /// let mut reader = gritwheel::BitReader::with_bit_len(&[0xff, 0xff], 13)?;
    /// reader.skip_bits(3)?;
    /// assert_eq!(reader.copy_remaining()?, [0xff, 0b11]);
    /// assert!(reader.at_end());
    /// # Ok::<(), gritwheel::Error>(())
    /// ```
    pub fn copy_remaining(&mut self) -> Result<Vec<u8>> {
        let count = self.bits_remaining();
        // At most the data's bytes.
        let mut bytes = vec![0; count.div_ceil(8) as usize];
        self.copy_bits_to(&mut bytes, count)?;
        Ok(bytes)
    }

    /// A view over the next `count` bits; moves past them.
    pub fn sub_reader(&mut self, count: u64) -> Result<BitReader<'a>> {
        let [start, position, length] = self.go(ffi::sub_reader(self.data, self.window, count))?;
        Ok(Self::over(self.data, Window { start, position, length }))
    }

    /// Past `count` bits.
    pub fn skip_bits(&mut self, count: u64) -> Result<()> {
        self.go(ffi::skip_bits(self.data, self.window, count))?;
        Ok(())
    }

    /// Past all that is left.
    pub fn skip_remaining(&mut self) {
        // It refuses a window outside its data alone, and the library leaves none there.
        self.go(ffi::skip_remaining(self.data, self.window)).expect("a window that the library left");
    }
}

/// The window afterwards, which stands in an answer's words 4 to 6.
pub(crate) fn left<const N: usize>(answer: &[u64; N]) -> Window {
    Window { start: answer[4], position: answer[5], length: answer[6] }
}
