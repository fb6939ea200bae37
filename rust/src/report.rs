//! The report on received words.
//!
//! Its input is lines, each a word in 17 hexadecimal digits of lower case, the first digit's high bit s0; its output is text: a heading, a line for each line
//! of the input, numbered from 1 on, and a closing line with the counts of lines and of refused lines.

use crate::call;
use crate::packets::count_of;
use crate::refusal::Refusal;
use crate::sys::{SaltReader, SaltTpsWord, SaltUnpacked, SALT_CLOSE_ROOM, SALT_HEADING_BYTES, SALT_LINE_ROOM};
use crate::words::{codes_of, mended_word_of, word_of, Mended, TpsWord};

/// The bytes of the heading.
pub const HEADING_BYTES: usize = SALT_HEADING_BYTES;
/// Room in bytes for every line of the report.
pub const LINE_ROOM: usize = SALT_LINE_ROOM;
/// Room in bytes for the report's end.
pub const CLOSE_ROOM: usize = SALT_CLOSE_ROOM;

/// The bytes of input that [`Reader::feed`] takes at once.
const PIECE: usize = 64;

/// The word that a line says, given without its newline, with up to two wrong bits mended; s0 is ignored. Refusals: [`Refusal::BadLine`],
/// [`Refusal::NoWord`], then [`Refusal::Reserved`].
///
/// ```
/// use saltkernel::report::read_line;
/// use saltkernel::Refusal;
///
/// assert_eq!(read_line(b"00000000000000001")?.cell_id, 0);
/// assert_eq!(read_line(b"0000000000000000"), Err(Refusal::BadLine));
/// # Ok::<(), Refusal>(())
/// ```
pub fn read_line(line: &[u8]) -> Result<TpsWord, Refusal> {
    word_of(call::read_line(line))
}

/// [`read_line`], and the bits of s1 to s67 that were mended: the answer that [`put_line`] writes.
///
/// ```
/// use saltkernel::report::{put_line, read_line_mended, LINE_ROOM};
///
/// let answer = read_line_mended(b"00000000000000001");
/// assert_eq!(answer?.1.places(), [66]);
/// let mut line = [0; LINE_ROOM];
/// let length = put_line(7, answer, &mut line)?;
/// assert_eq!(&line[..length], b"7 0 4 1/2 1/32 00 1\n");
/// # Ok::<(), saltkernel::Refusal>(())
/// ```
pub fn read_line_mended(line: &[u8]) -> Result<(TpsWord, Mended), Refusal> {
    mended_word_of(call::read_line(line))
}

/// Writes the heading to a lent output; gives 41, or [`Refusal::OutputShort`].
pub fn put_heading(out: &mut [u8]) -> Result<usize, Refusal> {
    count_of(call::put_heading(out))
}

/// Writes the report's line for a line's number and its answer to a lent output of at least [`LINE_ROOM`] bytes; gives the bytes written, or
/// [`Refusal::OutputShort`].
pub fn put_line(number: u64, answer: Result<(TpsWord, Mended), Refusal>, out: &mut [u8]) -> Result<usize, Refusal> {
    const NO_WORD: SaltTpsWord = SaltTpsWord { frame_number: 0, constellation: 0, code_rate_hp: 0, guard: 0, cell_id: 0 };
    let (refusal, word, [mended, first, second]) = match answer {
        Ok((word, mended)) => (0, codes_of(word), mended.numbers()),
        Err(refusal) => (refusal.number(), NO_WORD, Mended::default().numbers()),
    };
    count_of(call::put_line(number, SaltUnpacked { number: refusal, word, mended, first, second }, out))
}

/// The reader of an input that comes in parts. In whatever parts it comes, the report is the same.
///
/// ```
/// use saltkernel::report::{put_heading, Reader, HEADING_BYTES};
///
/// let mut report = vec![0; HEADING_BYTES];
/// put_heading(&mut report)?;
/// let mut reader = Reader::new();
/// report.extend(reader.feed(b"0000000000000"));
/// report.extend(reader.feed(b"0000\nno word"));
/// report.extend(reader.close());
/// assert_eq!(report, b"line frame points rate guard cell mended\n1 0 4 1/2 1/32 00 0\n2 refused 9\nread 2 refused 1\n");
/// # Ok::<(), saltkernel::Refusal>(())
/// ```
#[derive(Clone, Debug)]
pub struct Reader {
    state: SaltReader,
    decoder: Decoder,
}

/// The decoder by which the words of a report are read; the report is the same.
#[derive(Clone, Copy, Debug, Default, PartialEq, Eq, Hash)]
pub enum Decoder {
    /// By the field's algebra.
    #[default]
    Fast,
    /// By trying the bits as they are, each single change and each pair.
    Slow,
}

impl Default for Reader {
    fn default() -> Self {
        Self::new()
    }
}

impl Reader {
    /// A reader at the start of the input.
    pub fn new() -> Self {
        Self::by(Decoder::Fast)
    }

    /// A reader at the start of the input, by either decoder.
    ///
    /// ```
    /// use saltkernel::report::{Decoder, Reader};
    ///
    /// let [fast, slow] = [Decoder::Fast, Decoder::Slow].map(|decoder| Reader::by(decoder).feed(b"00000000000000001\n"));
    /// assert_eq!((&fast, fast.as_slice()), (&slow, &b"1 0 4 1/2 1/32 00 1\n"[..]));
    /// ```
    pub fn by(decoder: Decoder) -> Self {
        Self { state: call::reader_new(), decoder }
    }

    /// Takes a part of the input, and gives the report's lines for the lines that end in it.
    pub fn feed(&mut self, part: &[u8]) -> Vec<u8> {
        let (mut lines, mut out) = (Vec::new(), [0; PIECE * LINE_ROOM]);
        for piece in part.chunks(PIECE) {
            let count = self.feed_into(piece, &mut out).expect("the output is as long as needed");
            lines.extend_from_slice(&out[..count]);
        }
        lines
    }

    /// [`feed`](Self::feed) into a lent output of at least [`LINE_ROOM`] bytes for each of the part; gives the bytes written, or [`Refusal::OutputShort`].
    pub fn feed_into(&mut self, part: &[u8], out: &mut [u8]) -> Result<usize, Refusal> {
        let fed = match self.decoder {
            Decoder::Fast => call::reader_feed(self.state, part, out),
            Decoder::Slow => call::reader_feed_slow(self.state, part, out),
        };
        self.state = fed.reader;
        count_of(fed.answer)
    }

    /// Ends the input: gives the report's line for a line that is open there, and the closing line.
    pub fn close(&self) -> Vec<u8> {
        let mut out = vec![0; CLOSE_ROOM];
        let count = self.close_into(&mut out).expect("the output is as long as needed");
        out.truncate(count);
        out
    }

    /// [`close`](Self::close) into a lent output of at least [`CLOSE_ROOM`] bytes; gives the bytes written, or [`Refusal::OutputShort`].
    pub fn close_into(&self, out: &mut [u8]) -> Result<usize, Refusal> {
        count_of(match self.decoder {
            Decoder::Fast => call::reader_close(self.state, out),
            Decoder::Slow => call::reader_close_slow(self.state, out),
        })
    }
}
