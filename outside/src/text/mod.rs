//! A readable notation for jobs, its assembler and the listing back.
//!
//! Statements stand on lines of their own or are parted by `;`. `#` starts a comment. Blanks may stand around `=`, `,`, `*`
//! and `:` and in brackets.
//!
//! - `header low` or `header high`, with a class other than 1.1 as `2.1` and text after `;` in quotation marks.
//! - `BeginPage Orientation=0 MediaSize=3`: an operator, its attributes in order, `data=0102` last.
//!   Values: `5`, `(x,y)`, `(x1,y1,x2,y2)`, `"text"`, `[1,2,0*8]`, each with `:type` where not the default and,
//!   for an array, `:wide` for a length in two bytes. `Name/2=` gives the attribute number two bytes.
//!   `data/4=` gives the data a length of four bytes where one would do.
//!   `=5` is a value alone, `@Name` a number alone, `~20` white space, `|` the place of the tag.
//! - Types are ubyte, uint16, uint32, sint16, sint32 and real32. Where none is named, numbers are of the first of ubyte, uint16,
//!   sint16, uint32 and sint32 that holds them all; of UnitsPerMeasure and DestinationSize, not ubyte; of an array, ubyte. With a
//!   point or an exponent, as `(1.5,-2e3)`, or as `inf`, a number is a real32, and so are those beside it; `0x` and digits give
//!   the bits of one.
//! - Text is UTF-8; `\xNN` is one byte, and `\"` and `\\` are what they say.
//! - `items Measure=0`: attributes without an operator. `hex c0 00 f8 00*16`: bytes as they are.
//! - `motif "wave" split=16,4 { header low; PushGS; PopGS }`: BeginStream, the body as ReadStream data, EndStream.
//! - `repeat 10 { .. }`, and `NAME arg ..` for a text given to the assembler, with `$1`, `$2` replaced.
//! - `^` in front of anything marks its first byte (of an operator its tag, of a motif its EndStream).

mod assemble;
mod list;
mod names;
mod values;
mod words;

pub use assemble::{assemble, assemble_job, assemble_with, Assembled, Macros};
pub use list::{list, list_with_places, read_header, read_statement, Piece, Statement};
pub use names::{attribute_name, operator_name, ATTRIBUTES, OPERATORS};
pub use values::{hex, number_width, put_attribute, put_data, put_number, put_value, Value};
pub use words::{Fault, Spot};

#[cfg(test)]
mod tests {
    use super::*;

    fn stable(text: &str) -> Vec<u8> {
        let bytes = assemble(text).unwrap();
        let listed = list(&bytes);
        assert_eq!(assemble(&listed).unwrap(), bytes, "{listed}");
        assert_eq!(list(&assemble(&listed).unwrap()), listed);
        bytes
    }

    #[test]
    fn smallest_job() {
        let bytes = stable("header low; BeginSession Measure=0 UnitsPerMeasure=(600,600); EndSession");
        let mut want = b") HP-PCL XL;1;1\n".to_vec();
        want.extend([0xc0, 0, 0xf8, 0x86, 0xd1, 0x58, 2, 0x58, 2, 0xf8, 0x89, 0x41, 0x42]);
        assert_eq!(bytes, want);
    }

    #[test]
    fn high_byte_first() {
        let bytes = stable("header high \"note; x\"; SetPenWidth PenWidth/2=300");
        assert_eq!(&bytes[..24], b"( HP-PCL XL;1;1;note; x\n");
        assert_eq!(bytes[24..], [0xc1, 1, 0x2c, 0xf9, 0, 75, 0x7a]);
    }

    #[test]
    fn values_keep_type_and_width() {
        stable(
            "header low\nComment CommentData=\"a \\\"b\\\" \\\\\" ~0d0a CommentData=[] CommentData=\"x\":wide\n\
             SetCursor Point=(1,2) Point=(1,2):sint16 Point=(-1,2) Point=(1.5,2):real32 Point=(1,70000)\n\
             op:45 a200=5:uint32 a9999=-5:sint32 a7=[1,2,0*9]:uint16 =7 ~20 @Measure\n\
             Rectangle BoundingBox=(1,2,3,-4)\n~20*9\n",
        );
    }

    #[test]
    fn motif_blocks() {
        let bytes = stable("header high; motif \"ab\" split=5,10 { header low; SetPenWidth PenWidth=300; PushGS }");
        let listed = list(&bytes);
        assert!(listed.contains("motif \"ab\" split=5,10 {"), "{listed}");
        // A motif whose stream is not written as a block would be stays as it is.
        let odd =
            stable("header low; BeginStream StreamName=\"q\" ~20; ReadStream StreamDataLength=1 data=00; EndStream");
        assert!(list(&odd).contains("ReadStream"));
    }

    #[test]
    fn data_and_places() {
        let bytes =
            stable("header low; LinePath NumberOfPoints=1 PointType=0 ~20 | ~09 data/4=0102; ReadStream data=00*300");
        assert_eq!(bytes[16..34], [0xc0, 1, 0xf8, 77, 0xc0, 0, 0xf8, 80, 0x20, 0x9b, 9, 0xfa, 2, 0, 0, 0, 1, 2]);
    }

    #[test]
    fn every_string_of_bytes_reads_back() {
        let base =
            assemble("header low; BeginSession Measure=0; motif \"a\" { header high; PushGS }; LinePath data=01")
                .unwrap();
        for cut in 0..=base.len() {
            assert_eq!(assemble(&list(&base[..cut])).unwrap(), &base[..cut]);
        }
        for at in 0..base.len() {
            for byte in [0, 0x20, 0x41, 0xc0, 0xc8, 0xf8, 0xfb, 0xff] {
                let mut job = base.clone();
                job[at] = byte;
                assert_eq!(assemble(&list(&job)).unwrap(), job);
            }
        }
    }
}
