//! Images of DiskCopy 4.2: a header of 84 bytes, the 512 data bytes of all blocks, then
//! the tags of all blocks. Numbers have their high byte first.
//!
//! | byte | what it is |
//! |---|---|
//! | 0 | the length of the name, 63 at most; the name stands behind it |
//! | 64 to 67 | how many bytes of data there are |
//! | 68 to 71 | how many bytes of tags there are |
//! | 72 to 75 | the checksum of the data |
//! | 76 to 79 | the checksum of the tags without their first 12 bytes |
//! | 80, 81 | encoding and format of a floppy, which a hard disk has not |
//! | 82, 83 | 01 00 |

use crate::show;

/// Length of the header.
pub const HEADER: usize = 84;

/// Data bytes of a block.
pub const DATA_BYTES: usize = 512;

/// Tag bytes of a drive's block.
pub const TAG_BYTES: usize = 20;

/// Tag bytes of a floppy's block.
const FLOPPY_TAG_BYTES: usize = 12;

/// The longest name.
const NAME: usize = 63;

/// What stands at the end of the header.
const MAGIC: [u8; 2] = [1, 0];

/// Encoding and format, for which a hard disk has no numbers.
const NO_FLOPPY: [u8; 2] = [0xFF, 0xFF];

/// The tags' checksum leaves out so many bytes.
const LEFT_OUT: usize = 12;

/// Holds an image whose sizes are right.
#[derive(Clone, Copy, Debug, PartialEq, Eq)]
pub struct DiskCopy<'a> {
    name: &'a [u8],
    pub data: &'a [u8],
    pub tags: &'a [u8],
    /// The checksums of the header: the data's and the tags'.
    sums: [u32; 2],
}

/// Reads an image. Returns nothing if the file is none of this kind; else the image, or
/// what is wrong with it.
pub fn read(bytes: &[u8]) -> Option<Result<DiskCopy<'_>, String>> {
    let (header, rest) = bytes.split_first_chunk::<HEADER>()?;
    let [data, tags] = [64, 68].map(|place| number(header, place) as usize);
    let marked = header[82..] == MAGIC;
    let fits = data > 0 && data.checked_add(tags) == Some(rest.len());
    let sized = fits && data.is_multiple_of(DATA_BYTES);
    if !marked && !sized {
        return None;
    }
    let judged = judged(header, data, tags, rest.len());
    Some(judged.map(|()| DiskCopy {
        name: &header[1..1 + usize::from(header[0])],
        data: &rest[..data],
        tags: &rest[data..],
        sums: [72, 76].map(|place| number(header, place)),
    }))
}

/// Says what is wrong with a header and the number of bytes behind it, if something is.
fn judged(header: &[u8; HEADER], data: usize, tags: usize, rest: usize) -> Result<(), String> {
    let blocks = data / DATA_BYTES;
    let fault = if header[82..] != MAGIC {
        let [high, low] = [header[82], header[83]];
        format!("bytes 82 and 83 are {high:02X} {low:02X} and not 01 00")
    } else if usize::from(header[0]) > NAME {
        format!("its name has {} bytes, and {NAME} is the most", header[0])
    } else if data as u64 + tags as u64 != rest as u64 {
        let all = HEADER as u64 + data as u64 + tags as u64;
        let has = HEADER + rest;
        let said = format!("its header says {data} bytes of data and {tags} of tags");
        format!("{said}, which makes {all} in all, and the file has {has}")
    } else if blocks == 0 || !data.is_multiple_of(DATA_BYTES) {
        format!("its {data} bytes of data are no blocks of {DATA_BYTES}")
    } else if tags == blocks * FLOPPY_TAG_BYTES {
        let drive = format!("a drive's block has {TAG_BYTES}");
        format!("each block has {FLOPPY_TAG_BYTES} tag bytes, as a floppy's has, and {drive}")
    } else if tags != 0 && tags != blocks * TAG_BYTES {
        format!("its {tags} bytes of tags are not {TAG_BYTES} for each of {blocks} blocks")
    } else {
        return Ok(());
    };
    Err(fault)
}

/// Reads a number of four bytes at a place of the header.
fn number(header: &[u8; HEADER], place: usize) -> u32 {
    let bytes = header[place..].first_chunk().expect("four bytes");
    u32::from_be_bytes(*bytes)
}

impl DiskCopy<'_> {
    /// Counts the blocks.
    pub fn blocks(&self) -> usize {
        self.data.len() / DATA_BYTES
    }

    /// Says what the image is.
    pub fn words(&self) -> String {
        let name = self.name.escape_ascii();
        let tags = match self.tags.len() {
            0 => String::from("without tags"),
            _ => format!("with tags of {TAG_BYTES}"),
        };
        let blocks = show::count(self.blocks() as u64, "block", "blocks");
        format!("a DiskCopy 4.2 image \"{name}\" of {blocks} of {DATA_BYTES} bytes {tags}")
    }

    /// Says which checksums are wrong.
    pub fn wrong_sums(&self) -> Vec<String> {
        let data = ("data", self.sums[0], self.data);
        let tags = ("tags", self.sums[1], without_first(self.tags));
        let parts = [data, tags].into_iter();
        parts
            .filter(|(_, told, bytes)| *told != checksum(bytes))
            .map(|(name, told, bytes)| {
                let sum = checksum(bytes);
                format!(
                    "the header has the checksum {told:08X} for its {name}, which have {sum:08X}"
                )
            })
            .collect()
    }
}

/// Writes an image.
pub fn write(name: &str, data: &[u8], tags: &[u8]) -> Vec<u8> {
    let name = pascal(name);
    let length = |bytes: &[u8]| u32::try_from(bytes.len()).expect("less than 4 GB");
    let numbers = [
        length(data),
        length(tags),
        checksum(data),
        checksum(without_first(tags)),
    ];
    let mut bytes = name.to_vec();
    bytes.extend(numbers.into_iter().flat_map(u32::to_be_bytes));
    bytes.extend(NO_FLOPPY.into_iter().chain(MAGIC));
    bytes.extend_from_slice(data);
    bytes.extend_from_slice(tags);
    bytes
}

/// Puts a name into 64 bytes behind its length: its first 63 characters, with `_` for each
/// that is no ASCII.
fn pascal(name: &str) -> [u8; NAME + 1] {
    let mut bytes = [0; NAME + 1];
    let ascii = name.chars().map(|one| match one.is_ascii() {
        true => one as u8,
        false => b'_',
    });
    let mut length = 0;
    for (place, one) in bytes[1..].iter_mut().zip(ascii) {
        *place = one;
        length += 1;
    }
    bytes[0] = length;
    bytes
}

/// Leaves out what the tags' checksum leaves out.
fn without_first(tags: &[u8]) -> &[u8] {
    tags.get(LEFT_OUT..).unwrap_or_default()
}

/// Sums the words of 16 bits up in 32, and turns the sum right by a bit after each.
fn checksum(bytes: &[u8]) -> u32 {
    let words = bytes.chunks_exact(2);
    words.fold(0, |sum: u32, word| {
        let word = u16::from_be_bytes([word[0], word[1]]);
        sum.wrapping_add(u32::from(word)).rotate_right(1)
    })
}

#[cfg(test)]
mod tests {
    use super::*;

    /// Makes an image of two blocks with these tags.
    fn image(tags: &[u8]) -> Vec<u8> {
        let data: Vec<u8> = (0..2 * DATA_BYTES).map(|at| (at % 251) as u8).collect();
        write("Shop", &data, tags)
    }

    fn fault(bytes: &[u8]) -> String {
        let found = read(bytes).expect("an image of this kind");
        found.expect_err("a fault")
    }

    #[test]
    fn sums_by_hand() {
        assert_eq!(checksum(&[]), 0);
        assert_eq!(checksum(&[0, 1]), 0x8000_0000);
        assert_eq!(checksum(&[0, 1, 0, 1]), 0xC000_0000);
        assert_eq!(checksum(&[0x12, 0x34, 0, 2]), 0x48E);
        // Sixteen ones give FFFF0000, FFFF makes it FFFFFFFF, and one more leaves 32 bits.
        let ones = [0, 1].repeat(16);
        assert_eq!(checksum(&ones), 0xFFFF_0000);
        assert_eq!(checksum(&[&ones[..], &[0xFF; 2]].concat()), 0xFFFF_FFFF);
        assert_eq!(checksum(&[&ones[..], &[0xFF; 4]].concat()), 0x7FFF);
    }

    #[test]
    fn written_and_read() {
        for (tags, words) in [
            (vec![], "without tags"),
            (vec![7; 2 * TAG_BYTES], "with tags of 20"),
        ] {
            let bytes = image(&tags);
            assert_eq!(bytes.len(), 84 + 1024 + tags.len());
            assert_eq!(bytes[..6], [4, b'S', b'h', b'o', b'p', 0]);
            assert_eq!(bytes[64..68], [0, 0, 4, 0]);
            assert_eq!(bytes[68..72], [0, 0, 0, tags.len() as u8]);
            assert_eq!(bytes[82..84], [1, 0]);
            let found = read(&bytes).expect("of this kind").expect("an image");
            assert_eq!((found.blocks(), found.tags), (2, &tags[..]));
            assert_eq!(found.data[..], bytes[84..84 + 1024]);
            let what = "a DiskCopy 4.2 image \"Shop\" of 2 blocks of 512 bytes";
            assert_eq!(found.words(), format!("{what} {words}"));
            assert_eq!(found.wrong_sums(), [""; 0]);
        }
    }

    #[test]
    fn the_sum_of_the_tags_leaves_out_the_first_12_bytes() {
        let (mut tags, same) = ([7; 40], image(&[7; 40]));
        tags[11] = 8;
        assert_eq!(image(&tags)[72..80], same[72..80]);
        tags[12] = 8;
        assert_eq!(image(&tags)[72..76], same[72..76]);
        assert_ne!(image(&tags)[76..80], same[76..80]);
    }

    #[test]
    fn wrong_sums_are_told() {
        let mut bytes = image(&[7; 40]);
        bytes[84] ^= 1;
        let sums = |bytes: &[u8]| read(bytes).expect("one").expect("sizes").wrong_sums();
        let told = sums(&bytes);
        assert_eq!(told.len(), 1);
        let data = u32::from_be_bytes([bytes[72], bytes[73], bytes[74], bytes[75]]);
        let start = format!("the header has the checksum {data:08X} for its data, which have ");
        assert!(told[0].starts_with(&start), "{told:?}");
        bytes[84 + 1024 + 12] ^= 1;
        assert!(sums(&bytes)[1].contains(" for its tags, which have "));
        // Without tags their sum is 0.
        let mut bytes = image(&[]);
        bytes[79] = 1;
        let words = "the header has the checksum 00000001 for its tags, which have 00000000";
        assert_eq!(sums(&bytes), [words]);
    }

    #[test]
    fn broken_headers_are_told() {
        let good = image(&[7; 40]);
        let changed = |place: usize, byte: u8| {
            let mut bytes = good.clone();
            bytes[place] = byte;
            bytes
        };
        for (bytes, words) in [
            (
                good[..good.len() - 1].to_vec(),
                "its header says 1024 bytes of data and 40 of tags, which makes 1148 in all, and \
                 the file has 1147",
            ),
            (
                changed(64, 0xFF),
                "its header says 4278191104 bytes of data and 40 of tags, which makes 4278191228 \
                 in all, and the file has 1148",
            ),
            (changed(82, 2), "bytes 82 and 83 are 02 00 and not 01 00"),
            (changed(83, 1), "bytes 82 and 83 are 01 01 and not 01 00"),
            (changed(0, 64), "its name has 64 bytes, and 63 is the most"),
        ] {
            assert_eq!(fault(&bytes), words);
        }
    }

    #[test]
    fn other_blocks_and_tags_are_told() {
        let no_blocks = "bytes of data are no blocks of 512";
        for (bytes, words) in [
            (write("x", &[0; 500], &[]), format!("its 500 {no_blocks}")),
            (write("x", &[], &[]), format!("its 0 {no_blocks}")),
            (
                image(&[0; 24]),
                String::from(
                    "each block has 12 tag bytes, as a floppy's has, and a drive's block has 20",
                ),
            ),
            (
                image(&[0; 38]),
                String::from("its 38 bytes of tags are not 20 for each of 2 blocks"),
            ),
        ] {
            assert_eq!(fault(&bytes), words);
        }
    }

    #[test]
    fn another_file_is_none() {
        let good = image(&[]);
        assert_eq!(read(&[]), None);
        assert_eq!(read(&good[..83]), None);
        assert_eq!(read(&[0; 2000]), None);
        // Neither the mark nor the sizes.
        let mut other = good.clone();
        other[82] = 2;
        other.push(0);
        assert_eq!(read(&other), None);
    }

    #[test]
    fn names_that_do_not_fit() {
        let long = "x".repeat(70);
        let bytes = write(&long, &[0; 512], &[]);
        assert_eq!((bytes[0], bytes[63], bytes[64]), (63, b'x', 0));
        let bytes = write("Käse \"1\"", &[0; 512], &[]);
        let found = read(&bytes).expect("of this kind").expect("an image");
        assert!(found.words().contains(r#" "K_se \"1\"" of "#));
    }
}
