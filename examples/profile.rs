//! profile FILE [TAG]: reads the table of an ICC profile, lets the profile go, and looks colours up. TAG is the name of the tag that has
//! the table; without it that is A2B1, or A2B0 where there is no A2B1.
//! Where the table stands in the file is this program's own reading, which it checks; what stands there the library checks.
use std::ffi::{OsStr, OsString};
use std::io::{self, ErrorKind, Read, Write};
use std::{fmt, fs, process::ExitCode};
use tenahvar::{lookup, read_clut, read_units, Grid, Refusal};

/// Why there are no colours: a refusal of the library, or a complaint about the file.
enum Failure {
    Refused(Refusal),
    Complaint(&'static str),
}

impl From<Refusal> for Failure {
    fn from(refusal: Refusal) -> Failure {
        Failure::Refused(refusal)
    }
}

impl From<&'static str> for Failure {
    fn from(complaint: &'static str) -> Failure {
        Failure::Complaint(complaint)
    }
}

impl fmt::Display for Failure {
    fn fmt(&self, f: &mut fmt::Formatter<'_>) -> fmt::Result {
        match self {
            Failure::Refused(refusal) => write!(f, "refused {}: {refusal}", refusal.number()),
            Failure::Complaint(complaint) => f.write_str(complaint),
        }
    }
}

/// A CLUT as it stands in a tag, for a grid. A CLUT element has a header of its own, which says the precision, the bytes of a value.
struct Clut<'a> {
    grid: Grid,
    precision: Option<usize>,
    data: &'a [u8],
}

/// The types of tags that have a CLUT: how long the part is that each such tag begins with, and the precision, as above.
const KINDS: [(&[u8; 4], usize, Option<usize>); 4] = [
    (b"mAB ", 32, None),
    (b"mBA ", 32, None),
    (b"mft1", 48, Some(1)),
    (b"mft2", 52, Some(2)),
];

/// `length` bytes from an offset on, where they are all there.
fn within(whole: &[u8], offset: usize, length: usize) -> Option<&[u8]> {
    whole.get(offset..)?.get(..length)
}

/// The `length` bytes at an offset as a number, the first counting most. They are there.
fn number(bytes: &[u8], offset: usize, length: usize) -> usize {
    let places = &bytes[offset..offset + length];
    places.iter().fold(0, |v, &b| v << 8 | b as usize)
}

/// The entries of the tag table, 12 bytes each. Before it stand a header of 128 bytes, the profile's length first, and the count of tags.
fn tags_of(profile: &[u8]) -> Result<&[u8], &'static str> {
    if profile.len() < 132 {
        return Err("the file is too short for a profile");
    }
    if !profile[36..].starts_with(b"acsp") {
        return Err("this is no ICC profile");
    }
    if number(profile, 0, 4) > profile.len() {
        return Err("the profile is cut off");
    }
    within(profile, 132, 12 * number(profile, 128, 4)).ok_or("the tag table is cut off")
}

/// The tag that is named, or else A2B1, or else A2B0. Its entry has its name, offset and size.
fn find_tag<'a>(profile: &'a [u8], named: Option<&[u8]>) -> Result<&'a [u8], &'static str> {
    let tags = tags_of(profile)?;
    let entry_of = |name| tags.chunks(12).find(|entry| entry.starts_with(name));
    let entry = match named {
        Some(name) => entry_of(name).ok_or("there is no such tag")?,
        None => entry_of(b"A2B1")
            .or_else(|| entry_of(b"A2B0"))
            .ok_or("there is no tag A2B1 and no A2B0")?,
    };
    within(profile, number(entry, 4, 4), number(entry, 8, 4)).ok_or("the tag is not in the file")
}

/// The CLUT element of a lutAToBType or lutBToAType: bytes 24 to 27 say where it starts. It is lent with all that follows in the tag.
fn find_element(tag: &[u8], n: usize, m: usize) -> Result<Clut<'_>, &'static str> {
    let offset = number(tag, 24, 4);
    if offset == 0 {
        return Err("the tag has no CLUT");
    }
    let data = tag.get(offset..).ok_or("the CLUT is not in the tag")?;
    let sizes = data.first_chunk().copied().unwrap_or([0; 16]);
    Ok(Clut {
        grid: Grid { sizes, n, m },
        precision: None,
        data,
    })
}

/// The values of a lut8Type or lut16Type: they follow the input tables, one for each ink, of 256 values in a lut8Type and in a lut16Type of
/// as many as bytes 48 and 49 say. Byte 10 is the size of every ink. The values are lent with all that follows in the tag.
fn find_values(tag: &[u8], header: usize, precision: usize, n: usize, m: usize) -> Clut<'_> {
    let each = match precision {
        1 => 256,
        _ => number(tag, 48, 2),
    };
    Clut {
        grid: Grid::new(tag[10], n, m),
        precision: Some(precision),
        data: tag.get(header + n * each * precision..).unwrap_or(&[]),
    }
}

/// The CLUT of a tag. The tag's first four bytes are its type, bytes 8 and 9 the counts of inks in and out.
fn find_clut(tag: &[u8]) -> Result<Clut<'_>, &'static str> {
    let kind = KINDS.iter().find(|(name, ..)| tag.starts_with(*name));
    let &(_, header, precision) = kind.ok_or("the tag's type is not mAB, mBA, mft1 or mft2")?;
    if tag.len() < header {
        return Err("the tag is too short for its type");
    }
    let (n, m) = (tag[8] as usize, tag[9] as usize);
    match precision {
        None => find_element(tag, n, m),
        Some(precision) => Ok(find_values(tag, header, precision, n, m)),
    }
}

/// Reads the table of a CLUT. Where the sizes are refused, or there is not a byte for each entry, no room is made; reading is then refused
/// as well, and for that reason, as it looks at the room last.
fn read_table(clut: &Clut) -> Result<(Grid, Vec<f32>), Failure> {
    let total = clut.grid.total();
    let there = |&total: &usize| total <= clut.data.len();
    let room = total.ok().filter(there).unwrap_or(0);
    let mut entries = Vec::new();
    let reserved = entries.try_reserve_exact(room);
    reserved.map_err(|_| "no memory for the table")?;
    entries.resize(room, 0.0);
    let Some(precision) = clut.precision else {
        let grid = read_clut(clut.data, clut.grid.n, clut.grid.m, &mut entries)?;
        return Ok((grid, entries));
    };
    read_units(clut.data, precision, total?, &mut entries)?;
    Ok((clut.grid, entries))
}

/// What a file cannot be read for.
fn reason(error: io::Error) -> &'static str {
    match error.kind() {
        ErrorKind::NotFound => "no such file",
        ErrorKind::PermissionDenied => "no permission to read it",
        _ => "the file cannot be read",
    }
}

/// A whole file. What is no regular file is not opened: opening a pipe could wait for ever.
fn read_file(name: &OsStr) -> Result<Vec<u8>, &'static str> {
    let about = fs::metadata(name).map_err(reason)?;
    if about.is_dir() {
        return Err("this is a directory");
    }
    if !about.is_file() {
        return Err("this is no regular file");
    }
    let size = u32::try_from(about.len());
    let size = size.map_err(|_| "the file is larger than a profile can be")?;
    let file = fs::File::open(name).map_err(reason)?;
    let mut bytes = Vec::new();
    let reserved = bytes.try_reserve_exact(size as usize);
    reserved.map_err(|_| "no memory for the file")?;
    let read = file.take(size.into()).read_to_end(&mut bytes);
    read.map_err(|_| "the file cannot be read")?;
    Ok(bytes)
}

/// One colour as text: its inks, then the outputs.
fn shown(grid: &Grid, entries: &[f32], inks: &[f32]) -> Result<String, Refusal> {
    let mut answer = vec![0.0; grid.m];
    lookup(grid, entries, inks, &mut answer)?;
    let inks: String = inks.iter().map(|x| format!(" {x:.2}")).collect();
    let answer: String = answer.iter().map(|x| format!(" {x:.4}")).collect();
    Ok(format!("inks{inks} give{answer}\n"))
}

/// Prints four colours: paper, the first ink alone, all inks in full, and a tenth of the first, two of the second and so on.
fn show_colours(grid: &Grid, entries: &[f32]) -> Result<(), Failure> {
    let (n, m, total) = (grid.n, grid.m, entries.len());
    let mut text = format!("{n} inks in, {m} out, {total} entries\n");
    text += "curves and matrix around the CLUT are not applied\n";
    let first = |i| if i == 0 { 1.0 } else { 0.0 };
    let colours: [&dyn Fn(usize) -> f32; 4] =
        [&|_| 0.0, &first, &|_| 1.0, &|i| (i + 1) as f32 / 10.0];
    for colour in colours {
        let inks: Vec<f32> = (0..n).map(colour).collect();
        text += &shown(grid, entries, &inks)?;
    }
    let written = io::stdout().write_all(text.as_bytes());
    Ok(written.map_err(|_| "the colours cannot be written")?)
}

/// The colours of a profile in a file.
fn colours(name: &OsStr, tag: Option<&OsString>) -> Result<(), Failure> {
    let profile = read_file(name)?;
    let tag = find_tag(&profile, tag.map(|tag| tag.as_encoded_bytes()))?;
    let (grid, entries) = read_table(&find_clut(tag)?)?;
    drop(profile);
    show_colours(&grid, &entries)
}

/// Says what is wrong with something that has a name.
fn complain(name: &OsStr, complaint: impl fmt::Display) {
    let text = format!(": {complaint}\n");
    // Where that cannot be said, the status says it.
    let _ = io::stderr().write_all(&[name.as_encoded_bytes(), text.as_bytes()].concat());
}

/// The program, for the words after its name. Status 1 where the file gives no colours, 2 where the command line asks for none.
pub fn run(words: &[OsString]) -> u8 {
    let (name, tag) = match words {
        [name] => (name, None),
        [name, tag] => (name, Some(tag)),
        _ => {
            complain(OsStr::new("usage"), "profile FILE [TAG]");
            return 2;
        }
    };
    if let Some(tag) = tag.filter(|tag| tag.len() != 4) {
        complain(tag, "a tag's name has four characters");
        return 2;
    }
    match colours(name, tag) {
        Ok(()) => 0,
        Err(failure) => {
            complain(name, failure);
            1
        }
    }
}

fn main() -> ExitCode {
    let words: Vec<OsString> = std::env::args_os().skip(1).collect();
    ExitCode::from(run(&words))
}
