//! Records: a log's length in 4 bytes, low byte first, then the log.

use crate::random::make_log;
use std::io::{self, BufWriter, Read, Write};

/// Makes the logs of a seed and writes them as records.
pub fn write_made(seed: u64, count: u64, output: impl Write) -> io::Result<()> {
    let mut output = BufWriter::new(output);
    for index in 0..count {
        let log = make_log(seed, index);
        output.write_all(&(log.len() as u32).to_le_bytes())?;
        output.write_all(&log)?;
    }
    output.flush()
}

/// The next record's log, `None` at the end; a cut record is an error.
pub fn read_record(input: &mut impl Read) -> io::Result<Option<Vec<u8>>> {
    let mut length = Vec::new();
    input.take(4).read_to_end(&mut length)?;
    if length.is_empty() {
        return Ok(None);
    }
    let cut = || io::Error::new(io::ErrorKind::UnexpectedEof, "a record is cut short");
    if length.len() < 4 {
        return Err(cut());
    }
    let wanted = u32::from_le_bytes([length[0], length[1], length[2], length[3]]);
    let mut log = Vec::new();
    input.take(u64::from(wanted)).read_to_end(&mut log)?;
    if log.len() < wanted as usize {
        return Err(cut());
    }
    Ok(Some(log))
}

#[cfg(test)]
mod tests {
    use super::*;

    #[test]
    fn records_come_back() {
        let mut bytes = Vec::new();
        write_made(3, 20, &mut bytes).unwrap();
        let mut input = &bytes[..];
        for index in 0..20 {
            let log = read_record(&mut input).unwrap();
            assert_eq!(log, Some(make_log(3, index)));
        }
        assert_eq!(read_record(&mut input).unwrap(), None);
    }

    #[test]
    fn cut_records_are_errors() {
        assert!(read_record(&mut &[1, 0, 0][..]).is_err());
        assert!(read_record(&mut &[2, 0, 0, 0, 9][..]).is_err());
    }
}
