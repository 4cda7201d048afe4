//! What a font tells of each glyph: charset, FDSelect, Encoding.

use super::{MALFORMED, Reader, Step, number, refuse};

impl Reader<'_> {
    pub(super) fn charset(&mut self, at: u64, glyphs: usize) -> Step<Vec<u16>> {
        const PART: &str = "charset";
        self.mark(at);
        let format = self.bytes_at(at, 1, PART, "format ends early")?[0];
        let mut at = at + 1;
        // Glyph 0 stands in no charset.
        let mut ids = vec![0u16];
        match format {
            0 => {
                self.note("charset format 0");
                while ids.len() < glyphs {
                    ids.push(number(self.bytes_at(at, 2, PART, "format 0 ends early")?) as u16);
                    at += 2;
                }
            }
            1 | 2 => {
                let fault = ["format 1 ends early", "format 2 ends early"][usize::from(format) - 1];
                self.note(["charset format 1", "charset format 2"][usize::from(format) - 1]);
                while ids.len() < glyphs {
                    let first = number(self.bytes_at(at, 2, PART, fault)?);
                    let left = number(self.bytes_at(at + 2, u64::from(format), PART, fault)?);
                    at += 2 + u64::from(format);
                    let wanted = (glyphs - ids.len()) as u64;
                    if left + 1 > wanted {
                        self.note("charset range past the glyphs");
                        if first + left > 65535 {
                            self.note("charset range past 65535 in no glyph");
                        }
                    }
                    for id in first..first + wanted.min(left + 1) {
                        match u16::try_from(id) {
                            Ok(id) => ids.push(id),
                            Err(_) => {
                                return refuse(MALFORMED, PART, "id above 65535", at as usize);
                            }
                        }
                    }
                }
            }
            _ => return refuse(MALFORMED, PART, "format", at as usize - 1),
        }
        Ok(ids)
    }

    /// The highest FD that an FDSelect gives a glyph; a glyph in no range has FD 0.
    pub(super) fn highest_fd(&mut self, at: u64, glyphs: usize) -> Step<usize> {
        const PART: &str = "FDSelect";
        self.mark(at);
        let format = self.bytes_at(at, 1, PART, "format ends early")?[0];
        let mut at = at + 1;
        let mut highest = 0;
        match format {
            0 => {
                for &fd in self.bytes_at(at, glyphs as u64, PART, "format 0 ends early")? {
                    highest = highest.max(fd);
                }
                self.note("FDSelect format 0");
            }
            3 => {
                let ranges = number(self.bytes_at(at, 2, PART, "format 3 ends early")?);
                let mut first = number(self.bytes_at(at + 2, 2, PART, "format 3 ends early")?);
                at += 4;
                self.note("FDSelect format 3");
                if ranges == 0 {
                    self.note("FDSelect of no range");
                }
                if first > 0 {
                    self.note("FDSelect that leaves out the first glyphs");
                }
                for _ in 0..ranges {
                    let fd = self.bytes_at(at, 1, PART, "format 3 ends early")?[0];
                    let next = number(self.bytes_at(at + 1, 2, PART, "format 3 ends early")?);
                    at += 3;
                    if next < first {
                        return refuse(MALFORMED, PART, "ranges fall", at as usize);
                    }
                    if first < next && first < glyphs as u64 {
                        highest = highest.max(fd);
                    } else {
                        self.note("FDSelect range without a glyph");
                    }
                    first = next;
                }
                if first < glyphs as u64 {
                    self.note("FDSelect that leaves out the last glyphs");
                }
            }
            _ => return refuse(MALFORMED, PART, "format", at as usize - 1),
        }
        Ok(usize::from(highest))
    }

    /// A custom Encoding is there as a whole.
    pub(super) fn encoding(&mut self, at: u64) -> Step<()> {
        const PART: &str = "Encoding";
        self.mark(at);
        let format = self.bytes_at(at, 1, PART, "format ends early")?[0];
        let mut at = at + 1;
        let unit = match format & 0x7f {
            0 => 1,
            1 => 2,
            _ => return refuse(MALFORMED, PART, "format", at as usize - 1),
        };
        self.note(["Encoding format 0", "Encoding format 1"][unit as usize - 1]);
        let n = u64::from(self.bytes_at(at, 1, PART, "codes end early")?[0]);
        self.bytes_at(at + 1, n * unit, PART, "codes end early")?;
        at += 1 + n * unit;
        if format & 0x80 != 0 {
            self.note("Encoding with supplements");
            let n = u64::from(self.bytes_at(at, 1, PART, "supplements end early")?[0]);
            self.bytes_at(at + 1, n * 3, PART, "supplements end early")?;
        }
        Ok(())
    }
}
