//! Reach records: document 01, 'Reach record'.

/// The bytes of a row.
const ROW: usize = 10;

/// A row of a reach record: what an interpreter of the kept glyphs met.
#[derive(Clone, Copy, Debug, PartialEq, Eq, PartialOrd, Ord, Hash)]
pub enum Row {
    /// A local subroutine that is called.
    Local {
        /// Its font dictionary, 0 in a name-keyed font.
        fd: u8,
        /// Its number among the local subroutines of that dictionary.
        number: u16,
    },
    /// A global subroutine that is called.
    Global {
        /// Its number.
        number: u16,
    },
    /// The mask of a hintmask or cntrmask in a glyph.
    GlyphMask {
        /// The glyph's number.
        glyph: u16,
        /// The operator's offset in its charstring.
        offset: u32,
        /// The mask's length in bytes.
        length: u16,
    },
    /// The same in a local subroutine.
    LocalMask {
        /// As in `Local`.
        fd: u8,
        /// As in `Local`.
        number: u16,
        /// The operator's offset in the subroutine.
        offset: u32,
        /// The mask's length in bytes.
        length: u16,
    },
    /// The same in a global subroutine.
    GlobalMask {
        /// Its number.
        number: u16,
        /// The operator's offset in the subroutine.
        offset: u32,
        /// The mask's length in bytes.
        length: u16,
    },
}

impl Row {
    /// Kind, FD, number, offset, length.
    fn fields(self) -> (u8, u8, u16, u32, u16) {
        match self {
            Row::Local { fd, number } => (0, fd, number, 0, 0),
            Row::Global { number } => (1, 0, number, 0, 0),
            Row::GlyphMask {
                glyph,
                offset,
                length,
            } => (2, 0, glyph, offset, length),
            Row::LocalMask {
                fd,
                number,
                offset,
                length,
            } => (3, fd, number, offset, length),
            Row::GlobalMask {
                number,
                offset,
                length,
            } => (4, 0, number, offset, length),
        }
    }

    /// The ten bytes of the row.
    pub fn bytes(self) -> [u8; ROW] {
        let (kind, fd, number, offset, length) = self.fields();
        let mut out = [0; ROW];
        out[0] = kind;
        out[1] = fd;
        out[2..4].copy_from_slice(&number.to_be_bytes());
        out[4..8].copy_from_slice(&offset.to_be_bytes());
        out[8..].copy_from_slice(&length.to_be_bytes());
        out
    }
}

/// What is known of the subroutines that the kept glyphs reach.
#[derive(Clone, Debug, PartialEq, Eq)]
pub struct Record {
    bytes: Vec<u8>,
    traced: bool,
}

impl Record {
    /// Nothing is known: every subroutine is copied.
    pub fn untraced() -> Record {
        Record {
            bytes: Vec::new(),
            traced: false,
        }
    }

    /// The rows that the kept glyphs meet, in any order; they are put in rising order, each once.
    pub fn traced(rows: impl IntoIterator<Item = Row>) -> Record {
        let mut rows: Vec<Row> = rows.into_iter().collect();
        rows.sort_unstable();
        rows.dedup();
        let bytes = rows.into_iter().flat_map(Row::bytes).collect();
        Record {
            bytes,
            traced: true,
        }
    }

    /// A record as another program wrote it, ten bytes a row. It is checked when it is used; whole rows are put in rising
    /// order, in which they are searched, and which changes no answer.
    pub fn from_bytes(mut bytes: Vec<u8>) -> Record {
        if bytes.len() % ROW == 0 && !bytes.chunks(ROW).is_sorted() {
            let mut rows: Vec<&[u8]> = bytes.chunks(ROW).collect();
            rows.sort_unstable();
            bytes = rows.concat();
        }
        Record {
            bytes,
            traced: true,
        }
    }

    /// What tracing answered: its rows rise already.
    pub(crate) fn answered(flag: bool, bytes: Vec<u8>) -> Record {
        Record {
            bytes,
            traced: flag,
        }
    }

    /// The rows' bytes.
    pub fn bytes(&self) -> &[u8] {
        &self.bytes
    }

    /// Whether the glyphs were traced.
    pub fn is_traced(&self) -> bool {
        self.traced
    }
}
