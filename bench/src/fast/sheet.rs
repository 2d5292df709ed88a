//! Rules 1 to 10: a sheet, and what its expressions read.

use super::circular::is_circular;

/// At [s][q] the offsets at which output s reads output q: 1 earlier, 2 now, 4 later, added up.
pub type OutputReads = [[u8; 7]; 7];

/// An accepted sheet. Its expressions stay where they are.
#[derive(Clone)]
pub struct Sheet<'a> {
    pub inputs: usize,
    pub outputs: usize,
    /// The number of an output.
    pub assumption: Option<usize>,
    expressions: [&'a [u8]; 7],
    /// The streams that some expression reads one round earlier.
    pub earlier: usize,
    pub output_reads: OutputReads,
}

impl<'a> Sheet<'a> {
    /// Reads and checks a sheet; else the number of the refusal.
    pub fn accept(bytes: &'a [u8]) -> Result<Sheet<'a>, u32> {
        let sheet = Sheet::read(bytes)?;
        if is_circular(sheet.outputs, &sheet.output_reads) {
            return Err(10);
        }
        Ok(sheet)
    }

    fn read(bytes: &'a [u8]) -> Result<Sheet<'a>, u32> {
        if bytes.len() < 8 {
            return Err(1);
        }
        let (header, mut rest) = bytes.split_at(8);
        if &header[..3] != b"SLR" {
            return Err(2);
        }
        let version = match header[3..5] {
            [version @ (1 | 2), 0] => version,
            _ => return Err(3),
        };
        let (inputs, outputs) = (header[5] as usize, header[6] as usize);
        if !(1..=6).contains(&inputs) || !(1..=7).contains(&outputs) || inputs + outputs > 8 {
            return Err(4);
        }
        let assumption = match header[7] as usize {
            255 => None,
            output if output < outputs => Some(output),
            _ => return Err(5),
        };
        let expressions = [&[][..]; 7];
        let mut sheet = Sheet { inputs, outputs, assumption, expressions, earlier: 0, output_reads: [[0; 7]; 7] };
        for k in 0..outputs {
            let Some((&length, after)) = rest.split_first() else {
                return Err(6);
            };
            let length = length as usize;
            if length == 0 || length > 64 || length > after.len() {
                return Err(6);
            }
            let (expression, others) = after.split_at(length);
            sheet.read_expression(k, version, expression)?;
            rest = others;
        }
        if !rest.is_empty() {
            return Err(9);
        }
        Ok(sheet)
    }

    fn read_expression(&mut self, k: usize, version: u8, bytes: &'a [u8]) -> Result<(), u32> {
        let mut values = 0;
        for &byte in bytes {
            match byte {
                0x00 | 0x01 => values += 1,
                0x02 if values < 1 => return Err(8),
                0x02 => {}
                0x05 if version == 1 => return Err(7),
                0x03..=0x05 if values < 2 => return Err(8),
                0x03..=0x05 => values -= 1,
                0x40..=0x47 | 0x50..=0x6F => {
                    self.note_read(k, byte)?;
                    values += 1;
                }
                _ => return Err(7),
            }
        }
        if values != 1 {
            return Err(8);
        }
        self.expressions[k] = bytes;
        Ok(())
    }

    fn note_read(&mut self, k: usize, byte: u8) -> Result<(), u32> {
        let stream = (byte & 7) as usize;
        if stream >= self.streams() {
            return Err(7);
        }
        let offset = match byte >> 4 {
            5 => 1,
            4 => 2,
            _ => 4,
        };
        if offset == 1 {
            self.earlier |= 1 << stream;
        }
        if stream >= self.inputs {
            self.output_reads[k][stream - self.inputs] |= offset;
        }
        Ok(())
    }

    pub fn streams(&self) -> usize {
        self.inputs + self.outputs
    }

    /// How many valuations there are.
    pub fn size(&self) -> usize {
        1 << self.streams()
    }

    /// The expressions, output 0 first.
    pub fn expressions(&self) -> &[&'a [u8]] {
        &self.expressions[..self.outputs]
    }
}
