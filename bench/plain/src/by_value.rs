//! The same calls with the record by value, as document 01 has it: taken, and handed back beside the answer.
use crate::{Buffers, Plain, Refusal, Report, Said};

pub type Outcome = (Plain, Said);

impl Plain {
    #[inline(never)]
    pub fn sound_by_value(self) -> bool {
        self.sound()
    }

    #[inline(never)]
    pub fn read_by_value(mut self, lent: &Buffers, n: u32, page: &mut [u8]) -> Outcome {
        let answer = self.read(lent, n, page);
        (self, answer)
    }

    #[inline(never)]
    pub fn write_by_value(mut self, lent: &mut Buffers, n: u32, page: &[u8]) -> Outcome {
        let answer = self.write(lent, n, page);
        (self, answer)
    }

    #[inline(never)]
    pub fn take_back_by_value(mut self, lent: &mut Buffers) -> Outcome {
        let answer = self.take_back(lent);
        (self, answer)
    }

    #[inline(never)]
    pub fn step_by_value(mut self, lent: &mut Buffers) -> Outcome {
        let answer = self.step(lent);
        (self, answer)
    }

    #[inline(never)]
    pub fn report_by_value(self, lent: &Buffers) -> (Plain, Result<Report, Refusal>) {
        let answer = self.report(lent);
        (self, answer)
    }

    #[inline(never)]
    pub fn flush_by_value(mut self, lent: &mut Buffers) -> Outcome {
        let answer = self.flush(lent);
        (self, answer)
    }
}
