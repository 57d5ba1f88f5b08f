//! How often each number occurred in a comparison, and whether all required ones did.

/// One more than the largest refusal number.
const NUMBERS: usize = 31;

pub struct Met {
    must: &'static [usize],
    times: [u64; NUMBERS],
}

impl Met {
    /// These refusals must occur, and so must acceptance.
    pub fn new(must: &'static [usize]) -> Met {
        Met { must, times: [0; NUMBERS] }
    }

    pub fn count(&mut self, number: u32) {
        self.times[number as usize] += 1;
    }

    pub fn print(&self) {
        let refused: Vec<String> = self.must.iter().map(|&number| format!("{number}: {}", self.times[number])).collect();
        println!("accepted: {}, refused {}", self.times[0], refused.join(", "));
    }

    pub fn complete(&self) -> bool {
        self.times[0] > 0 && self.must.iter().all(|&number| self.times[number] > 0)
    }
}
