//! How often each refusal was met, so that one that never was is seen.

/// Above every refusal's number.
const NUMBERS: usize = 64;

pub struct Tally {
    call: &'static str,
    met: [u64; NUMBERS],
}

impl Tally {
    pub fn new(call: &'static str) -> Self {
        Tally { call, met: [0; NUMBERS] }
    }

    pub fn meet(&mut self, refusal: u64) {
        self.met[refusal as usize] += 1;
    }

    pub fn cases(&self) -> u64 {
        self.met.iter().sum()
    }

    /// Says what was met, and fails unless it was just success and the refusals that the call can give, in enough cases.
    pub fn close(&self, can_give: &[u64], least: u64) {
        let met: Vec<String> = (0..NUMBERS).filter(|k| self.met[*k] > 0).map(|k| format!("{k}: {}", self.met[k])).collect();
        println!("{}: {} cases; {}", self.call, self.cases(), met.join(", "));
        assert!(self.cases() >= least, "{}: only {} cases", self.call, self.cases());
        for refusal in 1..NUMBERS as u64 {
            let met = self.met[refusal as usize] > 0;
            assert_eq!(met, can_give.contains(&refusal), "{}: refusal {refusal}", self.call);
        }
        assert!(self.met[0] > 0, "{}: nothing was accepted", self.call);
    }
}
