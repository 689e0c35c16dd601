//! All parties and the reading at one opening. Every answer is compared; the whole memory only where it is asked for, since it is large.

use crate::case::{Opening, Step};
use crate::party::{Party, all};
use crate::plain::Answer;
use crate::reading::Reading;

pub struct Worlds {
    pub reading: Reading,
    parties: Vec<Box<dyn Party>>,
    pub steps: u64,
}

impl Worlds {
    pub fn open(opening: &Opening) -> Result<Self, String> {
        Self::among(opening, |_| true)
    }

    /// The reading and the parties of these names.
    pub fn among(opening: &Opening, chosen: impl Fn(&str) -> bool) -> Result<Self, String> {
        let (number, reading) = opened(opening);
        let parties = all(opening).into_iter().filter(|(name, _)| chosen(name));
        let parties = parties.map(|(name, opened)| opened.map_err(|number| format!("{name} opens with {number}, not 0")));
        let parties = parties.collect::<Result<_, _>>()?;
        let worlds = Self {
            reading,
            parties,
            steps: 0,
        };
        if number != 0 {
            return Err(format!("the reading opens with {number}, not 0"));
        }
        worlds.alike()?;
        Ok(worlds)
    }

    /// An opening that all must refuse.
    pub fn refused(opening: &Opening, wanted: u64) -> Result<(), String> {
        let of_parties = all(opening).into_iter().map(|(name, opened)| (name, opened.err().unwrap_or(0)));
        let mut numbers = of_parties.chain([("the reading", opened(opening).0)]);
        match numbers.find(|(_, number)| *number != wanted) {
            Some((name, number)) => Err(format!("{name} opens {opening:?} with {number}, not {wanted}")),
            None => Ok(()),
        }
    }

    /// A step that all must answer so.
    pub fn take(&mut self, step: &Step, wanted: Answer) -> Result<(), String> {
        let read = self.answer(step)?;
        match read == wanted {
            true => Ok(()),
            false => Err(format!("step {}, {step:?}: all answer {read}, not {wanted}", self.steps)),
        }
    }

    /// What the reading answers, and all others with it.
    pub fn answer(&mut self, step: &Step) -> Result<Answer, String> {
        self.steps += 1;
        let read = match step {
            Step::Ask(request) => self.reading.ask(request),
            Step::Registers(regs) => self.reading.sync_registers(*regs),
            Step::Part { frame, .. } => self.reading.host_part(frame),
            Step::Trace(..) => return Err("a run at these sizes has no trace among its steps".to_string()),
        };
        for party in &mut self.parties {
            let found = party.take(step).map_err(|why| format!("{}: {why}", party.name()))?;
            if found != read {
                let (number, name) = (self.steps, party.name());
                return Err(format!("step {number}, {step:?}: {name} answers {found}, and the reading {read}"));
            }
        }
        Ok(read)
    }

    /// State, words and cells of all parties are as the reading has them.
    pub fn alike(&self) -> Result<(), String> {
        let differs = |party: &Box<dyn Party>| party.differs(&self.reading).map(|what| format!("{}: {what}", party.name()));
        self.parties.iter().find_map(differs).map_or(Ok(()), Err)
    }
}

fn opened(opening: &Opening) -> (u64, Reading) {
    let (words, cells) = opening.buffers();
    Reading::open(opening.bytes, opening.depth, words, cells)
}
