//! Compares the answers of both sides, and makes what differs small enough to be read.

use crate::cluster::{ours, Answer, Call, Cluster, Original};
use crate::expected::refusal;
use std::fmt;

/// An input on which the library does not answer as it should.
#[derive(Debug)]
pub struct Difference {
    cluster: Cluster,
    call: Call,
    ours: Answer,
    expected: Answer,
}

impl Difference {
    /// The number that both sides answer, 0 for a success, or what differs.
    fn find(original: &Original, call: &Call) -> Result<u64, Box<Difference>> {
        let refusal = refusal(original.cluster, call);
        let expected = refusal.map_or_else(|| original.answer(call), Answer::Refused);
        let ours = ours(original.cluster, call);
        if ours == expected {
            return Ok(refusal.unwrap_or(0));
        }
        Err(Box::new(Difference {
            cluster: original.cluster.clone(),
            call: call.clone(),
            ours,
            expected,
        }))
    }

    /// Drops members as long as what is left still differs.
    fn shrunk(mut self) -> Difference {
        let mut gone = 0;
        while gone < self.cluster.len() {
            let cluster = self.cluster.without(gone);
            let call = self.call.without(gone);
            match Difference::find(&Original::new(&cluster), &call) {
                Err(smaller) => (self, gone) = (*smaller, 0),
                Ok(_) => gone += 1,
            }
        }
        self
    }
}

impl fmt::Display for Difference {
    fn fmt(&self, f: &mut fmt::Formatter) -> fmt::Result {
        writeln!(f, "a difference in {}:", Call::NAMES[self.call.kind()])?;
        match &self.call {
            Call::PostLinearize { order } => writeln!(f, "  order    {order:?}")?,
            Call::Linearize { room } | Call::ChunkLengths { room } => {
                writeln!(f, "  room     of {room}")?
            }
        }
        writeln!(f, "  fees     {:?}", self.cluster.fees)?;
        writeln!(f, "  sizes    {:?}", self.cluster.sizes)?;
        writeln!(f, "  words    {:x?} in hex", self.cluster.words)?;
        writeln!(f, "  lists    {:?}", self.cluster.lists)?;
        writeln!(f, "  ours     {:?}", self.ours)?;
        write!(f, "  expected {:?}", self.expected)
    }
}

/// How often each call was made, by its kind and the number of its answer.
#[derive(Default)]
pub struct Tally {
    clusters: u64,
    answers: [[u64; 12]; 3],
}

impl Tally {
    /// One call on both sides; the number that both answer.
    fn call(&mut self, original: &Original, call: Call) -> Result<u64, String> {
        let number =
            Difference::find(original, &call).map_err(|found| found.shrunk().to_string())?;
        self.answers[call.kind()][number as usize] += 1;
        Ok(number)
    }

    /// A call that is not to be refused.
    fn good(&mut self, original: &Original, call: Call) -> Result<(), String> {
        match self.call(original, call)? {
            0 => Ok(()),
            number => Err(format!(
                "{number} for a good cluster: {:?}",
                original.cluster
            )),
        }
    }

    /// All calls on a cluster that is not to be refused: the order and its chunks, the chunks of the
    /// members by position, and each of some orders improved. The room has some places to spare.
    pub fn cluster(
        &mut self,
        cluster: &Cluster,
        orders: &[Vec<usize>],
        spare: usize,
    ) -> Result<(), String> {
        let original = Original::new(cluster);
        let room = cluster.len() + spare;
        self.good(&original, Call::Linearize { room })?;
        let listed = cluster.listed(original.order());
        self.good(&Original::new(&listed), Call::ChunkLengths { room })?;
        self.good(&original, Call::ChunkLengths { room })?;
        for order in orders {
            self.good(
                &original,
                Call::PostLinearize {
                    order: order.clone(),
                },
            )?;
        }
        self.clusters += 1;
        Ok(())
    }

    /// Some calls on a cluster that may have to be refused.
    pub fn calls(&mut self, cluster: &Cluster, calls: [Call; 3]) -> Result<(), String> {
        let original = Original::new(cluster);
        for call in calls {
            self.call(&original, call)?;
        }
        self.clusters += 1;
        Ok(())
    }
}

impl fmt::Display for Tally {
    fn fmt(&self, f: &mut fmt::Formatter) -> fmt::Result {
        write!(f, "{} clusters", self.clusters)?;
        for (name, answers) in Call::NAMES.iter().zip(&self.answers) {
            write!(f, "\n  {name:<15}")?;
            for (number, count) in answers.iter().enumerate().filter(|(_, count)| **count > 0) {
                write!(f, " answer {number}: {count};")?;
            }
        }
        Ok(())
    }
}
