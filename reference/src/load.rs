//! How much work a message still leads to. A list that takes on too much chokes on full logs and
//! tables for good, so most lists keep an eye on this.

use crate::job::{ix, Job};
use crate::limits::{DESK, MAX_CHARES, MAX_HOPS};
use crate::world::World;

/// For each chare and number of hops, how many works a message leads to, its own included.
pub struct Load {
    works: [[usize; MAX_HOPS as usize + 1]; MAX_CHARES],
}

impl Load {
    pub fn new(job: &Job) -> Load {
        let mut works = [[1; MAX_HOPS as usize + 1]; MAX_CHARES];
        for hops in 1..=MAX_HOPS as usize {
            for chare in job.chares() {
                let ports = job.ports_of(chare).into_iter().filter(|&port| port != 0);
                works[ix(chare)][hops] = 1 + ports.map(|p| works[ix(p)][hops - 1]).sum::<usize>();
            }
        }
        Load { works }
    }

    pub fn of(&self, chare: u8, hops: u8) -> usize {
        self.works[ix(chare)][hops as usize]
    }

    /// All works that the messages in the logs still lead to.
    pub fn outstanding(&self, job: &Job, world: &World) -> usize {
        let mut sum = 0;
        for sender in DESK..=job.chare_count() {
            for m in world.log(sender).0.iter() {
                if m.tn.is_none_or(|tn| tn > world.chare(m.receiver).height) {
                    sum += self.of(m.receiver, m.body.hops);
                }
            }
        }
        sum
    }
}
