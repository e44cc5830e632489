//! The lanes in front of the desk: the requests of up to 16 jobs wait there, and grants serve the jobs by turns.

use crate::desk::{Desk, Opened, Request};
use crate::telegram::{lowest, No, Refusal, LONGEST_TELEGRAM};

/// How many lanes there are; they are numbered from 1.
pub const LANES: usize = 16;
/// The most requests that wait in one lane.
pub const MOST_WAITING: usize = 4;

#[derive(Clone)]
pub struct Lanes {
    /// The number of the lane last served. It stays when that lane empties or gets another job.
    pub last: usize,
    /// What waits in each lane, the oldest request first. A lane belongs to the job of its requests, an empty one to
    /// nobody. The clock of a request that waits means nothing: its time starts with the grant's.
    pub lanes: Vec<Vec<Request>>,
}

impl Lanes {
    /// Fresh lanes: nothing waits, and the 16th counts as the one last served.
    pub fn new() -> Lanes {
        Lanes { last: LANES, lanes: vec![Vec::new(); LANES] }
    }

    /// The requests in the lane of this number.
    fn lane(&mut self, number: usize) -> &mut Vec<Request> {
        &mut self.lanes[number - 1]
    }

    /// The first lane of this order for which that holds.
    fn find(&self, mut order: impl Iterator<Item = usize>, holds: impl Fn(&[Request]) -> bool) -> Option<usize> {
        order.find(|number| holds(&self.lanes[number - 1]))
    }

    /// The lane that belongs to a job.
    fn lane_of(&self, job: u32) -> Option<usize> {
        self.find(1..=LANES, |lane| lane.first().map_or(false, |request| request.job == job))
    }

    /// A request joins its job's lane, or the lowest empty one where the job has none: 10 to 14, then 71 or 72. Answers
    /// the lane and the place in it, from 1.
    pub fn join(&mut self, request: Request) -> Result<(usize, usize), No> {
        request.check()?;
        let empty = self.find(1..=LANES, |lane| lane.is_empty());
        let number = self.lane_of(request.job).or(empty).ok_or(71u32)?;
        let lane = self.lane(number);
        lowest(&[(72, lane.len() == MOST_WAITING)])?;
        lane.push(request);
        Ok((number, lane.len()))
    }

    /// Opens the oldest request of the first lane after the one last served with something waiting, going round, at
    /// this clock and for a buffer with this room: 73, 74, then the desk's 75 or 15. Answers its job too. With 75 the
    /// request is taken out all the same and its lane was served; 15 leaves both.
    pub fn grant(&mut self, desk: &mut Desk, clock: u32, room: usize) -> Result<(u32, Opened), Refusal> {
        lowest(&[(73, room < LONGEST_TELEGRAM)])?;
        let order = (self.last + 1..=LANES).chain(1..=self.last);
        let number = self.find(order, |lane| !lane.is_empty()).ok_or(74u32)?;
        let request = Request { clock, ..self.lane(number)[0].clone() };
        let granted = match desk.open(&request, room) {
            Err(refusal) if refusal.no == 75 => Err(Refusal { job: Some(request.job), ..refusal }),
            Err(refusal) => return Err(refusal),
            Ok(opened) => Ok((request.job, opened)),
        };
        self.lane(number).remove(0);
        self.last = number;
        granted
    }

    /// Takes the request of a job at this place in its lane away, or 55; later ones move up.
    pub fn withdraw(&mut self, job: u32, place: u64) -> Result<(), No> {
        let number = self.lane_of(job).ok_or(55u32)?;
        let lane = self.lane(number);
        lowest(&[(55, !(1..=lane.len() as u64).contains(&place))])?;
        lane.remove(place as usize - 1);
        Ok(())
    }
}
