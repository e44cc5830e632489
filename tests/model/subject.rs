//! What a script's calls and answers tell of one subject: the things that must be met of it, under heads, and how often
//! each of them was.

use std::collections::BTreeMap;

/// Things under their heads.
pub type Wanted = &'static [(&'static str, &'static [&'static str])];
/// How often each thing was met, under its head.
pub type Times = BTreeMap<(&'static str, &'static str), usize>;

pub trait Subject: Sized {
    /// What stands before each head where it is told.
    const NAME: &'static str;
    /// What must have been met, under heads.
    const WANTED: Wanted;

    /// Nothing heard, nothing met.
    fn fresh() -> Self;

    /// Hears of a call and its answer.
    fn hear(&mut self, call: &str, answer: &str);

    /// How often each thing was met.
    fn times(&mut self) -> &mut Times;

    /// What is wrong, whatever was met.
    fn faults(&self) -> Vec<String> {
        Vec::new()
    }

    /// What a whole script tells: one line for each head, with how often each thing was met; and what should have been
    /// met and never was, and what is wrong.
    fn report(calls: &[&[u8]], answers: &[&[u8]]) -> (String, Vec<String>) {
        let mut subject = Self::fresh();
        for (call, answer) in calls.iter().zip(answers) {
            subject.hear(&String::from_utf8_lossy(call), &String::from_utf8_lossy(answer));
        }
        let (mut lines, mut complaints) = (String::new(), Vec::new());
        for (head, things) in Self::WANTED {
            lines += &format!("{}{head}", Self::NAME);
            for thing in *things {
                let times = subject.times().get(&(*head, *thing)).copied().unwrap_or(0);
                lines += &format!("  {thing}:{times}");
                if times == 0 {
                    complaints.push(format!("{}{head}: {thing} never occurred", Self::NAME));
                }
            }
            lines += "\n";
        }
        complaints.extend(subject.faults());
        (lines, complaints)
    }

    /// Counts a thing that was met, under the head and by the name it is wanted by; what is not wanted goes uncounted.
    fn count(&mut self, head: &str, thing: &str) {
        let found = Self::WANTED.iter().find(|(wanted, _)| *wanted == head).and_then(|(head, things)| {
            let thing = things.iter().find(|wanted| **wanted == thing)?;
            Some((*head, *thing))
        });
        if let Some(met) = found {
            *self.times().entry(met).or_default() += 1;
        }
    }

    /// Counts a thing where it was met.
    fn count_if(&mut self, is_met: bool, head: &str, thing: &str) {
        if is_met {
            self.count(head, thing);
        }
    }
}
