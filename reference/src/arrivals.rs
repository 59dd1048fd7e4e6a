//! What has arrived at the end of a link.

use crate::network::Network;

/// A volume, exactly: what entered by a step's start plus the elapsed part of
/// the step's volume, in parts of a thousandth of a vehicle of which the step's
/// length makes up a whole one. The parts are below 2^40 x 60.
#[derive(Clone, Copy)]
pub struct Arrived {
    parts: u64,
    length: u64,
}

/// The entered count falls over the step that the travel time ends in.
#[derive(Debug)]
pub struct EnteredFalls;

impl Arrived {
    pub fn whole(volume: u64) -> Arrived {
        Arrived {
            parts: volume,
            length: 1,
        }
    }

    pub fn is_below(self, volume: u64) -> bool {
        self.parts < volume * self.length
    }

    pub fn is_above(self, volume: u64) -> bool {
        self.parts > volume * self.length
    }

    pub fn rounded_down(self) -> u64 {
        self.parts / self.length
    }
}

/// What had entered by a time, from what had at each boundary. The last of the
/// boundaries' times, which start at 0 and rise, is later.
pub fn entered_by(
    time: u64,
    times: &[u64],
    entered: impl Fn(usize) -> u64,
) -> Result<Arrived, EnteredFalls> {
    let later = times.iter().position(|&boundary| boundary > time);
    let end = later.expect("a boundary is later");
    let start = end - 1;
    if times[start] == time {
        return Ok(Arrived::whole(entered(start)));
    }
    let volume = entered(end).checked_sub(entered(start));
    let length = times[end] - times[start];
    let elapsed = time - times[start];
    Ok(Arrived {
        parts: entered(start) * length + volume.ok_or(EnteredFalls)? * elapsed,
        length,
    })
}

impl Network {
    /// What has arrived on a link (from index 0) at boundary n, by what had
    /// entered at each boundary up to n: that of the time t(n) - travel time. An
    /// arrival from before time 0 is that of the network's own past.
    pub fn arrived(
        &self,
        boundary: usize,
        link: usize,
        entered: impl Fn(usize) -> u64,
    ) -> Result<Arrived, EnteredFalls> {
        let times = self.times();
        let travel_time = self.links[link].travel_time;
        match times[boundary].checked_sub(travel_time) {
            Some(entry_time) => entered_by(entry_time, &times, entered),
            None => Ok(self.arrived_before_0(link, travel_time - times[boundary])),
        }
    }
}
