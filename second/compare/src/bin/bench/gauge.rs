//! What a run is timed by: the clock, or a count of its instructions.

use std::fs::File;
use std::os::unix::fs::FileExt;
use std::time::Instant;

pub enum Gauge {
    /// Nanoseconds since then.
    Clock(Instant),
    /// A file in which an emulator counts this program's instructions: see
    /// `counter/counter.c`.
    Counter(File),
}

impl Gauge {
    /// The counter in this file, if one is named, else the clock.
    pub fn of(counter: Option<&str>) -> Result<Gauge, String> {
        let Some(path) = counter else {
            return Ok(Gauge::Clock(Instant::now()));
        };
        let file = File::open(path).map_err(|error| format!("no counter {path}: {error}"))?;
        Ok(Gauge::Counter(file))
    }

    pub fn counts(&self) -> bool {
        matches!(self, Gauge::Counter(_))
    }

    /// Nanoseconds or instructions up to now.
    pub fn now(&self) -> Result<u64, String> {
        match self {
            Gauge::Clock(start) => Ok(start.elapsed().as_nanos() as u64),
            Gauge::Counter(file) => {
                let mut count = [0; 8];
                let read = file.read_exact_at(&mut count, 0);
                read.map_err(|error| format!("no count: {error}"))?;
                Ok(u64::from_le_bytes(count))
            }
        }
    }

    /// Microseconds or instructions of one call, where so many took this time.
    pub fn each(&self, time: u64, calls: u64) -> Result<f64, String> {
        match self {
            Gauge::Clock(_) => Ok(time as f64 / 1_000.0 / calls as f64),
            Gauge::Counter(_) if time == 0 => Err("a counter stands still".to_string()),
            Gauge::Counter(_) => Ok(time as f64 / calls as f64),
        }
    }

    pub fn show(&self, each: f64) -> String {
        match self {
            Gauge::Clock(_) => format!("{each:>10.2}"),
            Gauge::Counter(_) => format!("{each:>10.0}"),
        }
    }
}
