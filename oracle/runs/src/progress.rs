//! A line on standard error every second, so that a long run is seen to move.

use std::sync::atomic::{AtomicU64, Ordering};
use std::sync::mpsc::{self, RecvTimeoutError, Sender};
use std::sync::Arc;
use std::thread::{self, JoinHandle};
use std::time::{Duration, Instant};

/// What a suite has done so far.
#[derive(Default)]
pub struct Counts {
    pub calls: AtomicU64,
    pub differences: AtomicU64,
}

/// The lines, until it is dropped.
pub struct Progress {
    end: Option<Sender<()>>,
    teller: Option<JoinHandle<()>>,
}

impl Progress {
    pub fn start(name: &'static str, counts: Arc<Counts>) -> Self {
        let (end, ended) = mpsc::channel();
        let began = Instant::now();
        let teller = thread::spawn(move || {
            while ended.recv_timeout(Duration::from_secs(1)) == Err(RecvTimeoutError::Timeout) {
                eprintln!(
                    "{name}: {} calls, {} differences, {} s",
                    counts.calls.load(Ordering::Relaxed),
                    counts.differences.load(Ordering::Relaxed),
                    began.elapsed().as_secs()
                );
            }
        });
        Self { end: Some(end), teller: Some(teller) }
    }
}

impl Drop for Progress {
    fn drop(&mut self) {
        drop(self.end.take());
        if let Some(teller) = self.teller.take() {
            // A teller that failed has nothing to say.
            let _ = teller.join();
        }
    }
}
