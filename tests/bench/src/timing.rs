//! Taking times: the two sides in turn, many times, and the median of each.

use std::time::Instant;

/// About how long one sample takes, in nanoseconds. A call shorter than this is repeated within the sample.
const SAMPLE: f64 = 50_000.0;

/// Medians, in nanoseconds for each call.
pub struct Times {
    pub proved: f64,
    pub peer: f64,
    /// The median of the ratios of a sample to the one taken just after it: what else the machine does at that moment
    /// slows both.
    pub ratio: f64,
    /// Calls of each side.
    pub repeats: usize,
}

/// Nanoseconds for each call of both sides.
pub fn compare(samples: usize, mut proved: impl FnMut(), mut peer: impl FnMut()) -> Times {
    let proved_batch = batch(&mut proved);
    let peer_batch = batch(&mut peer);
    let mut proved_times = Vec::with_capacity(samples);
    let mut peer_times = Vec::with_capacity(samples);
    for _ in 0..samples {
        proved_times.push(sample(proved_batch, &mut proved));
        peer_times.push(sample(peer_batch, &mut peer));
    }
    let ratios = proved_times.iter().zip(&peer_times).map(|(proved, peer)| proved / peer).collect();
    Times {
        proved: median(proved_times),
        peer: median(peer_times),
        ratio: median(ratios),
        repeats: samples * proved_batch.min(peer_batch),
    }
}

/// How many calls make up a sample.
fn batch(call: &mut impl FnMut()) -> usize {
    sample(3, call);
    let once = median((0..5).map(|_| sample(3, call)).collect());
    ((SAMPLE / once.max(1.0)) as usize).max(1)
}

fn sample(calls: usize, call: &mut impl FnMut()) -> f64 {
    let begin = Instant::now();
    for _ in 0..calls {
        call();
    }
    begin.elapsed().as_nanos() as f64 / calls as f64
}

fn median(mut times: Vec<f64>) -> f64 {
    times.sort_by(f64::total_cmp);
    times[times.len() / 2]
}
