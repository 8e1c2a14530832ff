use std::time::Instant;

pub fn nanoseconds(work: impl FnOnce()) -> f64 {
    let begun = Instant::now();
    work();
    begun.elapsed().as_nanos() as f64
}

/// What stands for many times of one thing: the median, or the least where times are taken from each
/// other and what else the machine did must stay out of the difference.
#[derive(Clone, Copy)]
pub enum Figure {
    Median,
    Least,
}

impl Figure {
    fn of(self, mut values: Vec<f64>) -> f64 {
        values.sort_by(f64::total_cmp);
        match self {
            Figure::Median => median(&values),
            Figure::Least => values[0],
        }
    }
}

/// For each series, and for each case in it, the figure over the repetitions of what `measure` gives.
///
/// A series goes through all cases before the next series has its turn, and begins with one that
/// does not count, so it never measures a case that was just run, nor right behind another series.
/// Each repetition begins with another series.
pub fn repeat<const SERIES: usize>(
    figure: Figure,
    repetitions: usize,
    cases: usize,
    mut measure: impl FnMut(usize, usize) -> f64,
) -> [Vec<f64>; SERIES] {
    let mut values: [Vec<Vec<f64>>; SERIES] = std::array::from_fn(|_| vec![Vec::new(); cases]);
    for repetition in 0..repetitions {
        for turn in 0..SERIES {
            let series = (repetition + turn) % SERIES;
            measure(series, cases - 1);
            for (case, of_case) in values[series].iter_mut().enumerate() {
                of_case.push(measure(series, case));
            }
        }
    }
    values.map(|by_case| by_case.into_iter().map(|times| figure.of(times)).collect())
}

fn median(sorted: &[f64]) -> f64 {
    let middle = sorted.len() / 2;
    if sorted.len().is_multiple_of(2) { (sorted[middle - 1] + sorted[middle]) / 2.0 } else { sorted[middle] }
}

pub fn mean(values: &[f64]) -> f64 {
    values.iter().sum::<f64>() / values.len() as f64
}
