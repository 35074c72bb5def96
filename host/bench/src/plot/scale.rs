//! The scale of the bars: linear from 0, so that the length of a bar is its number.

pub struct Scale {
    start: f64,
    end: f64,
    step: f64,
    steps: usize,
}

/// More numbers than this would stand too close.
const MOST_STEPS: usize = 8;

impl Scale {
    /// From place `start` to place `end`, in the finest steps that are not too many.
    pub fn reaching(largest: f64, start: f64, end: f64) -> Self {
        let fitting = round_steps().find(|&step| steps_beyond(largest, step) <= MOST_STEPS);
        let step = fitting.expect("the steps grow without end");
        Scale {
            start,
            end,
            step,
            steps: steps_beyond(largest, step),
        }
    }

    pub fn place(&self, number: f64) -> f64 {
        let part = number / (self.step * self.steps as f64);
        self.start + (self.end - self.start) * part
    }

    /// The numbers that are written along it.
    pub fn ticks(&self) -> impl Iterator<Item = f64> {
        (0..=self.steps).map(|step| step as f64 * self.step)
    }
}

/// 0.01, 0.02, 0.05, 0.1 and so on.
fn round_steps() -> impl Iterator<Item = f64> {
    (-2..).flat_map(|power| [1.0, 2.0, 5.0].map(|factor| factor * 10f64.powi(power)))
}

/// How many steps go beyond the largest number. A number a rounding below a step counts as on it.
fn steps_beyond(largest: f64, step: f64) -> usize {
    (largest / step + 1e-9) as usize + 1
}

#[cfg(test)]
mod tests {
    use super::*;

    #[test]
    fn the_scale_reaches_beyond_the_largest() {
        let last = |largest| Scale::reaching(largest, 0.0, 1.0).ticks().last().unwrap();
        for (largest, end) in [
            (0.2, 0.25),
            (0.6, 0.7),
            (1.3, 1.4),
            (2.0, 2.5),
            (40.0, 50.0),
        ] {
            assert!((last(largest) - end).abs() < 1e-9, "{largest}");
        }
    }

    #[test]
    fn places_run_from_start_to_end() {
        let scale = Scale::reaching(0.6, 220.0, 720.0);
        assert_eq!(scale.place(0.0), 220.0);
        assert_eq!(scale.place(scale.ticks().last().unwrap()), 720.0);
    }
}
