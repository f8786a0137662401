//! The ping clock: how long to wait for a PingAck, by the arithmetic of RFC 6298.

use crate::refusal;

/// The largest sample, and the largest number of any setting, in milliseconds.
const LARGEST: f64 = 60_000.0;

/// The limit where no sample has come yet.
const BEFORE_ANY_SAMPLE: f64 = 1000.0;

#[derive(Clone, Copy, Debug, PartialEq, Default)]
pub struct PingClock {
    pub sampled: bool,
    pub smoothed: f64,
    pub deviation: f64,
}

#[derive(Clone, Copy, Debug, PartialEq)]
pub enum LimitSetting {
    Fixed(f64),
    Measured { floor: f64, ceiling: f64 },
}

impl PingClock {
    /// Takes in a sample, or gives 12 for a bad sample or clock and changes nothing.
    pub fn sample(&mut self, milliseconds: u32) -> Result<(), u8> {
        self.check()?;
        let r = f64::from(milliseconds);
        if r > LARGEST {
            return Err(refusal::VALUE);
        }
        if self.sampled {
            let distance = (self.smoothed - r).abs();
            self.deviation = 0.75 * self.deviation + 0.25 * distance;
            self.smoothed = 0.875 * self.smoothed + 0.125 * r;
        } else {
            self.sampled = true;
            self.smoothed = r;
            self.deviation = r / 2.0;
        }
        Ok(())
    }

    /// Gives the time to wait under a setting, or 12 for a bad setting or clock.
    pub fn limit(&self, setting: LimitSetting) -> Result<f64, u8> {
        self.check()?;
        match setting {
            LimitSetting::Fixed(limit) => {
                check_setting(limit)?;
                Ok(limit)
            }
            LimitSetting::Measured { floor, ceiling } => {
                check_setting(floor)?;
                check_setting(ceiling)?;
                if floor > ceiling {
                    return Err(refusal::VALUE);
                }
                Ok(self.measured().max(floor).min(ceiling))
            }
        }
    }

    /// Gives the measured limit before it is held between floor and ceiling.
    fn measured(&self) -> f64 {
        if self.sampled {
            self.smoothed + (4.0 * self.deviation).max(1.0)
        } else {
            BEFORE_ANY_SAMPLE
        }
    }

    /// Refuses with 12 a clock with a NaN or a number outside 0 to 60,000.
    fn check(&self) -> Result<(), u8> {
        let good = |number: f64| (0.0..=LARGEST).contains(&number);
        if good(self.smoothed) && good(self.deviation) {
            Ok(())
        } else {
            Err(refusal::VALUE)
        }
    }
}

/// Refuses with 12 a setting's number outside 1 to 60,000, and NaN.
fn check_setting(number: f64) -> Result<(), u8> {
    if (1.0..=LARGEST).contains(&number) {
        Ok(())
    } else {
        Err(refusal::VALUE)
    }
}

#[cfg(test)]
mod tests {
    use super::*;

    const WIDE: LimitSetting = LimitSetting::Measured {
        floor: 1.0,
        ceiling: 60_000.0,
    };

    #[test]
    fn case_7_samples() {
        let mut clock = PingClock::default();
        assert_eq!(clock.limit(WIDE), Ok(1000.0));
        for (sample, limit) in [(100, 300.0), (100, 250.0), (180, 302.5)] {
            assert_eq!(clock.sample(sample), Ok(()));
            assert_eq!(clock.limit(WIDE), Ok(limit));
        }
    }

    #[test]
    fn limits_are_held() {
        let mut clock = PingClock::default();
        assert_eq!(clock.sample(0), Ok(()));
        assert_eq!(clock.limit(WIDE), Ok(1.0));
        let narrow = LimitSetting::Measured {
            floor: 5.0,
            ceiling: 9.0,
        };
        assert_eq!(clock.limit(narrow), Ok(5.0));
        assert_eq!(clock.sample(60_000), Ok(()));
        assert_eq!(clock.limit(narrow), Ok(9.0));
        assert_eq!(clock.limit(LimitSetting::Fixed(7.5)), Ok(7.5));
    }

    #[test]
    fn bad_values_are_12() {
        let mut clock = PingClock::default();
        assert_eq!(clock.sample(60_001), Err(12));
        for bad in [0.0, 0.5, f64::NAN, 60_000.5, -1.0, f64::INFINITY] {
            assert_eq!(clock.limit(LimitSetting::Fixed(bad)), Err(12));
        }
        let crossed = LimitSetting::Measured {
            floor: 9.0,
            ceiling: 5.0,
        };
        assert_eq!(clock.limit(crossed), Err(12));
        clock.smoothed = f64::NAN;
        assert_eq!(clock.sample(1), Err(12));
        assert_eq!(clock.limit(WIDE), Err(12));
    }
}
