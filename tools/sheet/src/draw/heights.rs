//! Where a position stands on the drawing's upright axis.

/// The least distance of two stops that can be told apart.
const APART: f64 = 9.0;

/// Heights of positions, in points below the top.
pub struct Heights {
    /// Distinct stop positions with their heights, rising positions.
    steps: Vec<(f64, f64)>,
    pub height: f64,
    /// Distances are those of the positions; otherwise the order alone is.
    pub is_to_scale: bool,
}

impl Heights {
    pub fn new(stops: &[f64], cars: &[f64], height: f64) -> Self {
        let stops = distinct(stops);
        let all = distinct(&[&stops[..], cars].concat());
        let by_scale = scaled(&stops, &all, height);
        let is_to_scale = by_scale.windows(2).all(|w| w[0].1 - w[1].1 >= APART);
        let steps = if is_to_scale {
            by_scale
        } else {
            by_order(&stops, height)
        };
        Self {
            steps,
            height,
            is_to_scale,
        }
    }

    /// The height of any position: between two stops by its share of the way, beyond them at the edge.
    pub fn of(&self, position: f64) -> f64 {
        let Some(first) = self.steps.first() else {
            return self.height / 2.0;
        };
        let after = self.steps.partition_point(|step| step.0 <= position);
        if after == 0 {
            return self.beyond(first, position);
        }
        let below = self.steps[after - 1];
        match self.steps.get(after) {
            None => self.beyond(&below, position),
            Some(above) => {
                let share = (position - below.0) / (above.0 - below.0);
                below.1 + share.clamp(0.0, 1.0) * (above.1 - below.1)
            }
        }
    }

    /// Past the lowest or highest stop.
    fn beyond(&self, step: &(f64, f64), position: f64) -> f64 {
        if position == step.0 {
            return step.1;
        }
        let slope = self.slope();
        let by = if self.is_to_scale {
            slope * (position - step.0)
        } else {
            0.0
        };
        let by = if by == 0.0 {
            16.0 * (position - step.0).signum()
        } else {
            by
        };
        (step.1 - by).clamp(-20.0, self.height + 20.0)
    }

    /// Points for a unit of position.
    fn slope(&self) -> f64 {
        match (self.steps.first(), self.steps.last()) {
            (Some(first), Some(last)) if last.0 > first.0 => {
                (first.1 - last.1) / (last.0 - first.0)
            }
            _ => 0.0,
        }
    }
}

fn distinct(positions: &[f64]) -> Vec<f64> {
    let mut positions = positions.to_vec();
    positions.sort_by(f64::total_cmp);
    positions.dedup_by(|a, b| a == b);
    positions
}

/// The lowest of `all` at the bottom, the highest at the top.
fn scaled(stops: &[f64], all: &[f64], height: f64) -> Vec<(f64, f64)> {
    let (low, high) = match (all.first(), all.last()) {
        (Some(low), Some(high)) if high > low => (*low, *high),
        _ => return stops.iter().map(|stop| (*stop, height / 2.0)).collect(),
    };
    let at = |stop: &f64| (*stop, height * (high - stop) / (high - low));
    stops.iter().map(at).collect()
}

fn by_order(stops: &[f64], height: f64) -> Vec<(f64, f64)> {
    let gap = height / (stops.len().max(2) - 1) as f64;
    let at = |(k, stop): (usize, &f64)| (*stop, height - gap * k as f64);
    stops.iter().enumerate().map(at).collect()
}

/// Heights of labels that are at least `apart` from each other, near the wanted ones, in the given order.
pub fn spread(wanted: &[f64], apart: f64, most: f64) -> Vec<f64> {
    let mut placed: Vec<f64> = Vec::with_capacity(wanted.len());
    for height in wanted {
        let least = placed.last().map_or(f64::MIN, |last| last + apart);
        placed.push(height.max(least));
    }
    let mut room = most;
    for height in placed.iter_mut().rev() {
        *height = height.min(room);
        room = *height - apart;
    }
    placed
}

#[cfg(test)]
mod tests {
    use super::*;

    #[test]
    fn scale_and_order() {
        let even = Heights::new(&[0.0, 10.0, 20.0], &[5.0], 100.0);
        assert!(even.is_to_scale);
        assert_eq!(
            (even.of(0.0), even.of(5.0), even.of(20.0)),
            (100.0, 75.0, 0.0)
        );
        let near = Heights::new(&[0.0, 1e-9, 1e6], &[], 100.0);
        assert!(!near.is_to_scale);
        assert_eq!(
            (near.of(0.0), near.of(1e-9), near.of(1e6)),
            (100.0, 50.0, 0.0)
        );
        assert_eq!(near.of(2e6), -16.0);
        assert_eq!(Heights::new(&[], &[], 100.0).of(3.0), 50.0);
    }

    #[test]
    fn labels_keep_apart() {
        assert_eq!(spread(&[0.0, 1.0, 50.0], 10.0, 100.0), [0.0, 10.0, 50.0]);
        assert_eq!(
            spread(&[98.0, 99.0, 100.0], 10.0, 100.0),
            [80.0, 90.0, 100.0]
        );
    }
}
