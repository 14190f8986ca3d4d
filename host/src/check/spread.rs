//! Several measurements of one thing: their median, and between which bounds they lie.

#[derive(Clone, Copy, Debug, PartialEq)]
pub struct Spread {
    pub count: usize,
    pub least: f64,
    pub median: f64,
    pub most: f64,
}

impl Spread {
    /// `None` if nothing was measured. Of an even number of values the median is between the two in the middle.
    pub fn of(values: impl IntoIterator<Item = f64>) -> Option<Spread> {
        let mut values: Vec<f64> = values.into_iter().collect();
        values.sort_by(f64::total_cmp);
        let (&least, &most) = (values.first()?, values.last()?);
        let half = values.len() / 2;
        let median = if values.len() % 2 == 1 { values[half] } else { (values[half - 1] + values[half]) / 2.0 };
        Some(Spread { count: values.len(), least, median, most })
    }

    /// For a table: the median, and the bounds in brackets; of one measurement only itself.
    pub fn cell(&self, digits: usize) -> String {
        let Spread { count, least, median, most } = self;
        let bounds = format!(" ({least:.digits$} to {most:.digits$})");
        format!("{median:.digits$}{}", if *count > 1 { &bounds } else { "" })
    }
}

#[cfg(test)]
mod tests {
    use super::*;

    #[test]
    fn medians_and_bounds() {
        let of = |values: &[f64]| Spread::of(values.iter().copied()).map(|s| (s.least, s.median, s.most));
        assert_eq!(of(&[]), None);
        assert_eq!(of(&[3.0]), Some((3.0, 3.0, 3.0)));
        assert_eq!(of(&[9.0, 1.0, 2.0]), Some((1.0, 2.0, 9.0)));
        assert_eq!(of(&[4.0, 1.0, 2.0, 9.0]), Some((1.0, 3.0, 9.0)));
    }

    #[test]
    fn cells() {
        let cell = |values: &[f64]| Spread::of(values.iter().copied()).map(|spread| spread.cell(2));
        assert_eq!(cell(&[0.26, 0.01, 1.0]), Some("0.26 (0.01 to 1.00)".to_string()));
        assert_eq!(cell(&[0.26]), Some("0.26".to_string()));
    }
}
