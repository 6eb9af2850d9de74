//! Stands in for the crate of this name: sets of numbers, kept as ranges that rise and neither overlap nor touch.

use std::ops::{BitOrAssign, Range, RangeFrom, Sub};

#[derive(Clone)]
pub struct RangeSet<T> {
    ranges: Vec<Range<T>>,
}

pub type RangeSet2<T> = RangeSet<T>;

pub mod range_set {
    use super::{Range, RangeFrom};

    #[derive(Debug)]
    pub enum RangeSetRange<T> {
        Range(Range<T>),
        /// A range without an end. No set here has one.
        RangeFrom(RangeFrom<T>),
    }
}

use range_set::RangeSetRange;

impl RangeSet<u32> {
    pub fn empty() -> Self {
        RangeSet { ranges: Vec::new() }
    }

    pub fn is_superset(&self, other: &Self) -> bool {
        (other - self).ranges.is_empty()
    }

    pub fn iter(&self) -> impl Iterator<Item = RangeSetRange<&u32>> {
        self.ranges.iter().map(|range| RangeSetRange::Range(&range.start..&range.end))
    }
}

impl From<Range<u32>> for RangeSet<u32> {
    fn from(range: Range<u32>) -> Self {
        let ranges = if range.is_empty() { Vec::new() } else { vec![range] };
        RangeSet { ranges }
    }
}

impl BitOrAssign for RangeSet<u32> {
    fn bitor_assign(&mut self, other: Self) {
        let mut all = std::mem::take(&mut self.ranges);
        all.extend(other.ranges);
        all.sort_by_key(|range| range.start);
        for range in all {
            match self.ranges.last_mut() {
                Some(last) if range.start <= last.end => last.end = last.end.max(range.end),
                _ => self.ranges.push(range),
            }
        }
    }
}

impl Sub for &RangeSet<u32> {
    type Output = RangeSet<u32>;

    fn sub(self, other: Self) -> RangeSet<u32> {
        let mut ranges = Vec::new();
        for range in &self.ranges {
            let mut rest = range.clone();
            for hole in &other.ranges {
                if hole.start >= rest.end || hole.end <= rest.start {
                    continue;
                }
                if rest.start < hole.start {
                    ranges.push(rest.start..hole.start);
                }
                rest.start = hole.end.min(rest.end);
            }
            if !rest.is_empty() {
                ranges.push(rest);
            }
        }
        RangeSet { ranges }
    }
}
