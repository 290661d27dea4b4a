//! "Writing" with the pattern looked up in the list of a small field.

use super::listed_field::Field;
use second::field::Written;

impl Field {
    pub fn longest_range(&self) -> u64 {
        let longest = self.shape.ranges.iter().max();
        *longest.expect("there is a range")
    }

    /// A number in range at a generation for which the cells have zero groups enough.
    pub fn written_at(&self, generation: usize, cells: &[u8], number: u64) -> Written {
        let mut groups = self.groups(cells).expect("no left-over bit is set");
        for group in groups.iter_mut().filter(|group| **group != 0) {
            *group = self.erased();
        }
        while groups.iter().filter(|group| **group == 0).count() > self.counts[generation - 1] {
            let leftmost = groups.iter_mut().find(|group| **group == 0);
            *leftmost.expect("a zero group is left") = self.erased();
        }
        let places: Vec<bool> = groups.iter().map(|group| *group == 0).collect();
        let pattern = &self.listed[generation - 1][number as usize];
        let after = self.cells(&self.on_places(&places, pattern));
        let ones = |cells: &[u8]| cells.iter().map(|byte| byte.count_ones()).sum::<u32>();
        Written {
            generation,
            turned: u64::from(ones(&after) - ones(cells)),
            cells: after,
        }
    }
}
