//! Words or bytes lent between guards that no call may change.

const GUARD: usize = 16;

pub struct Lent<T> {
    room: Vec<T>,
}

/// The guard at a place of the room: no two neighbours are alike.
fn guard<T: From<u8>>(place: usize) -> T {
    T::from(0xa5 ^ (place % 64) as u8)
}

impl<T: Copy + PartialEq + From<u8>> Lent<T> {
    pub fn new(content: &[T]) -> Lent<T> {
        let mut room: Vec<T> = (0..content.len() + 2 * GUARD).map(guard).collect();
        room[GUARD..GUARD + content.len()].copy_from_slice(content);
        Lent { room }
    }

    pub fn part(&self) -> &[T] {
        &self.room[GUARD..self.room.len() - GUARD]
    }

    pub fn part_mut(&mut self) -> &mut [T] {
        let end = self.room.len() - GUARD;
        &mut self.room[GUARD..end]
    }

    pub fn is_guarded(&self) -> bool {
        let end = self.room.len() - GUARD;
        let places = (0..GUARD).chain(end..self.room.len());
        places
            .into_iter()
            .all(|place| self.room[place] == guard(place))
    }
}
