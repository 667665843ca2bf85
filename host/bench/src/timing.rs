//! Rounds of several sides, and the row of the table that they make.

const ROUNDS: usize = 11;

/// The sides, in the order of the columns.
pub const NAMES: [&str; 6] = [
    "ordinary",
    "proved",
    "ordinary call",
    "C call",
    "libbloom",
    "one read",
];
const SIDES: usize = NAMES.len();
/// The ratios, each of a side to a side.
const RATIOS: [(&str, usize, usize); 4] = [
    ("proved / ordinary", 1, 0),
    ("C call / ordinary call", 3, 2),
    ("C call / libbloom", 3, 4),
    ("C call / one read", 3, 5),
];

/// What each side measures, if it takes part.
pub type Sides<'a, T> = [Option<&'a mut dyn FnMut() -> T>; SIDES];
/// What the sides measured in one round.
pub type Round<T> = [Option<T>; SIDES];

/// All sides measure in each round, and take turns in going first.
pub fn rounds<T>(mut sides: Sides<T>) -> Vec<Round<T>> {
    (0..ROUNDS)
        .map(|first| one_round(&mut sides, first))
        .collect()
}

fn one_round<T>(sides: &mut Sides<T>, first: usize) -> Round<T> {
    let mut times = [const { None }; SIDES];
    for turn in 0..SIDES {
        let side = (first + turn) % SIDES;
        times[side] = sides[side].as_mut().map(|measure| measure());
    }
    times
}

/// A call on a table of 2^k slots at a load, in nanoseconds.
pub struct Row {
    pub call: &'static str,
    pub k: u32,
    pub load: &'static str,
    rounds: Vec<Round<f64>>,
}

impl Row {
    pub fn new<T: Copy>(
        call: &'static str,
        table: (u32, &'static str),
        rounds: &[Round<T>],
        part: impl Fn(T) -> Option<f64>,
    ) -> Row {
        let (k, load) = table;
        let of_round = |round: &Round<T>| round.map(|time| time.and_then(&part));
        let rounds = rounds.iter().map(of_round).collect();
        Row {
            call,
            k,
            load,
            rounds,
        }
    }

    /// The least time of a side, if it took part.
    pub fn best(&self, side: usize) -> Option<f64> {
        let times = self.rounds.iter().filter_map(|round| round[side]);
        times.min_by(f64::total_cmp)
    }

    /// The median of the rounds' own ratios.
    fn ratio(&self, of: usize, to: usize) -> Option<f64> {
        let quotients = self
            .rounds
            .iter()
            .map(|round| Some(round[of]? / round[to]?));
        let mut ratios: Vec<f64> = quotients.collect::<Option<_>>()?;
        ratios.sort_by(f64::total_cmp);
        Some(ratios[ratios.len() / 2])
    }

    pub fn line(&self) -> String {
        let cell = |number: Option<f64>, digits: usize| {
            number.map_or(String::from("-"), |n| format!("{n:.digits$}"))
        };
        let times: String = (0..SIDES)
            .map(|side| {
                format!(
                    " {:>1$} |",
                    cell(self.best(side), 1),
                    NAMES[side].len().max(8)
                )
            })
            .collect();
        let ratios: String = RATIOS
            .iter()
            .map(|&(name, of, to)| format!(" {:>1$} |", cell(self.ratio(of, to), 2), name.len()))
            .collect();
        let table = format!("2^{}, {}", self.k, self.load);
        format!("| {:<13} | {table:<11} |{times}{ratios}", self.call)
    }
}

pub fn head() -> String {
    let times: String = NAMES.iter().map(|name| format!(" {name:>8} |")).collect();
    let ratios: String = RATIOS
        .iter()
        .map(|ratio| format!(" {} |", ratio.0))
        .collect();
    let rule = String::from("|---|---|") + &"---:|".repeat(SIDES + RATIOS.len());
    format!("| call          | table       |{times}{ratios}\n{rule}")
}

#[cfg(test)]
mod tests {
    use super::*;

    fn row(rounds: &[Round<f64>]) -> Row {
        Row::new("hit, words", (12, "half"), rounds, Some)
    }

    #[test]
    fn best_times_and_median_ratios() {
        let round = |ordinary, proved| [Some(ordinary), Some(proved), None, None, None, None];
        let row = row(&[round(2.0, 3.0), round(1.0, 5.0), round(4.0, 8.0)]);
        assert_eq!(
            (row.best(0), row.best(1), row.best(2)),
            (Some(1.0), Some(3.0), None)
        );
        assert_eq!(row.ratio(1, 0), Some(2.0));
        assert_eq!(row.ratio(2, 0), None);
        assert_eq!(row.line().matches(" - |").count(), 4 + 3);
    }

    /// Each side goes first once in six rounds, and none is left out.
    #[test]
    fn sides_take_turns() {
        let order = std::cell::RefCell::new(Vec::new());
        let note = |side: usize| {
            order.borrow_mut().push(side);
            side
        };
        let (mut first, mut last) = (|| note(0), || note(5));
        let rounds = rounds([Some(&mut first), None, None, None, None, Some(&mut last)]);
        assert_eq!(rounds.len(), ROUNDS);
        assert!(rounds
            .iter()
            .all(|round| *round == [Some(0), None, None, None, None, Some(5)]));
        assert_eq!(order.borrow()[..4], [0, 5, 5, 0]);
    }
}
