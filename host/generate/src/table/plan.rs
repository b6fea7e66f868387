//! What stands where in a table: the order of its sub-structures, its sectors and its tracks.

use crate::Rng;
use crate::layout::DATA;

/// The sectors of a table at most.
pub const MOST_SECTORS: usize = 128;

/// A sub-structure, or something else that ends the walk.
#[derive(Clone, Copy, Debug, PartialEq, Eq, Hash)]
pub enum Structure {
    TrackText,
    IsrcGenre,
    Access,
    TrackList1,
    TrackList2,
    Other,
}

use Structure::{Access, IsrcGenre, Other, TrackList1, TrackList2, TrackText};

/// What is no signature of a sub-structure.
const OTHERS: [&[u8; 8]; 6] =
    [b"SACDTRL3", b"SACDTTxT", b"sacd_IGL", b"SACD_ACD", b"TWOCHTOC", &[0; 8]];

impl Structure {
    /// Those that the walk knows.
    pub const ALL: [Structure; 5] = [TrackText, IsrcGenre, Access, TrackList1, TrackList2];

    pub fn signature(self, rng: &mut Rng) -> &'static [u8; 8] {
        match self {
            TrackText => b"SACDTTxt",
            IsrcGenre => b"SACD_IGL",
            Access => b"SACD_ACC",
            TrackList1 => b"SACDTRL1",
            TrackList2 => b"SACDTRL2",
            Other => rng.pick(&OTHERS),
        }
    }

    pub fn sectors(self) -> usize {
        match self {
            IsrcGenre => 2,
            Access => 32,
            _ => 1,
        }
    }
}

#[derive(Clone, Debug, PartialEq, Eq)]
pub struct Plan {
    /// The sub-structures, from sector 1 on.
    pub order: Vec<Structure>,
    /// The table's sectors. The last sub-structure may lie beyond them in part.
    pub sectors: usize,
    pub tracks: u8,
    /// Whether the area ends before it starts.
    pub reversed: bool,
}

impl Plan {
    /// A plan with so many sectors behind the last sub-structure, or one of its sectors lacking.
    pub fn new(order: &[Structure], behind: isize, tracks: u8) -> Self {
        let sum: usize = order.iter().map(|structure| structure.sectors()).sum();
        let sectors = (1 + sum).saturating_add_signed(behind).clamp(1, MOST_SECTORS);
        Plan { order: order.to_vec(), sectors, tracks, reversed: false }
    }

    /// Each sub-structure with its place.
    pub fn structures(&self) -> impl Iterator<Item = (Structure, usize)> {
        self.order.iter().scan(DATA, |next, &structure| {
            let at = *next;
            *next += structure.sectors() * DATA;
            Some((structure, at))
        })
    }
}

/// Every order of every selection of the five sub-structures, no one twice: 326.
pub fn orders() -> Vec<Vec<Structure>> {
    let mut all = vec![vec![]];
    let mut done = 0;
    while let Some(order) = all.get(done).cloned() {
        for structure in Structure::ALL {
            if !order.contains(&structure) {
                all.push([&order[..], &[structure]].concat());
            }
        }
        done += 1;
    }
    all
}

/// Plans at the edges: every order; each sub-structure twice and last; a part of it beyond the
/// table, with each number of tracks, and reversed too; 128 sectors; sub-structures that the walk
/// does not reach.
pub fn plans() -> Vec<Plan> {
    let mut plans: Vec<_> = orders().iter().map(|order| Plan::new(order, 1, 3)).collect();
    let lists = [TrackList1, TrackList2];
    for structure in Structure::ALL {
        for tracks in [0, 1, 2, 254, 255] {
            let last = [&lists[..], &[structure]].concat();
            let twice = [&[structure], &lists[..], &[structure]].concat();
            for behind in [-1, 0, 1] {
                plans.push(Plan::new(&last, behind, tracks));
            }
            plans.push(Plan::new(&twice, 2, tracks));
            plans.push(Plan::new(&twice, 127, tracks));
        }
        plans.push(Plan::new(&[TrackList1, Other, structure, TrackList2], 2, 3));
        plans.push(Plan::new(&[TrackList1, TrackList2, Other, structure], 2, 3));
        plans.push(Plan::new(&[TrackList2, TrackList1, structure, Access], -20, 3));
        let beyond = Plan::new(&[TrackList2, TrackList1, structure], -1, 3);
        plans.push(Plan { reversed: true, ..beyond });
    }
    plans
}

/// Mostly both track lists, among others, in any order.
pub fn any_plan(rng: &mut Rng) -> Plan {
    let mut order = vec![TrackList1, TrackList2];
    for (structure, of_16) in [(TrackText, 13), (IsrcGenre, 8), (Access, 1)] {
        if rng.below(16) < of_16 {
            order.push(structure);
        }
    }
    match rng.below(16) {
        0..=3 => order.push(rng.pick(&[TrackText, IsrcGenre, TrackList1, TrackList2])),
        4 => order.push(Other),
        _ => {}
    }
    shuffle(rng, &mut order);
    if rng.below(24) == 0 {
        order.retain(|_| rng.below(3) > 0);
    }
    let cut = rng.below(16) == 0;
    if cut && let Some(at) = order.iter().position(|&structure| structure == IsrcGenre) {
        let last = order.remove(at);
        order.push(last);
    }
    let behind = match rng.below(64) {
        _ if cut => -1,
        4..=15 => 0,
        16 => MOST_SECTORS as isize,
        17 => rng.below(MOST_SECTORS) as isize,
        _ => 1 + rng.below(4) as isize,
    };
    let reversed = rng.below(16) == 0;
    Plan { reversed, ..Plan::new(&order, behind, any_track_count(rng)) }
}

fn any_track_count(rng: &mut Rng) -> u8 {
    match rng.below(64) {
        0 => 254,
        1 => 255,
        2..=6 => 0,
        7..=12 => 1,
        13 => rng.byte(),
        _ => 2 + rng.below(12) as u8,
    }
}

fn shuffle(rng: &mut Rng, order: &mut [Structure]) {
    for at in (1..order.len()).rev() {
        order.swap(at, rng.below(at + 1));
    }
}
