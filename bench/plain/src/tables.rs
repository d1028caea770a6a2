//! Tables of a service, made by its batch call alone.

use reference::command;
use reference::grid::{HALF_WIDTH, MOST_SITES, Position, Site, TABLE_LEN, WORK_LEN};
use reference::random::Random;
use reference::record::ACCEPTED;
use service::Service;

/// How the sites lie.
#[derive(Clone, Copy)]
pub enum Lie {
    Anywhere,
    Clustered,
}

const CLUSTERS: usize = 16;
/// From a cluster's middle to its edge.
const CLUSTER_REACH: i64 = 300;

/// Where the sites of one table may lie.
struct Ground(Vec<(Position, Position)>);

impl Ground {
    fn new(random: &mut Random, lie: Lie) -> Self {
        let low = Position::new(-HALF_WIDTH, -HALF_WIDTH);
        let high = Position::new(HALF_WIDTH, HALF_WIDTH);
        let inner = HALF_WIDTH - CLUSTER_REACH;
        let mut cluster = || {
            let east = random.between(-inner, inner);
            let north = random.between(-inner, inner);
            let corner = |by| Position::new(east + by, north + by);
            (corner(-CLUSTER_REACH), corner(CLUSTER_REACH))
        };
        match lie {
            Lie::Anywhere => Ground(vec![(low, high)]),
            Lie::Clustered => Ground((0..CLUSTERS).map(|_| cluster()).collect()),
        }
    }

    fn additions(&self, random: &mut Random, numbers: &[u16]) -> Vec<u8> {
        let mut site = |number| {
            let (low, high) = random.pick(&self.0);
            let position = random.position(low, high);
            Site { number, position }
        };
        let additions = numbers.iter().map(|number| command::add(site(*number)));
        additions.collect::<Vec<_>>().concat()
    }
}

/// Which numbers the sites have.
#[derive(Clone, Copy, PartialEq)]
pub enum Numbering {
    /// This number, twice it, and so on.
    Apart(u16),
    /// Any numbers, the same ones in every table.
    Scattered,
}

impl Numbering {
    /// One after the other, from 1.
    pub const FOLLOWING: Numbering = Numbering::Apart(1);

    /// So many numbers, rising.
    fn numbers(self, count: usize) -> Vec<u16> {
        match self {
            Numbering::Apart(step) => (1..).map(|i| i * step).take(count).collect(),
            Numbering::Scattered => {
                let mut numbers: Vec<u16> = (1..=u16::MAX).collect();
                Random::new(1).shuffle(&mut numbers);
                numbers.truncate(count);
                numbers.sort_unstable();
                numbers
            }
        }
    }
}

/// What a table has to be like.
#[derive(Clone, Copy)]
pub struct Kind {
    pub lie: Lie,
    pub sites: usize,
    pub numbering: Numbering,
    /// In each round of the table's history a random half of the sites is removed, and as many
    /// are added elsewhere.
    pub rounds: usize,
}

impl Kind {
    /// Additions alone, anywhere.
    pub const fn fresh(sites: usize) -> Self {
        Kind {
            lie: Lie::Anywhere,
            sites,
            numbering: Numbering::FOLLOWING,
            rounds: 0,
        }
    }

    /// The sites' numbers, rising.
    pub fn numbers(self) -> Vec<u16> {
        self.numbering.numbers(self.sites)
    }

    pub fn table(self, service: &impl Service, random: &mut Random) -> Vec<u8> {
        let ground = Ground::new(random, self.lie);
        let mut numbers = self.numbers();
        random.shuffle(&mut numbers);
        let mut table = filled(service, &ground.additions(random, &numbers));
        for _ in 0..self.rounds {
            random.shuffle(&mut numbers);
            let half = &mut numbers[..self.sites / 2];
            let removals: Vec<_> = half.iter().map(|number| command::remove(*number)).collect();
            change(service, &mut table, &removals.concat());
            random.shuffle(half);
            change(service, &mut table, &ground.additions(random, half));
        }
        table
    }
}

/// A table laid out and given these additions.
pub fn filled(service: &impl Service, additions: &[u8]) -> Vec<u8> {
    let mut table = vec![0; TABLE_LEN];
    assert_eq!(service.lay_out(&mut table), 0);
    change(service, &mut table, additions);
    table
}

/// Commands that are all accepted.
pub fn change(service: &impl Service, table: &mut [u8], commands: &[u8]) {
    let report = serve(service, table, commands, MOST_SITES);
    assert!(report.iter().all(|byte| *byte == ACCEPTED));
}

/// One batch call that uses all commands; its report.
pub fn serve(service: &impl Service, table: &mut [u8], commands: &[u8], room: usize) -> Vec<u8> {
    let mut report = vec![0; room];
    let mut work = vec![0; WORK_LEN];
    let (reason, used, written) = service.batch(table, &mut work, commands, &mut report);
    assert_eq!((reason, used), (0, commands.len()));
    report.truncate(written);
    report
}
