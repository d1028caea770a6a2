//! Tours of several legs (document 02, C-13): tours to try, room, and the promise as a listener hears
//! it.

use reference::book::{ALL_USED, Book, CUT_COMMAND, NO_ROOM, Tour, UNKNOWN_COMMAND, WRONG_LENGTH};
use reference::command::{Command, add, add_readings, begin, corner, list, move_readings};
use reference::fraction::Fraction;
use reference::grid::{HALF_WIDTH, Leg, MOST_SITES, Position, Site, WORK_LEN, spread};
use reference::hull;
use reference::layout::{Case, LAYOUTS, case, small_cases};
use reference::listener::{Fault, Listener, Told};
use reference::random::{self, Random};
use reference::readings::metres;
use reference::record::Record::{self, Accepted, List, Refused};
use reference::split::{Entry, name_at, split_list};
use reference::ties::{mirror_image, tie};
use reference::tours::{self, at, listed};

#[test]
fn tours_to_try() {
    for tried in tours::all() {
        let (commands, records): (Vec<_>, Vec<_>) = tried.steps.into_iter().unzip();
        assert_eq!(Book::new().records(&commands), records, "{}", tried.what);
        let (mut book, mut listener) = (Book::new(), Listener::new());
        for (command, record) in commands.iter().zip(records) {
            let reply = book.serve(command);
            assert_eq!(reply.report, record.bytes(), "{}", tried.what);
            listener.hear_call(command, &reply.report).unwrap();
        }
    }
}

#[test]
fn each_coordinate_of_a_corner_is_tested() {
    for c in [-32_768, -HALF_WIDTH - 1, HALF_WIDTH + 1, 32_767] {
        for off in [at(c, 5), at(5, c), at(c, c)] {
            let mut book = Book::of(&[Site::new(1, 0, 0)], None);
            assert_eq!(
                book.records(&[begin(off), corner(off)]),
                [Refused(2), Refused(8)]
            );
            assert_eq!(book.tour, None);
            book.records(&[begin(at(7, 7))]);
            assert_eq!(
                book.records(&[begin(off), corner(off)]),
                [Refused(2), Refused(2)]
            );
            assert_eq!(book.tour, Some(Tour::begun(at(7, 7))));
        }
    }
    for c in [-HALF_WIDTH, HALF_WIDTH] {
        for on in [at(c, 5), at(5, c), at(c, c)] {
            let mut book = Book::of(&[Site::new(1, 0, 0)], None);
            let answers = book.records(&[begin(on), corner(on)]);
            assert_eq!(answers, [Accepted, listed(&[(1, 0, 1)])]);
        }
    }
}

/// Sites 1 and 2 of document 01's first leg, and a tour that came from (0,0) to (10,0).
fn after_one_leg() -> Book {
    let mut book = Book::of(&[Site::new(1, 2, 3), Site::new(2, 7, 1)], None);
    book.records(&[begin(at(0, 0)), corner(at(10, 0))]);
    let remembered = Some(2);
    let corner = at(10, 0);
    assert_eq!(book.tour, Some(Tour { corner, remembered }));
    book
}

/// 68 leaves corner and tour: the same command again, with room, has the same record.
#[test]
fn a_leg_without_room_is_not_done() {
    let back = corner(at(0, 0));
    for room in 0..13 {
        let mut book = after_one_leg();
        let reply = book.call(&back, WORK_LEN, room);
        assert_eq!((reply.reason, reply.used, reply.written), (NO_ROOM, 0, 0));
        assert_eq!(book, after_one_leg());
        // Just the room for one entry, since the other is left out.
        let reply = book.call(&back, WORK_LEN, 13);
        assert_eq!((reply.reason, reply.written), (ALL_USED, 13));
        assert_eq!(reply.report, listed(&[(1, 63, 100)]).bytes());
        assert_eq!(book.tour.unwrap().remembered, Some(1));
    }
}

#[test]
fn a_count_of_0_needs_three_bytes() {
    let stay = corner(at(10, 0));
    for room in 0..3 {
        let mut book = after_one_leg();
        assert_eq!(book.call(&stay, WORK_LEN, room).reason, NO_ROOM);
        assert_eq!(book, after_one_leg());
    }
    let mut book = after_one_leg();
    let reply = book.call(&stay, WORK_LEN, 3);
    assert_eq!((reply.reason, reply.report), (ALL_USED, vec![0x3D, 0, 0]));
    assert_eq!(book, after_one_leg());
}

#[test]
fn calls_that_end_early_leave_a_tour() {
    let left = |commands: &[u8], work_len: usize, room: usize, reason: u8| {
        let mut book = after_one_leg();
        assert_eq!(book.call(commands, work_len, room).reason, reason);
        assert_eq!(book, after_one_leg());
    };
    left(&begin(at(3, 3)), WORK_LEN, 0, NO_ROOM);
    left(&add(Site::new(3, 3, 3)), WORK_LEN, 0, NO_ROOM);
    left(&corner(at(0, HALF_WIDTH + 1)), WORK_LEN, 1, NO_ROOM);
    left(&corner(at(0, 0)), WORK_LEN - 1, 99, WRONG_LENGTH);
    left(&[0x45], WORK_LEN, 99, UNKNOWN_COMMAND);
    for command in [
        add_readings(3, metres(300, 300)),
        move_readings(1, metres(0, 0)),
    ] {
        left(&command, WORK_LEN, 0, NO_ROOM);
        left(&command[..10], WORK_LEN, 99, CUT_COMMAND);
    }
    for command in [begin(at(3, 3)), corner(at(0, 0))] {
        assert_eq!(command.len(), 5);
        for length in 1..5 {
            left(&command[..length], WORK_LEN, 99, CUT_COMMAND);
        }
    }
}

/// Refusal records need two bytes: 8 without a tour too.
#[test]
fn refusals_of_tours_need_two_bytes() {
    let mut book = Book::new();
    for room in [0, 1] {
        assert_eq!(book.call(&corner(at(0, 0)), WORK_LEN, room).reason, NO_ROOM);
    }
    assert_eq!(book.call(&corner(at(0, 0)), WORK_LEN, 2).report, [0x21, 8]);
}

/// 512 sites, all listed there; one fewer on each way back.
#[test]
fn the_longest_legs() {
    let nth = |k: u16| Site::new(k, spread(k.into()), 0);
    let sites: Vec<Site> = (1..=512).map(nth).collect();
    let mut book = Book::of(&sites, None);
    let (west, east) = (at(-HALF_WIDTH, 0), at(HALF_WIDTH, 0));
    let mut commands = vec![begin(west)];
    commands.extend([corner(east), corner(west)].into_iter().cycle().take(6));
    let counts = book
        .records(&commands)
        .into_iter()
        .map(|record| match record {
            List(list) => list.len(),
            _ => 0,
        });
    let fewer = MOST_SITES - 1;
    assert!(counts.eq([0, MOST_SITES, fewer, fewer, fewer, fewer, fewer]));
}

/// The records of a tour written once more, from the whole lists of all its legs.
fn records_of(sites: &[Site], corners: &[Position]) -> Vec<Vec<Entry>> {
    let leg = |pair: &[Position]| Leg {
        s: pair[0],
        e: pair[1],
    };
    let whole: Vec<_> = corners
        .windows(2)
        .map(|pair| split_list(&leg(pair), sites))
        .collect();
    let ended = |nth: usize| whole[nth].last().unwrap().site;
    let left_out = |nth: usize| nth > 0 && whole[nth][0].site == ended(nth - 1);
    (0..whole.len())
        .map(|nth| whole[nth][usize::from(left_out(nth))..].to_vec())
        .collect()
}

/// Corners at the ends of the case's leg, at its sites and their mirror images and near them; twice in
/// a row, and along the leg there and back.
fn corners_of(random: &mut Random, case: &Case, count: usize) -> Vec<Position> {
    let Leg { s, e } = case.leg;
    let mut places = vec![s, e];
    for site in &case.sites {
        places.push(site.position);
        places.extend(mirror_image(&case.leg, site.position));
    }
    let mut corners: Vec<Position> = Vec::new();
    while corners.len() < count {
        let place = random.pick(&places);
        let beside = at(place.east + random.between(-2, 2), place.north);
        match random.between(1, 6) {
            1 => corners.extend(corners.last().copied()),
            2 => corners.extend([s, e, s]),
            3 if beside.on_grid() => corners.push(beside),
            _ => corners.push(place),
        }
    }
    corners.truncate(count);
    corners
}

fn commands_of(sites: &[Site], corners: &[Position]) -> Vec<Vec<u8>> {
    let mut commands: Vec<_> = sites.iter().copied().map(add).collect();
    commands.push(begin(corners[0]));
    commands.extend(corners[1..].iter().copied().map(corner));
    commands
}

#[test]
fn records_are_whole_lists_without_a_first_entry_that_was_named_last() {
    let mut random = Random::new(401);
    let mut told = Told::default();
    for case in small_cases(402, 900) {
        let corners = corners_of(&mut random, &case, 8);
        let commands = commands_of(&case.sites, &corners);
        let records = Book::new().records(&commands);
        let expected = records_of(&case.sites, &corners).into_iter().map(List);
        assert!(
            records[case.sites.len() + 1..].iter().cloned().eq(expected),
            "{case:?}"
        );
        let mut listener = Listener::new();
        for (command, record) in commands.iter().zip(&records) {
            let (command, _) = Command::read(command).unwrap();
            // What 4C lists of that leg, by the definition and not by the hull.
            let leg = listener.leg_to(&command);
            let list = leg.map_or(vec![], |leg| split_list(&leg, &case.sites));
            listener.hear_beside(&command, record, &list).unwrap();
        }
        told.add(&listener.told);
    }
    println!("{told:?}");
    assert_eq!((told.begun, told.legs, told.most_legs), (9_000, 63_000, 7));
    assert!(told.left_out >= 30_000 && told.changed_at_corner >= 2_000);
    assert!(told.nothing >= 10_000 && told.nothing_again >= 5_000);
}

#[test]
fn large_tables_by_the_hull() {
    let mut random = Random::new(403);
    let mut told = Told::default();
    for layout in LAYOUTS.into_iter().cycle().take(60) {
        let case = case(&mut random, layout, 200);
        let corners = corners_of(&mut random, &case, 12);
        let commands = commands_of(&case.sites, &corners).concat();
        let reply = Book::new().call(&commands, WORK_LEN, usize::MAX);
        let mut listener = Listener::new();
        listener.hear_call(&commands, &reply.report).unwrap();
        told.add(&listener.told);
    }
    println!("{told:?}");
    assert_eq!(told.legs, 660);
    assert!(told.left_out >= 200 && told.nothing >= 50 && told.fractions >= 5_000);
}

/// Commands of all kinds, in calls of any length and with any room.
#[test]
fn the_promise_is_kept_in_every_run() {
    let mut random = Random::new(404);
    let mut told = Told::default();
    for _ in 0..150 {
        let commands = random::commands(&mut random, 400).concat();
        let (mut book, mut listener) = (Book::new(), Listener::new());
        let mut rest = &commands[..];
        while !rest.is_empty() {
            let offered = rest.len().min(1 + random.index(60));
            let room = random.pick(&[0, 1, 2, 3, 12, 13, 23, 60, 403, 403]);
            let reply = book.call(&rest[..offered], WORK_LEN, room);
            let used = &rest[..reply.used];
            listener.hear_call(used, &reply.report).unwrap();
            rest = &rest[reply.used..];
        }
        let heard = book.tour.map(|tour| (tour.corner, tour.remembered));
        assert_eq!(listener.tour(), heard, "what the book remembers was heard");
        told.add(&listener.told);
    }
    println!("{told:?}");
    assert!(told.begun >= 2_000 && told.legs >= 5_000 && told.most_legs >= 8);
    assert!(told.across_calls >= 2_000 && told.left_out >= 5_000);
    assert!(told.nothing >= 1_000 && told.nothing_again >= 300);
    assert!(told.changed_at_corner >= 200);
}

type Tamper = fn(&mut [Vec<Entry>]);

/// What a listener says of a tour over these sites whose records were tampered with.
fn heard(sites: &[Site], corners: &[Position], tamper: Tamper) -> Result<(), Fault> {
    let commands = commands_of(sites, corners);
    let mut lists = records_of(sites, corners);
    tamper(&mut lists);
    let mut records = vec![Accepted; sites.len() + 1];
    records.extend(lists.into_iter().map(List));
    let report: Vec<u8> = records.iter().flat_map(Record::bytes).collect();
    Listener::new().hear_call(&commands.concat(), &report)
}

#[test]
fn a_listener_hears_each_wrong_record() {
    let sites = [
        Site::new(1, 0, 0),
        Site::new(2, 10, 0),
        Site::new(3, 10, 10),
    ];
    let corners = [at(0, 0), at(10, 0), at(10, 10), at(0, 0)];
    // On the leg from this corner on, at n/d.
    let misnamed = |from: usize, n: u64, d: u64| {
        let (s, e) = (corners[from], corners[from + 1]);
        Err(Fault::Misnamed(Leg { s, e }, Fraction::new(n, d)))
    };
    let cases: [(Tamper, _); 9] = [
        (|_| {}, Ok(())),
        // All names are told where a first entry is not left out; that it is, the book says.
        (|lists| lists[1].insert(0, Entry::new(2, 0, 1)), Ok(())),
        // The first leg's first entry is no one's to leave out.
        (|lists| lists[0][0].site = 2, misnamed(0, 1, 4)),
        (|lists| lists[0] = lists[0][1..].to_vec(), misnamed(0, 1, 4)),
        (|lists| lists[0].truncate(1), misnamed(0, 3, 4)),
        (|lists| lists[1].clear(), misnamed(1, 3, 4)),
        (|lists| lists[2][0].site = 3, misnamed(2, 3, 4)),
        (
            |lists| lists[2][0].start = Fraction::new(1, 3),
            misnamed(2, 5, 12),
        ),
        (
            |lists| lists[2][0].start = Fraction::ONE,
            Err(Fault::Unreadable),
        ),
    ];
    for (nth, (tamper, expected)) in cases.into_iter().enumerate() {
        assert_eq!(heard(&sites, &corners, tamper), expected, "{nth}");
    }
}

#[test]
fn a_listener_hears_what_is_no_tours() {
    let mut listener = Listener::joining(&[Site::new(1, 0, 0)], None);
    let (from, to) = (Command::Begin(at(0, 0)), Command::Corner(at(3, 3)));
    let (whole, nothing) = (listed(&[(1, 0, 1)]), listed(&[]));
    let untold = Fault::Misnamed(Leg::new((0, 0), (3, 3)), Fraction::new(1, 2));
    for (command, record, expected) in [
        (to, &whole, Err(Fault::NotOfATour)),
        (to, &Refused(2), Err(Fault::NotOfATour)),
        (to, &Refused(8), Ok(())),
        (from, &whole, Err(Fault::OtherRecord)),
        (from, &Accepted, Ok(())),
        (to, &Refused(8), Err(Fault::NotOfATour)),
        (to, &Accepted, Err(Fault::OtherRecord)),
        (to, &nothing, Err(untold)),
        (to, &Refused(2), Ok(())),
        (to, &whole, Ok(())),
        (to, &nothing, Ok(())),
        (from, &Accepted, Ok(())),
        (to, &nothing, Err(untold)),
        (Command::Remove(1), &Accepted, Ok(())),
        (to, &Refused(6), Err(Fault::NotOfATour)),
    ] {
        let heard = listener.hear(&command, record);
        assert_eq!(heard, expected, "{command:?} {record:?}");
    }
    let unreadable = Err(Fault::Unreadable);
    assert_eq!(listener.hear_call(&[], &[0x2B]), unreadable);
    assert_eq!(listener.hear_call(&begin(at(0, 0)), &[]), unreadable);
    assert_eq!(listener.hear_call(&begin(at(0, 0)), &[0x3D, 1]), unreadable);
}

/// Two sites at one position tie along every leg and are on the same side of it, so that the lower
/// number is named, always. In a run, then, a first entry at the position of the remembered site
/// names that very site: none could be left out for its position alone.
#[test]
fn of_sites_at_one_position_the_lowest_number_alone_is_listed() {
    let mut shared = 0;
    for Case { leg, sites } in small_cases(405, 2_000) {
        for entry in split_list(&leg, &sites) {
            let listed = sites.iter().find(|site| site.number == entry.site).unwrap();
            let there = sites.iter().filter(|site| site.position == listed.position);
            assert_eq!(
                there.clone().map(|site| site.number).min(),
                Some(entry.site)
            );
            shared += usize::from(there.count() > 1);
        }
    }
    assert!(shared >= 4_000, "{shared}");
}

/// A table may come from elsewhere and remember the other one; then the first entry stays.
#[test]
fn a_remembered_number_is_compared_as_a_number() {
    let sites = [Site::new(3, 4, 0), Site::new(8, 4, 0)];
    for (remembered, entries) in [
        (None, &[(3, 0, 1)][..]),
        (Some(8), &[(3, 0, 1)]),
        (Some(3), &[]),
    ] {
        let tour = Some(Tour {
            corner: at(0, 0),
            remembered,
        });
        let mut book = Book {
            tour,
            ..Book::of(&sites, None)
        };
        assert_eq!(book.records(&[corner(at(9, 0))]), [listed(entries)]);
        assert_eq!(book.tour.unwrap().remembered, Some(3));
    }
}

/// Of sites that are equally near at the corner the next leg may name another one. So it is with
/// mirror images on the way back, and nowhere else is the way back's first entry not left out.
#[test]
fn on_the_way_back_the_first_entry_stays_only_for_a_mirror_image() {
    let (mut stays, mut left_out) = (0, 0);
    for Case { leg, sites } in small_cases(406, 2_000) {
        let commands = commands_of(&sites, &[leg.s, leg.e, leg.s]);
        let records = Book::new().records(&commands);
        let (there, back) = (hull::split_list(&leg, &sites), records.last().unwrap());
        let List(back) = back else { panic!("{back:?}") };
        let position = |number| sites.iter().find(|s| s.number == number).unwrap().position;
        let ended = there.last().unwrap().site;
        if let Some(first) = name_at(back, Fraction::ZERO) {
            assert!(first != ended && position(first) != position(ended));
            assert!(
                tie(&leg, position(first), position(ended)),
                "{leg:?} {sites:?}"
            );
            stays += 1;
        } else {
            left_out += 1;
        }
    }
    println!("stays {stays}, left out {left_out}");
    assert!(stays >= 1_000 && left_out >= 10_000);
}

/// 4C of the tour's own leg, as the next command, lists what 43 would.
#[test]
fn the_whole_list_is_what_4c_lists() {
    let mut random = Random::new(407);
    for case in small_cases(408, 300) {
        let corners = corners_of(&mut random, &case, 5);
        let mut book = Book::of(&case.sites, None);
        book.records(&[begin(corners[0])]);
        for pair in corners.windows(2) {
            let leg = Leg {
                s: pair[0],
                e: pair[1],
            };
            let tour = book.tour;
            let [List(whole), List(record)] = &book.records(&[list(leg), corner(leg.e)])[..] else {
                panic!("two lists");
            };
            assert!(whole.ends_with(record) && whole.len() - record.len() <= 1);
            let first = Some(whole[0].site);
            assert_eq!(
                record.len() < whole.len(),
                tour.unwrap().remembered == first
            );
        }
    }
}
