//! Runs of commands: what the site book promises of every list of batch calls.

use reference::book::{Book, Tour};
use reference::command::{Command, add, list, print, stand};
use reference::grid::{Leg, WORK_LEN};
use reference::hull;
use reference::layout::{LAYOUTS, case};
use reference::random::{self, Random};
use reference::record::Record::{self, Accepted, List, Refused};
use reference::split::{is_split_list, split_list};

/// A run of commands on a fresh book, and what it leaves.
fn run(random: &mut Random, length: usize) -> Book {
    let mut book = Book::new();
    book.records(&random::commands(random, length));
    book
}

fn some_leg(random: &mut Random) -> Leg {
    let layout = random.pick(&LAYOUTS);
    case(random, layout, 0).leg
}

/// What an accepted command leaves.
fn changed(mut book: Book, command: &[u8]) -> Book {
    match Command::read(command) {
        Ok((Command::Add(site), 7)) => {
            let held = book.lines.insert(site.number, site.position);
            assert_eq!(held, None);
        }
        Ok((Command::Move(site), 7)) => {
            *book.lines.get_mut(&site.number).unwrap() = site.position;
        }
        Ok((Command::AddReadings(number, readings), 11)) => {
            let held = book.lines.insert(number, readings.position().unwrap());
            assert_eq!(held, None);
        }
        Ok((Command::MoveReadings(number, readings), 11)) => {
            *book.lines.get_mut(&number).unwrap() = readings.position().unwrap();
        }
        Ok((Command::Remove(number), 3)) => {
            book.lines.remove(&number).unwrap();
        }
        Ok((Command::Stand(leg), 9)) => {
            book.leg = Some(leg);
            return book;
        }
        Ok((Command::Begin(corner), 5)) => {
            book.tour = Some(Tour::begun(corner));
            return book;
        }
        other => panic!("2B was written for {other:?}"),
    }
    // A site came, went or moved.
    book.tour = None;
    book
}

/// What a command leaves that a list answers: a 43 the tour at its own corner, the others all.
fn asked(mut book: Book, command: &[u8]) -> Book {
    if let Ok((Command::Corner(corner), 5)) = Command::read(command) {
        let leg = book.tour.unwrap().leg_to(corner);
        let remembered = hull::split_list(&leg, &book.sites()).last().map(|e| e.site);
        book.tour = Some(Tour { corner, remembered });
    }
    book
}

#[test]
fn only_accepted_changes_change_the_book() {
    let mut random = Random::new(41);
    let (mut accepted, mut lists, mut refused) = (0, 0, [0; 12]);
    for _ in 0..100 {
        let mut book = Book::new();
        for command in random::commands(&mut random, 300) {
            let mut expected = book.clone();
            match book.records(std::slice::from_ref(&command))[..] {
                [Refused(number)] => refused[usize::from(number)] += 1,
                [List(_)] => {
                    expected = asked(expected, &command);
                    lists += 1;
                }
                [Accepted] => {
                    expected = changed(expected, &command);
                    accepted += 1;
                }
                ref answer => panic!("one command was answered by {answer:?}"),
            }
            assert_eq!(book, expected);
        }
    }
    println!("accepted: {accepted}; lists: {lists}; refusals by number: {refused:?}");
    // Refusal 5 needs a full table, which these runs do not make.
    let met = [1, 2, 3, 4, 6, 7, 8, 11].map(|number| refused[number]);
    assert!(met.iter().all(|times| *times >= 10), "{met:?}");
}

#[test]
fn the_standing_list_is_the_list_of_the_standing_leg() {
    let mut random = Random::new(42);
    let mut lists = 0;
    for _ in 0..40 {
        let mut book = Book::new();
        for command in random::commands(&mut random, 200) {
            book.records(&[command]);
            let Some(leg) = book.leg else {
                assert_eq!(book.records(&[print()]), [Refused(7)]);
                continue;
            };
            let printed = book.records(&[print()]);
            assert_eq!(printed, book.records(&[list(leg)]));
            let sites = book.sites();
            match &printed[..] {
                [Refused(6)] => assert!(sites.is_empty()),
                [List(list)] => assert!(is_split_list(&leg, &sites, list), "{leg:?}"),
                answer => panic!("one print was answered by {answer:?}"),
            }
            lists += 1;
        }
    }
    println!("standing lists tested: {lists}");
    assert!(lists >= 7_000);
}

#[test]
fn a_fresh_book_with_the_same_lines_lists_the_same() {
    let mut random = Random::new(43);
    let mut compared = 0;
    for _ in 0..300 {
        let mut book = run(&mut random, 150);
        let mut sites = book.sites();
        random.shuffle(&mut sites);
        let mut fresh = Book::new();
        let additions: Vec<Vec<u8>> = sites.iter().map(|site| add(*site)).collect();
        assert_eq!(fresh.records(&additions), vec![Accepted; sites.len()]);
        for leg in [some_leg(&mut random), some_leg(&mut random)] {
            let listed = book.records(&[list(leg)]);
            assert_eq!(listed, [List(split_list(&leg, &sites))]);
            assert_eq!(fresh.records(&[list(leg)]), listed);
            assert_eq!(fresh.records(&[stand(leg), print()])[1..], listed);
            compared += 1;
        }
    }
    println!("lists compared with a fresh book: {compared}");
    assert_eq!(compared, 600);
}

#[test]
fn cutting_a_run_into_batches_changes_no_record() {
    let mut random = Random::new(44);
    for _ in 0..100 {
        let commands = random::commands(&mut random, 200);
        let mut whole = Book::new();
        let expected = whole.records(&commands);
        let (mut cut, mut records) = (Book::new(), Vec::new());
        let mut rest = &commands[..];
        while !rest.is_empty() {
            let (batch, later) = rest.split_at(1 + random.index(rest.len().min(20)));
            records.extend(cut.records(batch));
            rest = later;
        }
        assert_eq!(records, expected);
        assert_eq!(cut, whole);
    }
}

#[test]
fn taking_up_again_after_68_loses_no_record() {
    let mut random = Random::new(45);
    let mut ended_by_68 = 0;
    for _ in 0..100 {
        let commands = random::commands(&mut random, 200);
        let mut whole = Book::new();
        let expected = whole.records(&commands);
        let (mut book, mut report) = (Book::new(), Vec::new());
        let commands = commands.concat();
        let mut rest = &commands[..];
        while !rest.is_empty() {
            // Now and then enough for a list of all 40 sites, so that the run gets on.
            let room = random.pick(&[0, 1, 2, 3, 22, 23, 24, 60, 403]);
            let reply = book.call(rest, WORK_LEN, room);
            assert!(reply.written == reply.report.len() && reply.written <= room);
            assert_eq!(reply.reason == 0, reply.used == rest.len());
            ended_by_68 += usize::from(reply.reason == 68);
            report.extend(reply.report);
            rest = &rest[reply.used..];
        }
        assert_eq!(Record::read_all(&report), Some(expected));
        assert_eq!(book, whole);
    }
    println!("calls ended by 68: {ended_by_68}");
    assert!(ended_by_68 >= 1_000);
}
