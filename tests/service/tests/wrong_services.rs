//! Wrong services, document 01's six and more: the comparisons of the other tests reject each,
//! and for the reason that it is wrong. Each is the model with one fault.

use reference::book::{Book, Tour};
use reference::command::{self, Command, LIST, PRINT, list};
use reference::grid::{HALF_WIDTH, Leg, MOST_SITES, Position, Site, WORK_LEN, WRONG_WORK};
use reference::layout::{LAYOUTS, MIRRORED, case};
use reference::random::Random;
use reference::reading::{Reading, Readings, STEP_OFF_GRID};
use reference::readings::{self, INFINITY, NEGATIVE_ZERO, NO_NUMBER, ZERO};
use reference::record::{ACCEPTED, LISTED, REFUSED};
use reference::ties::{
    left_first, not_left_first, number_alone, right_by_narrow_products,
    right_of_the_way_back_first, right_then_higher, south_first,
};
use reference::tours;
use service::bytes::{
    ENTRIES_LISTED, FAR_EDGE, HEADER_KEPT, LEVELS, REMEMBERED, ROOT, STACK_END, TOUR, TOUR_FLAG,
    empty_table, entry_at, leg, listed, listed_at, number, put_word, sites, tour, word,
};
use service::damage::{assert_wrong_length_first, flipped, offer, regions, stored_by};
use service::desk::Desk;
use service::draw::{Pool, broken_off};
use service::faults::{ELSEWHERE, STANDING};
use service::hearing::hear_alone;
use service::history::{Size, compare_with_fresh, run};
use service::shape::{self, Dealing};
use service::table::{Rule, broken_rules, meaning, reason};
use service::written_out::Pair;
use service::wrong::{Step, Wrong, listing_by, replacing, slipping};
use service::{Answer, BROKEN_STANDING, BROKEN_TABLE, Model, Service};

/// Of each size, so many that the rarest fault shows: the side by narrow products.
const ROUNDS: usize = 200;

/// A little of what the other tests do.
fn trial(service: &impl Service) {
    for work_len in WRONG_WORK {
        assert_wrong_length_first(service, &empty_table(), work_len);
    }
    let mut random = Random::new(111);
    for size in [Size::Few, Size::Some].repeat(ROUNDS) {
        let mut run = run(&mut random, service, size);
        compare_with_fresh(&mut random, &mut run);
        let table = run.desk.table.clone();
        for region in regions(&table) {
            if !region.bytes.is_empty() {
                let at = region.bytes.start + random.index(region.bytes.len());
                offer(service, &flipped(&table, at, random.index(8)), &[0x50]);
            }
        }
        offer(service, &flipped(&table, STACK_END, 0), &[0x50]);
        offer(service, &stored_by(number_alone, &table), &[0x50]);
        assert_wrong_length_first(service, &table, 0);
        trial_of_tours(service, &mut random, &run.pool, &table);
    }
}

/// The table in tours that others began, and with a tour's words that a rule forbids.
fn trial_of_tours(service: &impl Service, random: &mut Random, pool: &Pool, table: &[u8]) {
    let held: Vec<u16> = sites(table).iter().map(|site| site.number).collect();
    let mut others = table.to_vec();
    let remembered = (!held.is_empty()).then(|| random.pick(&held));
    let corner = pool.leg(random).s;
    shape::write_tour(&mut others, Some(Tour { corner, remembered }));
    let to = command::corner(pool.leg(random).e);
    offer(service, &others, &to);
    for at in TOUR.step_by(2) {
        let mut broken = others.clone();
        put_word(
            &mut broken,
            at,
            random.pick(&[0, 1, 2, FAR_EDGE + 1, 65_535]),
        );
        offer(service, &broken, &to);
    }
}

/// The commands one by one, as far as they can be read, and their lengths.
fn read_all(mut commands: &[u8]) -> Vec<(Command, usize)> {
    let mut read = Vec::new();
    while let Ok((command, length)) = Command::read(commands) {
        read.push((command, length));
        commands = &commands[length..];
    }
    read
}

#[test]
fn the_model_passes_the_trial() {
    trial_by_tours(&Wrong(|t, w, c, r| Model.batch(t, w, c, r)));
}

#[test]
#[should_panic(expected = "the table holds")]
fn accepts_additions_and_holds_none() {
    trial(&Wrong(|t, w, c, r| Model.batch(&mut t.to_vec(), w, c, r)));
}

/// What is written shows it, or the table where all the rest would be accepted.
#[test]
#[should_panic(expected = ", not ")]
fn carries_out_the_first_command_and_writes_2b_for_the_rest() {
    trial(&Wrong(|t, w, c, r| {
        let answer = Model.batch(&mut t.to_vec(), w, c, r);
        let first = read_all(c).first().map_or(0, |(_, length)| *length);
        let (_, _, written) = Model.batch(t, w, &c[..first], r);
        r[written..answer.2.max(written)].fill(ACCEPTED);
        answer
    }));
}

/// Other bytes are written, or more or fewer of them.
#[test]
#[should_panic(expected = "written")]
fn prints_one_list_for_all_legs() {
    trial(&Wrong(|t, w, c, r| {
        let mut commands = c.to_vec();
        let mut at = 0;
        for (command, length) in read_all(c) {
            if let Command::List(leg) = command
                && leg.s.on_grid()
                && leg.e.on_grid()
            {
                commands[at..at + length].copy_from_slice(&list(Leg::new((0, 0), (1, 1))));
            }
            at += length;
        }
        Model.batch(t, w, &commands, r)
    }));
}

/// Where that is refused for another cause, the written bytes show it.
#[test]
#[should_panic(expected = "written")]
fn says_5_on_its_first_command() {
    trial(&Wrong(|t, w, c, r| match read_all(c).first() {
        Some((_, length)) if r.len() >= 2 && w.len() == WORK_LEN => {
            w.fill(0);
            r[..2].copy_from_slice(&[REFUSED, 5]);
            (0, *length, 2)
        }
        _ => Model.batch(t, w, c, r),
    }));
}

#[test]
#[should_panic(expected = "reason, used and written")]
fn says_68_on_its_first_command() {
    trial(&Wrong(|t, w, c, r| match Model.batch(t, w, c, r) {
        (0, used, _) if used > 0 => (68, 0, 0),
        answer => answer,
    }));
}

#[test]
#[should_panic(expected = "reason, used and written")]
fn invents_the_used_count() {
    trial(&Wrong(|t, w, c, r| {
        let (reason, used, written) = Model.batch(t, w, c, r);
        (reason, used + 1, written)
    }));
}

#[test]
#[should_panic(expected = "reason, used and written")]
fn invents_the_written_count() {
    trial(&Wrong(|t, w, c, r| {
        let (reason, used, written) = Model.batch(t, w, c, r);
        (reason, used, written.saturating_sub(1))
    }));
}

#[test]
#[should_panic(expected = "is written, not")]
fn invents_the_entry_count() {
    trial(&Wrong(|t, w, c, r| {
        let answer = Model.batch(t, w, c, r);
        if answer.2 > 0 && r[0] == LISTED && c[0] == LIST {
            r[1] += 1;
        }
        answer
    }));
}

#[test]
#[should_panic(expected = "reason, used and written")]
fn refuses_all() {
    trial(&Wrong(|_, w, c, r| {
        w.fill(0);
        let refusals = read_all(c).len().min(r.len() / 2);
        r[..2 * refusals].copy_from_slice(&[REFUSED, 1].repeat(refusals));
        (0, c.len(), 2 * refusals)
    }));
}

#[test]
#[should_panic(expected = "the work buffer is")]
fn leaves_a_byte_in_the_work_buffer() {
    trial(&Wrong(|t, w, c, r| {
        let answer = Model.batch(t, w, c, r);
        if let (0, Some(byte)) = (answer.0, w.last_mut()) {
            *byte = 1;
        }
        answer
    }));
}

#[test]
#[should_panic(expected = "the work buffer is")]
fn clears_a_work_buffer_of_wrong_length() {
    trial(&Wrong(|t, w, c, r| {
        let answer = Model.batch(t, w, c, r);
        w.fill(0);
        answer
    }));
}

/// As the model, but for a work buffer of this length.
fn taking(work_len: usize, t: &mut [u8], w: &mut [u8], c: &[u8], r: &mut [u8]) -> Answer {
    if w.len() != work_len {
        return Model.batch(t, w, c, r);
    }
    w.fill(0);
    Model.batch(t, &mut [0; WORK_LEN], c, r)
}

#[test]
#[should_panic(expected = "bytes of work")]
fn takes_a_work_buffer_one_byte_longer() {
    trial(&Wrong(|t, w, c, r| taking(WORK_LEN + 1, t, w, c, r)));
}

#[test]
#[should_panic(expected = "bytes of work")]
fn takes_a_work_buffer_as_long_as_before() {
    trial(&Wrong(|t, w, c, r| taking(4 * WORK_LEN, t, w, c, r)));
}

#[test]
#[should_panic(expected = "the work buffer is 0")]
fn leaves_a_mark_after_65() {
    trial(&Wrong(|t, w, c, r| {
        let answer = Model.batch(t, w, c, r);
        if answer.0 == BROKEN_TABLE {
            w[0] = 1;
        }
        answer
    }));
}

#[test]
#[should_panic(expected = "the rest of the report is left")]
fn writes_past_what_it_counts() {
    trial(&Wrong(|t, w, c, r| {
        let answer = Model.batch(t, w, c, r);
        if let (68, Some(byte)) = (answer.0, r[answer.2..].last_mut()) {
            *byte = 0;
        }
        answer
    }));
}

/// All of the table is left, or all but the tour's words where a leg was answered.
#[test]
#[should_panic(expected = " is left by ")]
fn reshapes_the_tree_where_nothing_is_accepted() {
    trial(&Wrong(|t, w, c, r| {
        let answer = Model.batch(t, w, c, r);
        if let (0, Ok(meaning)) = (answer.0, meaning(t)) {
            let book = meaning.book;
            shape::write(t, &book.sites(), book.leg, &mut Dealing::Tallest);
        }
        answer
    }));
}

#[test]
#[should_panic(expected = "the table breaks [SmallestBox]")]
fn leaves_a_box_wide() {
    trial(&Wrong(|t, w, c, r| {
        let answer = Model.batch(t, w, c, r);
        let first_box = entry_at(number(t, ROOT), 0);
        if answer.1 > 0 && number(t, LEVELS) > 1 {
            t[first_box + 6] ^= 1;
        }
        answer
    }));
}

#[test]
#[should_panic(expected = "the table breaks [StandingList]")]
fn forgets_the_standing_list() {
    trial(&Wrong(|t, w, c, r| {
        let answer = Model.batch(t, w, c, r);
        if answer.2 > 0 && r[0] == ACCEPTED {
            t[ENTRIES_LISTED] = 0;
        }
        answer
    }));
}

#[test]
#[should_panic(expected = "[HeaderKeptZero]")]
fn takes_a_broken_table() {
    trial(&Wrong(|t, w, c, r| {
        let kept = t[HEADER_KEPT].to_vec();
        t[HEADER_KEPT].fill(0);
        let answer = Model.batch(t, w, c, r);
        t[HEADER_KEPT].copy_from_slice(&kept);
        answer
    }));
}

#[test]
#[should_panic(expected = "reason, used and written")]
fn refuses_a_table_for_its_free_bytes() {
    trial(&Wrong(|t, w, c, r| {
        if t[STACK_END] != 0 {
            w.fill(0);
            return (BROKEN_TABLE, 0, 0);
        }
        Model.batch(t, w, c, r)
    }));
}

#[test]
#[should_panic(expected = "is written, not")]
fn lists_by_number_alone() {
    trial(&Wrong(|t, w, c, r| listing_by(number_alone, t, w, c, r)));
}

#[test]
#[should_panic(expected = "is written, not")]
fn lists_the_left_hand_side_first() {
    trial(&Wrong(|t, w, c, r| listing_by(left_first, t, w, c, r)));
}

#[test]
#[should_panic(expected = "is written, not")]
fn takes_the_side_of_the_way_back() {
    trial(&Wrong(|t, w, c, r| {
        listing_by(right_of_the_way_back_first, t, w, c, r)
    }));
}

#[test]
#[should_panic(expected = "is written, not")]
fn takes_the_south_for_the_right() {
    trial(&Wrong(|t, w, c, r| listing_by(south_first, t, w, c, r)));
}

#[test]
#[should_panic(expected = "is written, not")]
fn takes_the_side_by_narrow_products() {
    trial(&Wrong(|t, w, c, r| {
        listing_by(right_by_narrow_products, t, w, c, r)
    }));
}

#[test]
#[should_panic(expected = "is written, not")]
fn lists_the_higher_number_of_a_side() {
    trial(&Wrong(|t, w, c, r| {
        listing_by(right_then_higher, t, w, c, r)
    }));
}

/// No list differs where the line counts as right, so this service is not wrong.
#[test]
fn counts_the_line_as_right_and_passes() {
    trial(&Wrong(|t, w, c, r| listing_by(not_left_first, t, w, c, r)));
}

#[test]
#[should_panic(expected = "the table breaks [StandingList]")]
fn stores_the_list_of_the_earlier_rule() {
    trial(&Wrong(|t, w, c, r| {
        let answer = Model.batch(t, w, c, r);
        if meaning(t).is_ok() {
            t.copy_from_slice(&stored_by(number_alone, t));
        }
        answer
    }));
}

#[test]
#[should_panic(expected = "reason, used and written")]
fn judges_a_stored_list_by_the_earlier_rule() {
    trial(&Wrong(|t, w, c, r| {
        let sound = w.len() == WORK_LEN && meaning(t).is_ok();
        if sound && stored_by(number_alone, t) != t {
            w.fill(0);
            return (BROKEN_STANDING, 0, 0);
        }
        Model.batch(t, w, c, r)
    }));
}

#[test]
#[should_panic(expected = "[StandingList]")]
fn takes_a_stored_list_of_the_earlier_rule_too() {
    trial(&Wrong(|t, w, c, r| {
        if broken_rules(t) == [Rule::StandingList] {
            let mut right = t.to_vec();
            shape::write_standing(&mut right, &sites(t), leg(t));
            if stored_by(number_alone, &right) == t {
                t.copy_from_slice(&right);
            }
        }
        Model.batch(t, w, c, r)
    }));
}

// Tours: document 02, C-13.

/// The tours to try, one command a call, first with too little room and then with just enough; then
/// the trial of the others.
fn trial_by_tours(service: &impl Service) {
    for tried in tours::all() {
        let mut desk = Desk::lay_out(service);
        for (command, record) in tried.steps {
            let length = record.bytes().len();
            desk.call(&command, WORK_LEN, length - 1);
            desk.call(&command, WORK_LEN, length);
        }
    }
    trial(service);
}

/// Whether a leg was answered.
fn answered(step: &Step) -> bool {
    matches!(step.command, Command::Corner(_)) && step.record.first() == Some(&LISTED)
}

fn accepted(step: &Step) -> bool {
    *step.record == [ACCEPTED]
}

fn refused(step: &Step) -> bool {
    step.record.first() == Some(&REFUSED)
}

/// The model, but for what it does after a command.
macro_rules! slips_after {
    ($t:ident, $step:ident => $slip:expr) => {
        Wrong(|t, w, c, r| {
            let after = |$t: &mut [u8], $step: Step| $slip;
            slipping(|_, _| {}, after, (t, w, c, r))
        })
    };
}

#[test]
fn slips_nowhere_and_passes() {
    trial_by_tours(&slips_after!(_t, _step => {}));
}

/// The tour's words as they were before the command.
fn keep_tour(t: &mut [u8], step: &Step) {
    t[TOUR].copy_from_slice(&step.before[TOUR]);
}

#[test]
#[should_panic(expected = "the table holds")]
fn remembers_the_first_site_of_a_record() {
    trial_by_tours(&slips_after!(t, step => {
        if answered(&step) && step.record.len() > 3 {
            t[REMEMBERED..TOUR.end].copy_from_slice(&step.record[3..5]);
        }
    }));
}

/// Which is none where the count is 0.
#[test]
#[should_panic(expected = "the table holds")]
fn remembers_the_last_site_of_a_record() {
    trial_by_tours(&slips_after!(t, step => {
        if answered(&step) {
            let last = match step.record.len() {
                3 => [0, 0],
                length => [step.record[length - 10], step.record[length - 9]],
            };
            t[REMEMBERED..TOUR.end].copy_from_slice(&last);
        }
    }));
}

#[test]
#[should_panic(expected = "the table holds")]
fn remembers_the_site_of_the_leg_before_the_last() {
    trial_by_tours(&slips_after!(t, step => {
        if answered(&step) && word(step.before, REMEMBERED) != 0 {
            put_word(t, REMEMBERED, word(step.before, REMEMBERED));
        }
    }));
}

/// A table that others made shows it: two sites at one position, the higher number remembered.
#[test]
#[should_panic(expected = "written")]
fn leaves_out_an_entry_for_its_position_alone() {
    trial_by_tours(&Wrong(|t, w, c, r| {
        let by_position = |t: &mut [u8], command: &Command| {
            let sites = sites(t);
            let number = word(t, REMEMBERED);
            let there = sites.iter().find(|site| site.number == number);
            let same = |site: &&Site| there.is_some_and(|s| s.position == site.position);
            if let (Command::Corner(_), Some(first)) = (command, sites.iter().find(same)) {
                put_word(t, REMEMBERED, first.number);
            }
        };
        let if_answered = |t: &mut [u8], step: Step| {
            if matches!(step.command, Command::Corner(_)) && !answered(&step) {
                keep_tour(t, &step);
            }
        };
        if meaning(t).is_err() {
            return Model.batch(t, w, c, r);
        }
        slipping(by_position, if_answered, (t, w, c, r))
    }));
}

#[test]
#[should_panic(expected = "the table is left by")]
fn ends_the_tour_at_a_refused_command() {
    trial_by_tours(&slips_after!(t, step => {
        if refused(&step) {
            t[TOUR].fill(0);
        }
    }));
}

#[test]
#[should_panic(expected = "the table holds")]
fn ends_the_tour_at_an_accepted_53() {
    trial_by_tours(&slips_after!(t, step => {
        if accepted(&step) && matches!(step.command, Command::Stand(_)) {
            t[TOUR].fill(0);
        }
    }));
}

#[test]
#[should_panic(expected = "the table is left by")]
fn ends_the_tour_at_4c() {
    trial_by_tours(&slips_after!(t, step => {
        if matches!(step.command, Command::List(_)) {
            t[TOUR].fill(0);
        }
    }));
}

#[test]
#[should_panic(expected = "the table holds")]
fn keeps_the_tour_at_an_accepted_41() {
    trial_by_tours(&slips_after!(t, step => {
        if accepted(&step) && matches!(step.command, Command::Add(_)) {
            keep_tour(t, &step);
        }
    }));
}

/// The table breaks a rule where the remembered site is the one that goes.
#[test]
#[should_panic(expected = "the table holds")]
fn keeps_the_tour_at_an_accepted_44() {
    trial_by_tours(&slips_after!(t, step => {
        if let (true, Command::Remove(number)) = (accepted(&step), step.command)
            && word(step.before, REMEMBERED) != number
        {
            keep_tour(t, &step);
        }
    }));
}

#[test]
#[should_panic(expected = "the table breaks [RememberedHeld]")]
fn remembers_a_site_that_was_removed() {
    trial_by_tours(&slips_after!(t, step => {
        if let (true, Command::Remove(number)) = (accepted(&step), step.command)
            && word(step.before, REMEMBERED) == number
        {
            keep_tour(t, &step);
        }
    }));
}

#[test]
#[should_panic(expected = "the table holds")]
fn keeps_the_tour_at_a_move_to_the_same_place() {
    trial_by_tours(&slips_after!(t, step => {
        let stays = |site: &Site| sites(step.before).contains(site);
        if let (true, Command::Move(site)) = (accepted(&step), step.command)
            && stays(&site)
        {
            keep_tour(t, &step);
        }
    }));
}

#[test]
#[should_panic(expected = "the table is left by")]
fn goes_on_without_room() {
    trial_by_tours(&slips_after!(t, step => {
        if let (Command::Corner(corner), []) = (step.command, &*step.record) {
            let remembered = tour(t).and_then(|tour| tour.remembered);
            shape::write_tour(t, Some(Tour { corner, remembered }));
        }
    }));
}

#[test]
#[should_panic(expected = "the table holds")]
fn stays_at_the_first_corner() {
    trial_by_tours(&slips_after!(t, step => {
        if answered(&step) {
            t[TOUR.start..REMEMBERED].copy_from_slice(&step.before[TOUR.start..REMEMBERED]);
        }
    }));
}

#[test]
#[should_panic(expected = "the table holds")]
fn begins_no_tour_within_another() {
    trial_by_tours(&slips_after!(t, step => {
        if matches!(step.command, Command::Begin(_)) && tour(step.before).is_some() {
            keep_tour(t, &step);
        }
    }));
}

#[test]
#[should_panic(expected = "the table holds")]
fn remembers_a_site_through_42() {
    trial_by_tours(&slips_after!(t, step => {
        if accepted(&step) && matches!(step.command, Command::Begin(_)) {
            put_word(t, REMEMBERED, word(step.before, REMEMBERED));
        }
    }));
}

#[test]
#[should_panic(expected = "is written, not")]
fn refuses_a_corner_off_the_grid_with_2_without_a_tour() {
    trial_by_tours(&slips_after!(_t, step => {
        if let (Command::Corner(corner), [REFUSED, number]) = (step.command, step.record)
            && !corner.on_grid()
        {
            *number = 2;
        }
    }));
}

#[test]
#[should_panic(expected = "is written, not")]
fn refuses_a_corner_with_6_before_2() {
    trial_by_tours(&slips_after!(t, step => {
        if let (Command::Corner(_), [REFUSED, number @ 2]) = (step.command, step.record)
            && sites(t).is_empty()
        {
            *number = 6;
        }
    }));
}

/// The first start that is printed becomes 0.
#[test]
#[should_panic(expected = "is written, not")]
fn counts_the_starts_from_the_first_that_is_printed() {
    trial_by_tours(&slips_after!(_t, step => {
        if answered(&step) && step.record.len() > 3 {
            step.record[5..13].copy_from_slice(&[0, 0, 0, 0, 1, 0, 0, 0]);
        }
    }));
}

/// Asks for room for the whole list, though its first entry is left out.
#[test]
#[should_panic(expected = "reason, used and written")]
fn asks_for_room_for_what_it_leaves_out() {
    trial_by_tours(&Wrong(|t, w, c, r| {
        let mut whole = t.to_vec();
        put_word(&mut whole, REMEMBERED, 0);
        let one = matches!(read_all(c)[..], [(Command::Corner(_), _)]);
        let room = &mut r.to_vec();
        if one && meaning(t).is_ok() && Model.batch(&mut whole, w, c, room).0 == 68 {
            return (68, 0, 0);
        }
        Model.batch(t, w, c, r)
    }));
}

/// As the model, but tables with this rule broken alone are taken, mended for the call.
fn taking_broken(rule: Rule, t: &mut [u8], w: &mut [u8], c: &[u8], r: &mut [u8]) -> Answer {
    if broken_rules(t) != [rule] {
        return Model.batch(t, w, c, r);
    }
    let mut mended = t.to_vec();
    shape::write_tour(&mut mended, None);
    let answer = Model.batch(&mut mended, w, c, r);
    if answer.1 > 0 {
        t.copy_from_slice(&mended);
    }
    answer
}

#[test]
#[should_panic(expected = "[TourFlag]")]
fn takes_another_flag_of_a_tour() {
    trial_by_tours(&Wrong(|t, w, c, r| {
        taking_broken(Rule::TourFlag, t, w, c, r)
    }));
}

#[test]
#[should_panic(expected = "[CornerOnGrid]")]
fn takes_a_corner_off_the_grid() {
    trial_by_tours(&Wrong(|t, w, c, r| {
        taking_broken(Rule::CornerOnGrid, t, w, c, r)
    }));
}

#[test]
#[should_panic(expected = "[RememberedHeld]")]
fn takes_a_remembered_site_that_is_not_held() {
    trial_by_tours(&Wrong(|t, w, c, r| {
        taking_broken(Rule::RememberedHeld, t, w, c, r)
    }));
}

#[test]
#[should_panic(expected = "[NoTourIsZero]")]
fn takes_a_corner_without_a_tour() {
    trial_by_tours(&Wrong(|t, w, c, r| {
        taking_broken(Rule::NoTourIsZero, t, w, c, r)
    }));
}

#[test]
#[should_panic(expected = "reason, used and written")]
fn refuses_a_table_with_a_tour() {
    trial_by_tours(&Wrong(|t, w, c, r| {
        if w.len() == WORK_LEN && word(t, TOUR_FLAG) != 0 {
            w.fill(0);
            return (BROKEN_TABLE, 0, 0);
        }
        Model.batch(t, w, c, r)
    }));
}

#[test]
#[should_panic(expected = "reason, used and written")]
fn refuses_a_tour_without_a_remembered_site() {
    trial_by_tours(&Wrong(|t, w, c, r| {
        if w.len() == WORK_LEN && tour(t).is_some_and(|tour| tour.remembered.is_none()) {
            w.fill(0);
            return (BROKEN_TABLE, 0, 0);
        }
        Model.batch(t, w, c, r)
    }));
}

/// What a listener says who has no book: only names count, so that not each of these services is
/// wrong to him.
fn heard(service: &impl Service) {
    let mut random = Random::new(112);
    for layout in MIRRORED.repeat(20) {
        let pool = Pool::of(&mut random, layout, 12);
        hear_alone(service, &mut random, &pool, 10);
    }
}

#[test]
fn the_model_keeps_the_promise() {
    heard(&Model);
}

#[test]
#[should_panic(expected = "heard of Corner")]
fn a_listener_misses_what_the_leg_before_the_last_hides() {
    heard(&slips_after!(t, step => {
        if answered(&step) && word(step.before, REMEMBERED) != 0 {
            put_word(t, REMEMBERED, word(step.before, REMEMBERED));
        }
    }));
}

#[test]
#[should_panic(expected = "heard of Corner")]
fn a_listener_notices_a_tour_that_a_refusal_ended() {
    heard(&slips_after!(t, step => {
        if refused(&step) {
            t[TOUR].fill(0);
        }
    }));
}

#[test]
#[should_panic(expected = "heard of Corner")]
fn a_listener_notices_a_tour_that_outlives_a_change() {
    heard(&slips_after!(t, step => {
        if accepted(&step) && matches!(step.command, Command::Move(_)) {
            keep_tour(t, &step);
        }
    }));
}

#[test]
#[should_panic(expected = "heard of Corner")]
fn a_listener_notices_a_leg_that_began_elsewhere() {
    heard(&slips_after!(t, step => {
        if let (Command::Corner(corner), []) = (step.command, &*step.record) {
            let remembered = tour(t).and_then(|tour| tour.remembered);
            shape::write_tour(t, Some(Tour { corner, remembered }));
        }
    }));
}

/// The first site of a record of several is not near the corner where it ends, so that no entry is
/// left out for it.
#[test]
fn a_listener_takes_the_first_site_of_a_record_remembered() {
    heard(&slips_after!(t, step => {
        if answered(&step) && step.record.len() > 3 {
            t[REMEMBERED..TOUR.end].copy_from_slice(&step.record[3..5]);
        }
    }));
}

/// All names are told where the first entry is never left out; the book alone says that it is.
#[test]
fn a_listener_takes_whole_lists_as_well() {
    heard(&slips_after!(t, step => {
        if answered(&step) {
            put_word(t, REMEMBERED, 0);
        }
    }));
}

// What is broken in a table: document 02, C-17.

/// Sound tables of few sites, with a leg and without, and each with every fault of the standing
/// half, alone and beside one elsewhere.
fn trial_by_faults(service: &impl Service) {
    let mut random = Random::new(113);
    for layout in LAYOUTS.repeat(12) {
        let count = random.pick(&[0, 1, 2, 3, 9, 20]);
        let case = case(&mut random, layout, count);
        let mut book = Book::of(&case.sites, Some(case.leg));
        if random.once_in(3) {
            book.leg = None;
        }
        book.tour = random.once_in(2).then(|| Tour::begun(case.leg.s));
        let sound = shape::table(&book, &mut Dealing::Any(&mut random));
        let mut behind = sound.clone();
        for i in listed(&sound).len()..MOST_SITES {
            put_word(&mut behind, listed_at(i), 1);
        }
        for table in [&sound, &behind] {
            offer(service, table, &[PRINT]);
            assert_wrong_length_first(service, table, WORK_LEN - 1);
        }
        for (fault, part) in STANDING.iter().flat_map(|f| ELSEWHERE.map(|p| (f, p))) {
            let (at, value) = part.word(&mut random, &sound);
            let mut broken = sound.clone();
            put_word(&mut broken, at, value);
            offer(service, &broken, &[PRINT]);
            let Some(mut wrong) = fault.put(&mut random, &sound) else {
                continue;
            };
            for commands in [&[PRINT][..], &[], &[0x3F], &list(case.leg)] {
                offer(service, &wrong, commands);
            }
            assert_wrong_length_first(service, &wrong, WORK_LEN - 1);
            put_word(&mut wrong, at, value);
            offer(service, &wrong, &[PRINT]);
        }
    }
}

/// The random histories show it: "No table that came from laying out and batches is ever refused
/// with 69 either."
#[test]
#[should_panic(expected = "reason, used and written of")]
fn refuses_a_standing_list_of_its_own() {
    trial(&Wrong(|t, w, c, r| {
        if w.len() == WORK_LEN && listed(t).len() >= 5 {
            w.fill(0);
            return (BROKEN_STANDING, 0, 0);
        }
        Model.batch(t, w, c, r)
    }));
}

#[test]
fn the_model_passes_the_trial_by_faults() {
    trial_by_faults(&Wrong(|t, w, c, r| Model.batch(t, w, c, r)));
}

/// As the model, but for the reason that it says for the rules of a refused table.
fn saying(said: fn(&[u8], &[Rule]) -> u32, t: &[u8], answer: Answer) -> Answer {
    match answer.0 {
        BROKEN_TABLE | BROKEN_STANDING => (said(t, &broken_rules(t)), 0, 0),
        _ => answer,
    }
}

/// The model, but for the reason of each refused table.
macro_rules! says {
    ($t:ident, $broken:ident => $said:expr) => {
        Wrong(|t, w, c, r| {
            let answer = Model.batch(t, w, c, r);
            saying(|$t, $broken| $said, t, answer)
        })
    };
}

/// The reason that is due, or another one where this holds.
fn but(other: u32, holds: bool, broken: &[Rule]) -> u32 {
    match holds {
        true => other,
        false => reason(broken).expect("a refused table"),
    }
}

#[test]
fn says_what_is_due_and_passes() {
    trial_by_faults(&says!(_t, broken => but(0, false, broken)));
}

#[test]
#[should_panic(expected = "69 is due for")]
fn says_65_as_before() {
    trial_by_faults(&says!(_t, _broken => BROKEN_TABLE));
}

#[test]
#[should_panic(expected = "65 is due for")]
fn says_69_before_65() {
    trial_by_faults(&says!(_t, broken => {
        let standing = |rule: &Rule| rule.reason() == BROKEN_STANDING;
        but(BROKEN_STANDING, broken.iter().any(standing), broken)
    }));
}

#[test]
#[should_panic(expected = "65 is due for [SmallestBox")]
fn says_69_for_a_broken_tree() {
    trial_by_faults(&says!(_t, broken => {
        but(BROKEN_STANDING, broken.contains(&Rule::SmallestBox), broken)
    }));
}

#[test]
#[should_panic(expected = "65 is due for [RememberedHeld]")]
fn says_69_for_a_remembered_site_that_is_not_held() {
    trial_by_faults(&says!(_t, broken => {
        but(BROKEN_STANDING, *broken == [Rule::RememberedHeld], broken)
    }));
}

#[test]
#[should_panic(expected = "65 is due for [LegFlag]")]
fn says_69_for_another_flag_of_a_leg() {
    trial_by_faults(&says!(_t, broken => {
        but(BROKEN_STANDING, *broken == [Rule::LegFlag], broken)
    }));
}

#[test]
#[should_panic(expected = "65 is due for [NoLegIsZero]")]
fn says_69_for_words_without_a_leg() {
    trial_by_faults(&says!(_t, broken => {
        but(BROKEN_STANDING, *broken == [Rule::NoLegIsZero], broken)
    }));
}

#[test]
#[should_panic(expected = "69 is due for [LegOnGrid]")]
fn says_65_for_a_leg_off_the_grid() {
    trial_by_faults(&says!(_t, broken => {
        but(BROKEN_TABLE, broken.contains(&Rule::LegOnGrid), broken)
    }));
}

#[test]
#[should_panic(expected = "69 is due for [StandingList]")]
fn says_65_for_a_wrong_list() {
    trial_by_faults(&says!(_t, broken => {
        but(BROKEN_TABLE, broken.contains(&Rule::StandingList), broken)
    }));
}

#[test]
#[should_panic(expected = "69 is due for [StandingList]")]
fn says_65_for_a_length_past_512() {
    trial_by_faults(&says!(t, broken => {
        but(BROKEN_TABLE, number(t, ENTRIES_LISTED) > MOST_SITES, broken)
    }));
}

/// As if the length were one of the zeros without a leg.
#[test]
#[should_panic(expected = "69 is due for [StandingList]")]
fn says_65_for_a_length_without_a_leg() {
    trial_by_faults(&says!(t, broken => but(BROKEN_TABLE, leg(t).is_none(), broken)));
}

#[test]
#[should_panic(expected = "69 is due for [StandingList]")]
fn says_65_for_a_list_that_names_a_site_which_is_not_held() {
    trial_by_faults(&says!(t, broken => {
        let held = |number: &u16| sites(t).iter().any(|site| site.number == *number);
        but(BROKEN_TABLE, !listed(t).iter().all(held), broken)
    }));
}

/// The table with the list that is due, and without a leg where that is off the grid.
fn mended(t: &[u8]) -> Vec<u8> {
    let mut mended = t.to_vec();
    let on_grid = leg(t).filter(|leg| leg.s.on_grid() && leg.e.on_grid());
    shape::write_standing(&mut mended, &sites(t), on_grid);
    mended
}

fn right_list(t: &[u8]) -> Vec<u16> {
    listed(&mended(t))
}

/// As the model, but tables with this rule broken alone are taken where this holds, mended for the
/// call.
fn trusting(
    rule: Rule,
    trusts: fn(&[u8]) -> bool,
    (t, w, c, r): (&mut [u8], &mut [u8], &[u8], &mut [u8]),
) -> Answer {
    if broken_rules(t) == [rule] && trusts(t) {
        return Model.batch(&mut mended(t), w, c, r);
    }
    Model.batch(t, w, c, r)
}

/// The model, but for a wrong list where this holds.
macro_rules! trusts {
    ($t:ident => $trusts:expr) => {
        Wrong(|t, w, c, r| trusting(Rule::StandingList, |$t| $trusts, (t, w, c, r)))
    };
}

#[test]
fn trusts_none_and_passes() {
    trial_by_faults(&trusts!(_t => false));
}

#[test]
#[should_panic(expected = "69 is due for [LegOnGrid]")]
fn takes_a_leg_off_the_grid() {
    trial_by_faults(&Wrong(|t, w, c, r| {
        trusting(Rule::LegOnGrid, |_| true, (t, w, c, r))
    }));
}

#[test]
#[should_panic(expected = "69 is due for [StandingList]")]
fn takes_any_list_where_no_site_is_held() {
    trial_by_faults(&trusts!(t => sites(t).is_empty() && leg(t).is_some()));
}

#[test]
#[should_panic(expected = "69 is due for [StandingList]")]
fn takes_any_length_without_a_leg() {
    trial_by_faults(&trusts!(t => leg(t).is_none()));
}

#[test]
#[should_panic(expected = "69 is due for [StandingList]")]
fn takes_a_list_that_ends_early() {
    trial_by_faults(&trusts!(t => right_list(t).starts_with(&listed(t))));
}

#[test]
#[should_panic(expected = "69 is due for [StandingList]")]
fn takes_a_list_that_goes_on() {
    trial_by_faults(&trusts!(t => {
        leg(t).is_some() && listed(t).starts_with(&right_list(t))
    }));
}

#[test]
#[should_panic(expected = "69 is due for [StandingList]")]
fn takes_the_sites_of_the_list_in_any_order() {
    trial_by_faults(&trusts!(t => {
        let (mut stored, mut right) = (listed(t), right_list(t));
        stored.sort();
        right.sort();
        stored == right
    }));
}

#[test]
#[should_panic(expected = "69 is due for [StandingList]")]
fn reads_one_byte_of_the_length() {
    trial_by_faults(&trusts!(t => {
        let right = right_list(t);
        let stored = (0..right.len()).map(|i| word(t, listed_at(i)));
        usize::from(t[ENTRIES_LISTED]) == right.len() && stored.eq(right)
    }));
}

#[test]
#[should_panic(expected = "69 is due for [StandingList]")]
fn reads_one_byte_of_a_listed_number() {
    trial_by_faults(&trusts!(t => {
        let low = |list: Vec<u16>| list.into_iter().map(|n| n % 256).collect::<Vec<_>>();
        low(listed(t)) == low(right_list(t))
    }));
}

#[test]
#[should_panic(expected = "69 is due for [StandingList]")]
fn judges_the_list_only_where_it_is_printed() {
    trial_by_faults(&Wrong(|t, w, c, r| match c {
        [PRINT] => Model.batch(t, w, c, r),
        _ => trusting(Rule::StandingList, |_| true, (t, w, c, r)),
    }));
}

#[test]
#[should_panic(expected = "reason, used and written of")]
fn judges_what_stands_behind_the_list() {
    trial_by_faults(&Wrong(|t, w, c, r| {
        let behind = (listed(t).len()..MOST_SITES).any(|i| word(t, listed_at(i)) != 0);
        if w.len() == WORK_LEN && meaning(t).is_ok() && behind {
            w.fill(0);
            return (BROKEN_STANDING, 0, 0);
        }
        Model.batch(t, w, c, r)
    }));
}

/// The model, but for what it does where it says 69.
macro_rules! at_69 {
    ($t:ident, $w:ident, $c:ident, $r:ident => $answer:expr) => {
        Wrong(|$t, $w, $c, $r| match Model.batch($t, $w, $c, $r) {
            (BROKEN_STANDING, ..) => $answer,
            answer => answer,
        })
    };
}

#[test]
#[should_panic(expected = "the work buffer is 0")]
fn leaves_a_mark_after_69() {
    trial_by_faults(&at_69!(_t, w, _c, _r => {
        w[1_023] = 1;
        (BROKEN_STANDING, 0, 0)
    }));
}

#[test]
#[should_panic(expected = "the work buffer is 0")]
fn leaves_the_work_buffer_at_69() {
    trial_by_faults(&Wrong(|t, w, c, r| {
        let before = w.to_vec();
        let answer = Model.batch(t, w, c, r);
        if answer.0 == BROKEN_STANDING {
            w.copy_from_slice(&before);
        }
        answer
    }));
}

#[test]
#[should_panic(expected = "the rest of the report is left")]
fn writes_the_report_at_69() {
    trial_by_faults(&at_69!(_t, _w, _c, r => {
        if let Some(byte) = r.first_mut() {
            *byte = 69;
        }
        (BROKEN_STANDING, 0, 0)
    }));
}

#[test]
#[should_panic(expected = "69 leaves the table")]
fn mends_the_list_at_69() {
    trial_by_faults(&at_69!(t, _w, _c, _r => {
        let mended = mended(t);
        t.copy_from_slice(&mended);
        (BROKEN_STANDING, 0, 0)
    }));
}

#[test]
#[should_panic(expected = "69 is due for")]
fn counts_bytes_as_used_at_69() {
    trial_by_faults(&at_69!(_t, _w, c, _r => (BROKEN_STANDING, c.len(), 0)));
}

#[test]
#[should_panic(expected = "bytes of work")]
fn says_69_before_64() {
    trial_by_faults(&Wrong(|t, w, c, r| match reason(&broken_rules(t)) {
        Some(BROKEN_STANDING) if w.len() != WORK_LEN => (BROKEN_STANDING, 0, 0),
        _ => Model.batch(t, w, c, r),
    }));
}

#[test]
#[should_panic(expected = "69 is due for")]
fn says_66_before_69() {
    trial_by_faults(&at_69!(_t, _w, c, _r => match c {
        [0x3F, ..] => (66, 0, 0),
        _ => (BROKEN_STANDING, 0, 0),
    }));
}

// Positions from the receiver: document 02, C-15.

/// The readings to try, one command a call, first cut short, then with too little room and then with
/// just enough; then the trial of the others.
fn trial_by_readings(service: &impl Service) {
    for tried in readings::all() {
        let mut desk = Desk::lay_out(service);
        for (command, record) in tried.steps {
            let length = record.bytes().len();
            desk.call(&command[..command.len() - 1], WORK_LEN, length);
            desk.call(&command, WORK_LEN, length - 1);
            desk.call(&command, WORK_LEN, length);
        }
    }
    trial(service);
}

/// With no book beside the service: random runs, and the same with the steps written out.
fn trial_written_out(service: &impl Service) {
    let mut random = Random::new(114);
    for _ in 0..ROUNDS {
        let pool = Pool::new(&mut random, 9);
        let mut pair = Pair::lay_out(service);
        for _ in 0..6 {
            let commands = pool.finite_commands(&mut random, 12);
            let bytes = broken_off(&mut random, commands);
            let room = random.index(60);
            pair.send(&bytes, WORK_LEN, &[room, 1_000]);
        }
    }
}

/// The model, but that another command stands in the place of a 61 or 6D.
macro_rules! takes_readings {
    ($t:ident, $command:ident, $number:ident, $readings:ident => $other:expr) => {
        Wrong(|t, w, c, r| {
            let other = |$t: &[u8], $command: &Command| {
                let ($number, $readings) = ($command.number()?, $command.readings()?);
                $other
            };
            replacing(other, (t, w, c, r))
        })
    };
}

/// The same command with these readings.
fn with_readings(command: &Command, number: u16, readings: Readings) -> Option<Vec<u8>> {
    Some(match command {
        Command::AddReadings(..) => command::add_readings(number, readings),
        _ => command::move_readings(number, readings),
    })
}

/// The same command by steps.
fn with_steps(command: &Command, number: u16, position: Position) -> Option<Vec<u8>> {
    let site = Site { number, position };
    Some(match command {
        Command::AddReadings(..) => command::add(site),
        _ => command::move_site(site),
    })
}

#[test]
fn replaces_nothing_and_passes() {
    let same = takes_readings!(_t, command, number, readings => {
        with_readings(command, number, readings)
    });
    trial_by_readings(&same);
    trial_written_out(&same);
}

/// Written out as document 02 says.
#[test]
fn writes_the_steps_out_and_passes() {
    let written = takes_readings!(_t, command, number, readings => {
        with_steps(command, number, readings.position()?)
    });
    trial_by_readings(&written);
    trial_written_out(&written);
}

/// What is left of a reading beyond whole steps of 100 m, against so many metres.
type Beyond<'b> = &'b dyn Fn(u128) -> std::cmp::Ordering;

/// The step of a reading, one farther from 0 than that of the whole hundreds where this holds of those
/// and of what is left.
fn step_by(reading: Reading, farther: fn(u128, Beyond) -> bool) -> Option<i128> {
    reading.step()?;
    let (digits, power) = reading.size();
    // In parts of a metre; below 2^-96 m there is nothing.
    let (size, metre) = match power {
        0.. => (digits << power, 1),
        -96.. => (digits, 1 << -power),
        _ => (0, 1),
    };
    let (hundreds, left) = (size / (100 * metre), size % (100 * metre));
    let steps = hundreds + u128::from(farther(hundreds, &|metres| left.cmp(&(metres * metre))));
    let steps = i128::try_from(steps).expect("128 bits");
    Some(if reading.is_negative() { -steps } else { steps })
}

/// As it is written out.
fn written(step: i128) -> i64 {
    let coordinate = i64::try_from(step).ok();
    let on_grid = coordinate.filter(|step| (-HALF_WIDTH..=HALF_WIDTH).contains(step));
    on_grid.unwrap_or(STEP_OFF_GRID)
}

/// The model, but for the rounding.
macro_rules! rounds {
    ($hundreds:ident, $left:ident => $farther:expr) => {
        takes_readings!(_t, command, number, readings => {
            let step = |reading| step_by(reading, |$hundreds, $left| $farther).map(written);
            let position = Position::new(step(readings.east)?, step(readings.north)?);
            with_steps(command, number, position)
        })
    };
}

#[test]
fn rounds_as_due_and_passes() {
    let due = rounds!(_hundreds, left => left(50).is_ge());
    trial_by_readings(&due);
    trial_written_out(&due);
}

#[test]
#[should_panic(expected = "the table holds")]
fn rounds_halves_toward_zero() {
    trial_by_readings(&rounds!(_hundreds, left => left(50).is_gt()));
}

#[test]
#[should_panic(expected = "the table holds")]
fn rounds_halves_to_even() {
    trial_by_readings(&rounds!(hundreds, left => {
        left(50).is_gt() || left(50).is_eq() && hundreds % 2 == 1
    }));
}

#[test]
#[should_panic(expected = "the table holds")]
fn cuts_readings_off() {
    trial_by_readings(&rounds!(_hundreds, _left => false));
}

#[test]
#[should_panic(expected = "the table holds")]
fn rounds_up_whatever_is_left() {
    trial_by_readings(&rounds!(_hundreds, left => left(0).is_gt()));
}

#[test]
#[should_panic(expected = "the table holds")]
fn takes_51_metres_for_the_half() {
    trial_by_readings(&rounds!(_hundreds, left => left(51).is_ge()));
}

#[test]
#[should_panic(expected = "the table holds")]
fn takes_49_metres_for_the_half() {
    trial_by_readings(&rounds!(_hundreds, left => left(49).is_ge()));
}

/// -50 m goes to 0 there, and -150 m to -1.
#[test]
#[should_panic(expected = "the table holds")]
fn rounds_halves_to_the_east_and_north() {
    trial(&takes_readings!(_t, command, number, readings => {
        let step = |reading: Reading| {
            let up = step_by(reading, |_, left| left(50).is_ge());
            let down = step_by(reading, |_, left| left(50).is_gt());
            if reading.is_negative() { down } else { up }.map(written)
        };
        let position = Position::new(step(readings.east)?, step(readings.north)?);
        with_steps(command, number, position)
    }));
}

/// The sum has an error of its own: 49.999996 m and 50 m are 100 m, to 24 digits.
#[test]
#[should_panic(expected = "the table holds")]
fn adds_half_a_step_as_a_float() {
    trial_by_readings(&takes_readings!(_t, command, number, readings => {
        let step = |reading: Reading| {
            let metres = f32::from_bits(reading.0);
            let sum = (metres.abs() + 50.0) / 100.0;
            let step = sum.floor().min(32_767.0) as i64;
            let step = if step > HALF_WIDTH { STEP_OFF_GRID } else { step };
            Some(if metres < 0.0 && step <= HALF_WIDTH { -step } else { step })
        };
        readings.position()?;
        with_steps(command, number, Position::new(step(readings.east)?, step(readings.north)?))
    }));
}

/// Each reading as this says; none stays as it is.
fn each(readings: Readings, other: impl Fn(Reading) -> Option<Reading>) -> Readings {
    let changed = |reading| other(reading).unwrap_or(reading);
    Readings::new(changed(readings.east), changed(readings.north))
}

/// Far off the grid.
const FAR: Reading = Reading(0x7F00_0000);

#[test]
#[should_panic(expected = "is written, not")]
fn takes_what_is_no_number_as_off_the_grid() {
    trial_by_readings(&takes_readings!(_t, command, number, readings => {
        let no_number = |reading: Reading| !reading.is_finite() && reading.0 << 9 != 0;
        let other = each(readings, |reading| no_number(reading).then_some(FAR));
        with_readings(command, number, other)
    }));
}

#[test]
#[should_panic(expected = "is written, not")]
fn takes_infinity_as_off_the_grid() {
    trial_by_readings(&takes_readings!(_t, command, number, readings => {
        let infinite = |reading: Reading| reading.0 << 1 == INFINITY.0 << 1;
        let other = each(readings, |reading| infinite(reading).then_some(FAR));
        with_readings(command, number, other)
    }));
}

#[test]
#[should_panic(expected = "written")]
fn takes_what_is_no_number_as_step_0() {
    trial_by_readings(&takes_readings!(_t, command, number, readings => {
        let other = each(readings, |reading| (!reading.is_finite()).then_some(ZERO));
        with_readings(command, number, other)
    }));
}

#[test]
#[should_panic(expected = "written")]
fn takes_signalling_patterns_as_finite() {
    trial_by_readings(&takes_readings!(_t, command, number, readings => {
        let signalling = |reading: Reading| {
            !reading.is_finite() && reading.0 << 9 != 0 && reading.0 & 1 << 22 == 0
        };
        let other = each(readings, |reading| signalling(reading).then_some(ZERO));
        with_readings(command, number, other)
    }));
}

/// Whether a step is off the grid, of a reading that is finite.
fn off_grid(reading: Reading) -> bool {
    reading.coordinate() == Some(STEP_OFF_GRID)
}

#[test]
#[should_panic(expected = "is written, not")]
fn tests_2_before_11() {
    trial_by_readings(&takes_readings!(_t, command, number, readings => {
        let off = off_grid(readings.east) || off_grid(readings.north);
        let other = if off { Readings::new(FAR, FAR) } else { readings };
        with_readings(command, number, other)
    }));
}

#[test]
#[should_panic(expected = "is written, not")]
fn tests_11_before_1() {
    trial_by_readings(&takes_readings!(_t, command, number, readings => {
        let number = if readings.are_finite() { number } else { number.max(1) };
        with_readings(command, number, readings)
    }));
}

/// 3 comes before 11 and 2 there.
#[test]
#[should_panic(expected = "is written, not")]
fn tests_3_before_11() {
    trial_by_readings(&takes_readings!(t, command, number, readings => {
        let held = sites(t).iter().any(|site| site.number == number);
        match command {
            Command::AddReadings(..) if held => with_steps(command, number, Position::new(0, 0)),
            _ => with_readings(command, number, readings),
        }
    }));
}

#[test]
#[should_panic(expected = "is written, not")]
fn tests_4_before_11() {
    trial_by_readings(&takes_readings!(t, command, number, readings => {
        let held = sites(t).iter().any(|site| site.number == number);
        match command {
            Command::MoveReadings(..) if !held => with_steps(command, number, Position::new(0, 0)),
            _ => with_readings(command, number, readings),
        }
    }));
}

#[test]
#[should_panic(expected = "written")]
fn tests_the_easting_alone_for_11() {
    trial_by_readings(&takes_readings!(_t, command, number, readings => {
        let north = match readings.north.is_finite() {
            true => readings.north,
            false => ZERO,
        };
        with_readings(command, number, Readings::new(readings.east, north))
    }));
}

#[test]
#[should_panic(expected = "the table holds")]
fn exchanges_easting_and_northing() {
    trial_by_readings(&takes_readings!(_t, command, number, readings => {
        with_readings(command, number, Readings::new(readings.north, readings.east))
    }));
}

#[test]
#[should_panic(expected = "the table holds")]
fn takes_the_easting_twice() {
    trial_by_readings(&takes_readings!(_t, command, number, readings => {
        let north = if readings.north.is_finite() { readings.east } else { readings.north };
        with_readings(command, number, Readings::new(readings.east, north))
    }));
}

#[test]
#[should_panic(expected = "the table holds")]
fn takes_the_west_for_the_east() {
    trial(&takes_readings!(_t, command, number, readings => {
        with_readings(command, number, Readings::new(readings.east.opposite(), readings.north))
    }));
}

#[test]
#[should_panic(expected = "written")]
fn refuses_negative_zero_with_11() {
    trial_by_readings(&takes_readings!(_t, command, number, readings => {
        let other = each(readings, |r| (r == NEGATIVE_ZERO).then_some(NO_NUMBER[0]));
        with_readings(command, number, other)
    }));
}

#[test]
#[should_panic(expected = "written")]
fn refuses_negative_zero_with_2() {
    trial_by_readings(&takes_readings!(_t, command, number, readings => {
        with_readings(command, number, each(readings, |r| (r == NEGATIVE_ZERO).then_some(FAR)))
    }));
}

#[test]
#[should_panic(expected = "written")]
fn refuses_denormals() {
    trial_by_readings(&takes_readings!(_t, command, number, readings => {
        let denormal = |r: Reading| r.0 << 1 != 0 && r.0 << 1 >> 24 == 0;
        with_readings(command, number, each(readings, |r| denormal(r).then_some(NO_NUMBER[0])))
    }));
}

#[test]
#[should_panic(expected = "written")]
fn clamps_an_easting_off_the_grid_to_the_edge() {
    trial_by_readings(&takes_readings!(_t, command, number, readings => {
        let position = readings.position()?;
        let east = match (off_grid(readings.east), readings.east.is_negative()) {
            (false, _) => position.east,
            (_, false) => HALF_WIDTH,
            (_, true) => -HALF_WIDTH,
        };
        with_steps(command, number, Position::new(east, position.north))
    }));
}

#[test]
#[should_panic(expected = "written")]
fn clamps_a_northing_off_the_grid_to_the_edge() {
    trial_by_readings(&takes_readings!(_t, command, number, readings => {
        let position = readings.position()?;
        let north = if off_grid(readings.north) { HALF_WIDTH } else { position.north };
        with_steps(command, number, Position::new(position.east, north))
    }));
}

/// The grid limit by the reading: a step too few.
#[test]
#[should_panic(expected = "written")]
fn tests_the_grid_on_the_reading() {
    trial_by_readings(&takes_readings!(_t, command, number, readings => {
        let beyond = |r: Reading| {
            let size = Reading(r.0 & !NEGATIVE_ZERO.0);
            r.is_finite() && size.0 > Reading::of_metres(100 * HALF_WIDTH).0
        };
        with_readings(command, number, each(readings, |r| beyond(r).then_some(FAR)))
    }));
}

#[test]
#[should_panic(expected = "written")]
fn takes_1_200_050_metres_as_on_the_grid() {
    trial_by_readings(&takes_readings!(_t, command, number, readings => {
        let edge = |r: Reading| r.step().is_some_and(|step| step.abs() == 12_001);
        let nearer = |r: Reading| Reading((r.0 & NEGATIVE_ZERO.0) | 0x4992_7D8F);
        with_readings(command, number, each(readings, |r| edge(r).then(|| nearer(r))))
    }));
}

/// As if the step were cut to its low 16 bits, or 32, or 64, before the grid is tested.
fn cut_to(bits: u32, readings: Readings) -> Option<Position> {
    let cut = |reading: Reading| {
        let step = reading.step()?;
        let low = step << (128 - bits) >> (128 - bits);
        Some(written(low))
    };
    Some(Position::new(cut(readings.east)?, cut(readings.north)?))
}

#[test]
#[should_panic(expected = "written")]
fn cuts_steps_to_16_bits() {
    trial_by_readings(&takes_readings!(_t, command, number, readings => {
        with_steps(command, number, cut_to(16, readings)?)
    }));
}

#[test]
#[should_panic(expected = "written")]
fn cuts_steps_to_32_bits() {
    trial_by_readings(&takes_readings!(_t, command, number, readings => {
        with_steps(command, number, cut_to(32, readings)?)
    }));
}

#[test]
#[should_panic(expected = "written")]
fn cuts_steps_to_64_bits() {
    trial_by_readings(&takes_readings!(_t, command, number, readings => {
        with_steps(command, number, cut_to(64, readings)?)
    }));
}

#[test]
#[should_panic(expected = "written")]
fn reads_the_highest_byte_first() {
    trial_by_readings(&takes_readings!(_t, command, number, readings => {
        with_readings(command, number, each(readings, |r| Some(Reading(r.0.swap_bytes()))))
    }));
}

#[test]
#[should_panic(expected = "the table holds")]
fn reads_numbers_of_16_bits_for_readings() {
    trial_by_readings(&takes_readings!(_t, command, number, readings => {
        let word = |r: Reading| i64::from(r.0 as u16 as i16);
        with_steps(command, number, Position::new(word(readings.east), word(readings.north)))
    }));
}

#[test]
#[should_panic(expected = "the table holds")]
fn keeps_the_tour_at_an_accepted_61() {
    trial_by_readings(&slips_after!(t, step => {
        if accepted(&step) && matches!(step.command, Command::AddReadings(..)) {
            keep_tour(t, &step);
        }
    }));
}

#[test]
#[should_panic(expected = "the table holds")]
fn keeps_the_tour_at_an_accepted_6d() {
    trial_by_readings(&slips_after!(t, step => {
        if accepted(&step) && matches!(step.command, Command::MoveReadings(..)) {
            keep_tour(t, &step);
        }
    }));
}

#[test]
#[should_panic(expected = "the table is left by")]
fn ends_the_tour_at_11() {
    trial_by_readings(&slips_after!(t, step => {
        if *step.record == [REFUSED, 11] {
            t[TOUR].fill(0);
        }
    }));
}

#[test]
#[should_panic(expected = "written")]
fn adds_with_6d_where_the_number_is_not_held() {
    trial_by_readings(&takes_readings!(t, command, number, readings => {
        let held = sites(t).iter().any(|site| site.number == number);
        match command {
            Command::MoveReadings(..) if !held => Some(command::add_readings(number, readings)),
            _ => None,
        }
    }));
}

#[test]
#[should_panic(expected = "written")]
fn moves_with_61_where_the_number_is_held() {
    trial_by_readings(&takes_readings!(t, command, number, readings => {
        let held = sites(t).iter().any(|site| site.number == number);
        match command {
            Command::AddReadings(..) if held => Some(command::move_readings(number, readings)),
            _ => None,
        }
    }));
}

#[test]
#[should_panic(expected = "the table is left by")]
fn does_a_61_with_too_little_room() {
    trial_by_readings(&slips_after!(t, step => {
        if let (Command::AddReadings(..), []) = (step.command, &*step.record) {
            let mut room = [0; 2];
            let site = step.command.site().filter(|site| site.position.on_grid());
            if let Some(site) = site {
                Model.batch(t, &mut [0; WORK_LEN], &command::add(site), &mut room);
            }
        }
    }));
}

#[test]
#[should_panic(expected = "reason, used and written")]
fn counts_seven_bytes_of_a_61_as_used() {
    trial_by_readings(&Wrong(|t, w, c, r| {
        let (reason, used, written) = Model.batch(t, w, c, r);
        let one = matches!(read_all(&c[..used])[..], [(Command::AddReadings(..), _)]);
        (reason, if one { 7 } else { used }, written)
    }));
}

/// As a service of the release before has it.
#[test]
#[should_panic(expected = "reason, used and written")]
fn knows_no_61() {
    trial_by_readings(&Wrong(|t, w, c, r| {
        replacing(
            |_, command| command.readings().map(|_| vec![0x60]),
            (t, w, c, r),
        )
    }));
}

/// A cut 61 is done where its easting and half of its northing are there.
#[test]
#[should_panic(expected = "reason, used and written")]
fn does_a_61_that_is_cut() {
    trial_by_readings(&Wrong(|t, w, c, r| {
        let whole: usize = read_all(c).iter().map(|(_, length)| length).sum();
        let cut = &c[whole..];
        if cut.first() == Some(&command::ADD_READINGS) && cut.len() == 10 {
            let joined = [c, &[0]].concat();
            let (reason, used, written) = Model.batch(t, w, &joined, r);
            return (reason, used.min(c.len()), written);
        }
        Model.batch(t, w, c, r)
    }));
}

// The same services without a book: the run with steps written out is another one.

#[test]
#[should_panic(expected = "with the steps written out")]
fn halves_toward_zero_are_noticed_without_a_book() {
    trial_written_out(&rounds!(_hundreds, left => left(50).is_gt()));
}

#[test]
#[should_panic(expected = "with the steps written out")]
fn halves_to_even_are_noticed_without_a_book() {
    trial_written_out(&rounds!(hundreds, left => {
        left(50).is_gt() || left(50).is_eq() && hundreds % 2 == 1
    }));
}

#[test]
#[should_panic(expected = "with the steps written out")]
fn a_half_of_51_metres_is_noticed_without_a_book() {
    trial_written_out(&rounds!(_hundreds, left => left(51).is_ge()));
}

#[test]
#[should_panic(expected = "the same reason and report with the steps written out")]
fn a_clamped_step_is_noticed_without_a_book() {
    trial_written_out(&takes_readings!(_t, command, number, readings => {
        let position = readings.position()?;
        let east = if off_grid(readings.east) { HALF_WIDTH } else { position.east };
        with_steps(command, number, Position::new(east, position.north))
    }));
}

#[test]
#[should_panic(expected = "the same reason and report with the steps written out")]
fn negative_zero_that_is_refused_is_noticed_without_a_book() {
    trial_written_out(&takes_readings!(_t, command, number, readings => {
        with_readings(command, number, each(readings, |r| (r == NEGATIVE_ZERO).then_some(FAR)))
    }));
}

/// The next 43 is answered then, or the table shows it.
#[test]
#[should_panic(expected = "with the steps written out")]
fn a_tour_that_outlives_a_61_is_noticed_without_a_book() {
    trial_written_out(&slips_after!(t, step => {
        if accepted(&step) && step.command.readings().is_some() {
            keep_tour(t, &step);
        }
    }));
}

#[test]
#[should_panic(expected = "each run's own bytes are used")]
fn bytes_of_the_other_run_are_noticed_without_a_book() {
    trial_written_out(&Wrong(|t, w, c, r| {
        let (reason, used, written) = Model.batch(t, w, c, r);
        let readings = read_all(&c[..used])
            .iter()
            .filter(|(command, _)| command.readings().is_some())
            .count();
        (reason, used - 4 * readings, written)
    }));
}

/// The table of another shape holds the same sites, but other bytes.
#[test]
#[should_panic(expected = "the same table with the steps written out")]
fn another_shape_after_a_61_is_noticed_without_a_book() {
    trial_written_out(&slips_after!(t, step => {
        if accepted(&step) && step.command.readings().is_some() {
            let (all, standing) = (sites(t), leg(t));
            shape::write(t, &all, standing, &mut Dealing::Tallest);
        }
    }));
}
