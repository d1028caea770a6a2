//! What a table holds, in words: its sites, its standing leg and list, its tour, its tree.

use crate::command::Command;
use crate::desk::Desk;
use crate::grid::Site;
use crate::service::Service;
use crate::status::Failure;
use crate::table::{self, UnderWay};
use crate::words::{self, Name};
use std::io::Write;

pub fn sites<W: Write, E: Write>(
    name: Name,
    service: &Service,
    desk: &mut Desk<W, E>,
) -> Result<(), Failure> {
    let sites = table::sites(service.table());
    desk.say(format_args!("{name}{}", plural(sites.len(), "site")))?;
    let say = |site: &Site| desk.say(format_args!("site {} at {}", site.number, site.at));
    sites.iter().try_for_each(say)
}

pub fn standing<W: Write, E: Write>(
    name: Name,
    service: &mut Service,
    desk: &mut Desk<W, E>,
) -> Result<(), Failure> {
    let Some(leg) = table::leg(service.table()) else {
        return desk.say(format_args!("{name}no standing leg"));
    };
    let list = service.list(&Command::Print)?;
    let entries = words::entries(list.len());
    desk.say(format_args!("{name}standing leg {leg}, list of {entries}"))?;
    words::tell_entries(&list, Some(&leg), &mut desk.out).map_err(Failure::writing)
}

pub fn touring<W: Write, E: Write>(
    name: Name,
    service: &Service,
    desk: &mut Desk<W, E>,
) -> Result<(), Failure> {
    match table::tour(service.table()) {
        None => desk.say(format_args!("{name}no tour under way")),
        Some(tour) => desk.say(format_args!("{name}{}", tour_in_words(&tour))),
    }
}

fn tour_in_words(tour: &UnderWay) -> String {
    let remembered = match tour.remembered {
        None => "no site".into(),
        Some(site) => format!("site {site}"),
    };
    let corner = tour.corner;
    format!("tour under way, last corner {corner}, {remembered} remembered")
}

pub fn tree<W: Write, E: Write>(
    name: Name,
    service: &Service,
    desk: &mut Desk<W, E>,
) -> Result<(), Failure> {
    let nodes = table::nodes(service.table());
    let levels = table::levels(service.table());
    let (level, node) = (plural(levels, "level"), plural(nodes.len(), "node"));
    desk.say(format_args!("{name}tree of {level}, {node}"))?;
    for node in nodes {
        let entries = words::entries(node.entries);
        let (level, id, low, high) = (node.level, node.id, node.low, node.high);
        desk.say(format_args!(
            "level {level}, node {id}: {entries}, {low} to {high}"
        ))?;
    }
    Ok(())
}

/// How much a table holds; of a tour only where one is under way.
pub fn counts<W: Write, E: Write>(
    service: &mut Service,
    desk: &mut Desk<W, E>,
) -> Result<(), Failure> {
    let table = service.table();
    let (sites, levels) = (table::sites(table).len(), table::levels(table));
    let (sites, levels) = (plural(sites, "site"), plural(levels, "level"));
    let nodes = plural(table::nodes(table).len(), "node");
    desk.say(format_args!("{sites}, tree of {levels}, {nodes}"))?;
    let tour = table::tour(table);
    match table::leg(table) {
        None => desk.say("no standing leg")?,
        Some(leg) => {
            let entries = words::entries(service.list(&Command::Print)?.len());
            desk.say(format_args!("standing leg {leg}, list of {entries}"))?;
        }
    }
    tour.map_or(Ok(()), |tour| desk.say(tour_in_words(&tour)))
}

fn plural(count: usize, noun: &str) -> String {
    let s = if count == 1 { "" } else { "s" };
    format!("{count} {noun}{s}")
}
