//! All points of the coverage, in the groups and tables in which they are told.

use crate::breakers::BREAKERS;
use crate::capacitor;
use crate::damage::{can_break, change_name, FIELDS};
use crate::geometries::GEOMETRY_POINTS;
use crate::paper::CASES;
use crate::points::*;
use crate::strange::{ANY_PHASE, PHASE_1, PHASE_2};
use crate::tickets::BROKEN;

pub struct Table {
    pub title: &'static str,
    pub columns: Vec<String>,
    /// Each row with its cells, each with its points.
    pub rows: Vec<(String, Vec<Vec<String>>)>,
}

pub enum Group {
    Points(&'static str, Vec<String>),
    Table(Table),
}

fn points(title: &'static str, points: &[&str]) -> Group {
    Group::Points(title, points.iter().map(|point| point.to_string()).collect())
}

/// A table with the points of each cell; as an option where a cell has one at most.
fn table<I: IntoIterator<Item = String>>(
    title: &'static str,
    rows: &[impl AsRef<str>],
    columns: &[impl AsRef<str>],
    points: impl Fn(&str, &str) -> I,
) -> Group {
    let columns: Vec<String> = columns.iter().map(|column| column.as_ref().to_string()).collect();
    let cells = |row: &str| columns.iter().map(|column| points(row, column).into_iter().collect()).collect();
    let rows = rows.iter().map(|row| (row.as_ref().to_string(), cells(row.as_ref()))).collect();
    Group::Table(Table { title, rows, columns })
}

fn calls() -> [&'static str; 8] {
    TABLE.map(|(call, _)| call)
}

/// The refusals of a call.
fn numbers_of(call: &str) -> &'static [u64] {
    TABLE.iter().find(|row| row.0 == call).expect("one of the calls").1
}

// ---------------------------------------------------------------------------------------------
// Answers
// ---------------------------------------------------------------------------------------------

fn answers() -> Group {
    let mut columns = vec!["done".to_string(), "cut".to_string()];
    columns.extend((1..=12).map(|number| number.to_string()));
    table("answers: done, cut, refused 1 to 12", &calls(), &columns, |call, answer| match answer {
        "done" => Some(format!("{call} done")),
        "cut" => (!READING.contains(&call)).then(|| format!("{call} cut")),
        number => {
            let number = number.parse().expect("a number");
            numbers_of(call).contains(&number).then(|| format!("{call} refused {number}"))
        }
    })
}

/// Whether one call can be turned back for both, as far as it is told here: of images of another length nobody
/// asks whether they are sound, a lost chip that is none of the chips is not lost, and work and the log are looked for
/// in sound images with a good request only. A ticket that is given is looked at in any.
fn both_apply(call: &str, first: u64, later: u64) -> bool {
    match later {
        2 => first == 1,
        3 => first == 2,
        4..=6 => first >= 3,
        7 | 8 => first >= 2,
        9 => first >= 2 && first != 3,
        10 => first == 6 || first == 9,
        11 if call == "add" => first >= 2,
        11 => first == 3,
        _ => first == 3 || first >= 6,
    }
}

/// For each call, the two refusals that it was answered the first of, and the phases that it was refused in.
fn order() -> impl Iterator<Item = Group> {
    let titles = [
        "format refused",
        "open refused",
        "read refused",
        "write refused",
        "commit refused",
        "collect refused",
        "add refused",
        "find refused",
    ];
    TABLE.iter().zip(titles).map(|(&(call, numbers), title)| {
        let pairs = numbers.iter().flat_map(|&later| numbers.iter().map(move |&first| (first, later)));
        let pairs = pairs.filter(|&(first, later)| first < later && both_apply(call, first, later));
        let mut points: Vec<String> =
            pairs.map(|(first, later)| format!("{title} {first} before {later}")).collect();
        if numbers.contains(&6) {
            points.extend([1, 2].map(|phase| format!("{title} 6 in phase {phase}")));
        }
        Group::Points(title, points)
    })
}

// ---------------------------------------------------------------------------------------------
// Numbers
// ---------------------------------------------------------------------------------------------

fn lengths() -> Group {
    let columns = IMAGES.map(|image| [format!("{image} too short"), format!("{image} too long")]).concat();
    table("refused 2 for lengths", &calls(), &columns, |call, length| Some(format!("{call} with {length}")))
}

fn requests() -> Group {
    let columns = ["0", "highest", "behind", "2^16 + good", "2^32 + good", "2^64 - 1"];
    table("requests: page, stripe, chip", &REQUESTS.map(|request| request.0), &columns, |call, number| {
        let (_, what, highest, behind) = *REQUESTS.iter().find(|request| request.0 == call)?;
        Some(match number {
            "0" => format!("{call} of {what} 0"),
            "highest" => format!("{call} of {what} {highest}"),
            "behind" => format!("{call} of {what} {behind} refused"),
            other => format!("{call} of {what} {other} refused"),
        })
    })
}

fn lost_chips() -> Group {
    let columns = ["0", "N", "N + 1", "254", "256", "2^32 + good", "2^64 - 1"];
    table("chip named as lost", &calls()[1..], &columns, |call, chip| {
        let refused = if ["0", "N"].contains(&chip) { "" } else { " refused" };
        Some(format!("{call} naming chip {chip} as lost{refused}"))
    })
}

fn bytes() -> Group {
    let lengths = ["0", "W - 1", "W + 1"];
    table("bytes of buffer or data, refused 8", &["read", "write"], &lengths, |call, len| {
        Some(format!("{call} with {len} bytes refused"))
    })
}

fn ticket_lengths() -> Group {
    let others = (0..=40).filter(|&len| len != 16);
    Group::Points("add with", others.map(|len| format!("add with {len} bytes refused")).collect())
}

fn allowances() -> Group {
    let storing: Vec<&str> = calls().into_iter().filter(|call| !READING.contains(call)).collect();
    let mut columns = vec!["0", "one store less", "exact length", "one store more"];
    columns.extend(AMPLE.map(|ample| ample.1));
    table("allowances", &storing, &columns, |call, allowance| {
        Some(match allowance {
            "exact length" => format!("{call} at its exact length"),
            other => format!("{call} allowed {other}"),
        })
    })
}

/// The longest lists, each in a store of every N.
fn longest() -> Group {
    let columns = capacitor::K.map(|k| format!("K = {k}"));
    table("longest lists", &capacitor::FIGURES, &columns, |figure, k| {
        Some(capacitor::point(figure, number_in(k)))
    })
}

// ---------------------------------------------------------------------------------------------
// Lists: parts, places, set bits, chips
// ---------------------------------------------------------------------------------------------

fn cuts() -> Group {
    table("collections, cut", &COLLECTIONS, &COLLECTION_PARTS, |whose, part| {
        Some(format!("{whose} cut {part}"))
    })
}

fn places() -> Group {
    table("places", &PLACES, &["write", "commit"], |place, call| Some(format!("{call}, place {place}")))
}

const STRIPES: [&str; 5] = ["N = 2", "N = 3", "N = 4", "N = 5", "N = 6"];

/// Of N or of K.
fn number_in(text: &str) -> u64 {
    text[4..].parse().expect("N = a number")
}

/// Of N bits a commit has 1 to N set, as a rebuilding through the partial parity; one through the parity page has
/// N - 1 at most.
fn set_bits() -> Group {
    let columns = [
        "commit, p = 1 to N",
        "rebuilt through partial, p = 1 to N",
        "rebuilt through parity, p = 0 to N - 1",
    ];
    table("by set bits", &STRIPES, &columns, |n, column| {
        let (what, bits) = column.split_once(", p = ").expect("set bits");
        let least = if bits.starts_with('0') { 0 } else { 1 };
        (least..number_in(n) + least).map(|p| format!("{what}, {n}, p = {p}")).collect::<Vec<_>>()
    })
}

/// Programs and erases by their chip, and rebuilt pages by the lost one.
fn chips() -> [Group; 2] {
    [["write on", "commit on"], ["collection of", "rebuilt from"]].map(|columns| {
        table("by chip, 0 to N", &STRIPES, &columns, |n, what| {
            (0..=number_in(n)).map(|chip| format!("{what} chip {chip}, {n}")).collect::<Vec<_>>()
        })
    })
}

// ---------------------------------------------------------------------------------------------
// Logs
// ---------------------------------------------------------------------------------------------

fn logs() -> [Group; 8] {
    [
        points("addition", &ADDITION),
        points("add", &ADD),
        points("find", &FIND),
        log_ends(),
        broken_rules(),
        bad_places(),
        points("log refused", &LOG_REFUSALS),
        rebuilt_logs(),
    ]
}

fn log_ends() -> Group {
    table("logs", &LOG_ENDS, &["add", "find"], |end, call| Some(format!("{end}: {call}")))
}

/// A ticket of kind 0 in a log is its end.
fn broken_rules() -> Group {
    let columns = ["given", "found by add", "found by find"];
    table("rules of a ticket, one broken", &BROKEN, &columns, |rule, column| {
        (column == "given" || !rule.starts_with("kind 0")).then(|| format!("{rule}: {column}"))
    })
}

fn bad_places() -> Group {
    table("tickets found that break a rule", &BAD_PLACES, &["add", "find"], |place, call| {
        Some(format!("{place}: {call}"))
    })
}

fn rebuilt_logs() -> Group {
    let columns = ["log through partial", "log through parity"];
    table("by lost chip, 0 to N", &STRIPES, &columns, |n, what| {
        (0..=number_in(n)).map(|chip| format!("{what}, chip {chip}, {n}")).collect::<Vec<_>>()
    })
}

// ---------------------------------------------------------------------------------------------
// Origins
// ---------------------------------------------------------------------------------------------

fn origins() -> [Group; 2] {
    let said = table("origins", &SAYING.map(|saying| saying.0), &ORIGINS, |what, origin| {
        let (_, lowest) = *SAYING.iter().find(|saying| saying.0 == what)?;
        ORIGINS[lowest..].contains(&origin).then(|| format!("origin {origin}: {what}"))
    });
    [said, points("origin", &ORIGIN)]
}

// ---------------------------------------------------------------------------------------------
// Images
// ---------------------------------------------------------------------------------------------

fn strange_images() -> Group {
    let rows = [&ANY_PHASE[..], &PHASE_1, &PHASE_2].concat();
    let columns = &calls()[1..];
    table("sound images that no list of calls leaves, with calls on them", &rows, columns, |thing, call| {
        let can_be = ANY_PHASE.contains(&thing) || ["open", "read", "find"].contains(&call);
        can_be.then(|| format!("{thing}: {call}"))
    })
}

/// Each cell with the bytes changed and, where that can make images unsound, those refused.
fn damages() -> impl Iterator<Item = Group> {
    FIELDS.iter().map(|&(title, wholes, fields)| {
        let fields: Vec<&str> = fields.iter().map(|field| field.0).collect();
        table(title, wholes, &fields, |whole, field| {
            let change = change_name(whole, field);
            let refused = can_break(whole, field).then(|| format!("{change}, refused"));
            [Some(change), refused].into_iter().flatten()
        })
    })
}

fn broken() -> Group {
    let names = BREAKERS.iter().map(|breaker| breaker.0).chain(["slot 254 twice"]);
    Group::Points("broken", names.map(|name| format!("broken: {name}")).collect())
}

pub fn groups() -> Vec<Group> {
    let mut groups = vec![points("paper", &CASES.map(|case| case.0)), longest(), answers()];
    groups.extend(order());
    groups.extend([
        lengths(),
        requests(),
        lost_chips(),
        bytes(),
        ticket_lengths(),
        allowances(),
        points("every allowance", &ALLOWANCES),
        points("geometry", &GEOMETRY_POINTS),
        points("format", &FORMAT),
        points("open", &OPEN),
        points("read", &READ),
        points("write", &WRITE),
        points("commit", &COMMIT),
        points("collection", &COLLECTION),
        cuts(),
        points("cuts", &CUTS),
        places(),
        set_bits(),
    ]);
    groups.extend(chips());
    groups.extend(logs());
    groups.extend(origins());
    groups.extend([points("images", &MADE_IMAGES), strange_images()]);
    groups.extend(damages());
    groups.extend([
        broken(),
        points("list", &LISTS),
        points("book held", &BOOK),
        points("log held", &LOG_HELD),
        points("buffers", &BUFFERS),
    ]);
    groups
}
