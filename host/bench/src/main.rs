//! Prints the library's times beside the same store without proofs, beside a plain scan of the table and beside plain copies, with the
//! goals that they are held to. With the argument `advances` it measures and prints advances of n cells of which k have changed alone,
//! with `lists` adds of several ranges alone.

use domain_bench::advances::{self, Kept};
use domain_bench::lists;
use domain_bench::measure::{FIGURES, Figure, Layout, Medians, NEAR, Shape, Times, measure};
use std::time::Duration;

/// How long each shape is measured.
const LIMIT: Duration = Duration::from_millis(250);
/// The width of a column with two figures.
const WIDE: usize = 11;
/// The width of a column with one figure.
const NARROW: usize = 10;
/// How many of the figures that miss a goal are named.
const NAMED: usize = 12;

/// Each call beside the baseline.
const GOAL: f64 = 1.5;
/// Each call at the larger memory beside the smaller one, for the same E, n and layout.
const GOAL_MEMORY: f64 = 1.3;
/// Restore beside the check of its table and a plain copy of its cells.
const GOAL_RESTORE: f64 = 6.0;
/// Restore by a disorderly table beside an orderly one.
const GOAL_DISORDER: f64 = 2.0;
/// An advance of which no cell has changed beside the check of its table and a plain compare of its cells.
const GOAL_UNCHANGED: f64 = 3.0;
/// Lists of ranges beside single adds of the same ranges, where these are 1,024: a twentieth.
const GOAL_SINGLE: f64 = 0.05;
/// Each call from E = 256 to E = 4,096, with n fixed.
const GOAL_GROWTH: f64 = 20.0;
/// The check of the table beside a plain scan.
const GOAL_CHECK: f64 = 2.0;

const LARGE: usize = 65_536;
const SMALL: usize = NEAR;
const MEMORIES: [usize; 2] = [LARGE, SMALL];
const PLACES: [usize; 4] = [64, 256, 1_024, 4_096];
/// Where the two memories are held beside each other.
const FEW_PLACES: [usize; 2] = [64, 256];
const DOMAINS: [usize; 2] = [1, 3];
/// Between which E growth is measured.
const GROWTH: (usize, usize) = (256, 4_096);
const LAYOUTS: [Layout; 7] = [
    Layout::Contiguous,
    Layout::Scattered,
    Layout::Near,
    Layout::Reversed,
    Layout::Random,
    Layout::Deleted,
    Layout::Last,
];
const CELLS: [usize; 6] = [1, 9, 64, 512, 1_024, 4_096];

/// A figure beside its goal, for the account at the end.
struct Held {
    call: Figure,
    /// The shape in words.
    place: String,
    ratio: f64,
    met: bool,
}

impl Held {
    fn new(call: Figure, shape: Shape, ratio: f64, goal: f64) -> Self {
        Held::at(call, place_name(&shape), ratio, goal)
    }

    fn at(call: Figure, place: String, ratio: f64, goal: f64) -> Self {
        let met = ratio <= goal;
        Held {
            call,
            place,
            ratio,
            met,
        }
    }

    /// The ratio with its mark.
    fn text(&self) -> String {
        format!("{}{}", short(self.ratio), mark(self.met))
    }
}

fn number(value: usize) -> String {
    if value < 1_000 {
        value.to_string()
    } else {
        format!("{},{:03}", value / 1_000, value % 1_000)
    }
}

/// Three figures.
fn short(value: f64) -> String {
    match value {
        value if value >= 99.95 => format!("{value:.0}"),
        value if value >= 9.995 => format!("{value:.1}"),
        value => format!("{value:.2}"),
    }
}

fn mark(met: bool) -> char {
    if met { ' ' } else { '!' }
}

/// The row of a table that tells which shape it is about.
fn row_name(shape: &Shape) -> String {
    format!(
        "| {:>7} | {:<10} | {:>5} |",
        shape.domains,
        shape.layout.name(),
        number(shape.cells)
    )
}

fn place_name(shape: &Shape) -> String {
    format!(
        "m = {}, E = {}, {} domain{}, {}, n = {}",
        number(shape.memory),
        number(shape.places),
        shape.domains,
        if shape.domains == 1 { "" } else { "s" },
        shape.layout.name(),
        number(shape.cells)
    )
}

fn print_head(width: usize, calls: &[Figure]) {
    let names: String = calls
        .iter()
        .map(|call| format!(" {:>width$} |", call.name()))
        .collect();
    println!("| Domains | Cells      |     n |{names}");
    let lines: String = calls
        .iter()
        .map(|_| format!("{}:|", "-".repeat(width + 1)))
        .collect();
    println!("|--------:|------------|------:|{lines}");
}

/// A row of ratios beside a goal: of the calls for which there is one.
fn print_ratios(
    shape: &Shape,
    goal: f64,
    ratio: impl Fn(Figure) -> Option<f64>,
) -> impl Iterator<Item = Held> {
    let mut line = row_name(shape);
    let mut all = Vec::new();
    for call in FIGURES {
        let held = ratio(call).map(|ratio| Held::new(call, *shape, ratio, goal));
        let text = held.as_ref().map_or("- ".into(), Held::text);
        line += &format!(" {text:>NARROW$} |");
        all.extend(held);
    }
    println!("{line}");
    all.into_iter()
}

/// The library's figures of one shape, each with how many times the baseline that is.
fn print_row(medians: &Medians) {
    let mut line = row_name(&medians.shape);
    for call in FIGURES {
        let text = match (medians.library[call as usize], medians.ratio(call)) {
            (Some(value), Some(ratio)) => {
                let met = mark(ratio <= GOAL);
                format!("{} {}{met}", short(value), short(ratio))
            }
            _ => "- ".into(),
        };
        line += &format!(" {text:>WIDE$} |");
    }
    println!("{line}");
}

/// Whether a shape is measured: a single entry is in order always, and two layouts serve one goal each.
fn asked(shape: &Shape) -> bool {
    let asked = match shape.layout {
        Layout::Near => shape.memory == LARGE && FEW_PLACES.contains(&shape.places),
        Layout::Last => {
            let growth = shape.places == GROWTH.0 || shape.places == GROWTH.1;
            growth && shape.domains == 1 && shape.cells <= 64
        }
        layout => !layout.disorderly() || shape.cells > 1,
    };
    asked && shape.fits()
}

/// All shapes of so many domains and cells. These are what is compared with each other.
fn shapes(domains: usize, cells: usize) -> Vec<Shape> {
    let mut all = Vec::new();
    for memory in MEMORIES {
        for places in PLACES {
            all.extend(LAYOUTS.map(|layout| Shape {
                memory,
                places,
                domains,
                layout,
                cells,
            }));
        }
    }
    all.retain(asked);
    all
}

/// Measures all shapes, and tells on the way how far it is.
fn measure_all() -> Vec<Medians> {
    let mut all = Vec::new();
    for domains in DOMAINS {
        for cells in CELLS {
            let shapes = shapes(domains, cells);
            if shapes.is_empty() {
                continue;
            }
            eprintln!(
                "measuring: domains {domains}, n = {}, shapes {}",
                number(cells),
                shapes.len()
            );
            all.extend(measure(&shapes, LIMIT));
        }
    }
    all
}

/// The figures of one m and one E, by domains and layout.
fn of_size(all: &[Medians], memory: usize, places: usize) -> Vec<&Medians> {
    let of_size =
        |medians: &&Medians| (medians.shape.memory, medians.shape.places) == (memory, places);
    let mut these: Vec<&Medians> = all.iter().filter(of_size).collect();
    these.sort_by_key(|medians| (medians.shape.domains, medians.shape.layout));
    these
}

fn print_shapes(all: &[Medians], memory: usize, places: usize) {
    println!(
        "m = {}, E = B = {}: library in µs, and how many times the baseline (goal {GOAL})",
        number(memory),
        number(places)
    );
    println!();
    print_head(WIDE, &FIGURES);
    of_size(all, memory, places).into_iter().for_each(print_row);
    println!();
}

/// The figures of a shape, if it was measured.
fn of(all: &[Medians], shape: Shape) -> Option<&Medians> {
    all.iter().find(|medians| medians.shape == shape)
}

/// The check of the table, from the figures that stand already: the emptiest and the fullest table of each size.
fn print_check(all: &[Medians]) {
    println!(
        "Check of the table (list), in µs: a scan reads both words of each entry and asks one question of them (goal: check at most {GOAL_CHECK:.0} scans);"
    );
    println!("a sum reads the same words with nothing to decide, many at a time. One domain.");
    println!();
    println!(
        "|      m |     E | Cells      |     n | library | baseline |  scan |   sum | library / scan | library / baseline |"
    );
    println!(
        "|-------:|------:|------------|------:|--------:|---------:|------:|------:|---------------:|-------------------:|"
    );
    for memory in MEMORIES {
        for places in PLACES {
            let these = of_size(all, memory, places);
            for layout in [Layout::Contiguous, Layout::Scattered] {
                let wanted = |medians: &&&Medians| {
                    (medians.shape.domains, medians.shape.layout) == (1, layout)
                };
                let ends = [these.iter().find(wanted), these.iter().rev().find(wanted)];
                ends.into_iter()
                    .flatten()
                    .for_each(|medians| print_check_row(medians));
            }
        }
    }
    println!();
}

fn print_check_row(medians: &Medians) {
    let call = Figure::List as usize;
    let (Some(library), Some(baseline)) = (medians.library[call], medians.baseline[call]) else {
        return;
    };
    let shape = medians.shape;
    let beside = library / medians.scan;
    println!(
        "| {:>6} | {:>5} | {:<10} | {:>5} | {:>7} | {:>8} | {:>5} | {:>5} | {:>13}{} | {:>18} |",
        number(shape.memory),
        number(shape.places),
        shape.layout.name(),
        number(shape.cells),
        short(library),
        short(baseline),
        short(medians.scan),
        short(medians.sum),
        short(beside),
        mark(beside <= GOAL_CHECK),
        short(library / baseline)
    );
}

/// How many times as long a call takes by the first figures as by the others.
fn times(more: &Medians, less: &Medians, call: Figure) -> Option<f64> {
    Some(more.library[call as usize]? / less.library[call as usize]?)
}

fn print_growth(all: &[Medians]) -> Vec<Held> {
    println!(
        "Growth from E = B = 256 to E = B = 4,096 with n fixed: how many times as long (goal {GOAL_GROWTH:.0})"
    );
    println!();
    let mut held = Vec::new();
    for memory in MEMORIES {
        println!("m = {}", number(memory));
        println!();
        print_head(NARROW, &FIGURES);
        for small in of_size(all, memory, GROWTH.0) {
            let places = GROWTH.1;
            let shape = Shape {
                places,
                ..small.shape
            };
            if let Some(large) = of(all, shape) {
                held.extend(print_ratios(&shape, GOAL_GROWTH, |call| {
                    times(large, small, call)
                }));
            }
        }
        println!();
    }
    held
}

/// The same shape in the smaller memory: the same cells, or cells that are scattered over all of it.
fn in_small(shape: Shape) -> Shape {
    let memory = SMALL;
    let layout = match shape.layout {
        Layout::Near => Layout::Scattered,
        layout => layout,
    };
    Shape {
        memory,
        layout,
        ..shape
    }
}

/// The larger memory beside the smaller one. Cells that are scattered over all of a memory are another layout in each; they are shown
/// and not held to the goal.
fn print_memory(all: &[Medians]) -> Vec<Held> {
    println!(
        "Size of memory: how many times as long m = {} takes as m = {} for the same E, n and layout (goal {GOAL_MEMORY}). Near: cells that are scattered over {} cells",
        number(LARGE),
        number(SMALL),
        number(SMALL)
    );
    println!(
        "in both memories. Scattered: over all of each memory, so not the same layout (not among the goals)."
    );
    println!();
    let mut held = Vec::new();
    for places in FEW_PLACES {
        println!("E = B = {}", number(places));
        println!();
        print_head(NARROW, &FIGURES);
        for large in of_size(all, LARGE, places) {
            let shape = large.shape;
            let Some(small) = of(all, in_small(shape)) else {
                continue;
            };
            let these = print_ratios(&shape, GOAL_MEMORY, |call| times(large, small, call));
            held.extend(these.filter(|_| shape.layout != Layout::Scattered));
        }
        println!();
    }
    held
}

/// Restore beside what it cannot do without, and by disorderly tables beside orderly ones: figures of the first goal and of the second.
fn print_restore(all: &[Medians]) -> (Vec<Held>, Vec<Held>) {
    println!(
        "Restore, E = B = 4,096: library in µs beside the check of that table (list) and a plain copy of the cells (goal {GOAL_RESTORE:.0} times both together),"
    );
    println!(
        "and disorderly tables (reversed, random, deletes) beside contiguous (goal {GOAL_DISORDER:.0} times)."
    );
    println!();
    println!(
        "|      m | Domains | Cells      |     n | restore |   list |   copy | times both | times contiguous |"
    );
    println!(
        "|-------:|--------:|------------|------:|--------:|-------:|-------:|-----------:|-----------------:|"
    );
    let (mut needs, mut orders) = (Vec::new(), Vec::new());
    let sizes = MEMORIES.map(|memory| of_size(all, memory, 4_096));
    for medians in sizes.into_iter().flatten() {
        let (Some(restore), Some(list), Some(copy)) = (
            medians.library[Figure::Restore as usize],
            medians.library[Figure::List as usize],
            medians.memcpy[Figure::Restore as usize],
        ) else {
            continue;
        };
        let shape = medians.shape;
        let needed = Held::new(
            Figure::Restore,
            shape,
            restore / (list + copy),
            GOAL_RESTORE,
        );
        let order = beside_orderly(all, medians);
        println!(
            "| {:>6} {} {:>7} | {:>6} | {:>6} | {:>10} | {:>16} |",
            number(shape.memory),
            row_name(&shape),
            short(restore),
            short(list),
            short(copy),
            needed.text(),
            order.as_ref().map_or("- ".into(), Held::text)
        );
        needs.push(needed);
        orders.extend(order);
    }
    println!();
    (needs, orders)
}

/// Restore by a disorderly table beside the same cells in order.
fn beside_orderly(all: &[Medians], medians: &Medians) -> Option<Held> {
    let shape = medians.shape;
    let layout = Layout::Contiguous;
    let orderly = of(all, Shape { layout, ..shape }).filter(|_| shape.layout.disorderly())?;
    let ratio = times(medians, orderly, Figure::Restore)?;
    Some(Held::new(Figure::Restore, shape, ratio, GOAL_DISORDER))
}

fn print_copies(all: &[Medians]) {
    let calls = [
        Figure::Preserve,
        Figure::Advance,
        Figure::Restore,
        Figure::Cycle,
    ];
    println!(
        "Beside plain copies of the same bytes (and for the cycle the same writes), m = 65,536, E = B = 4,096: copies in µs, and how many times that the library takes"
    );
    println!();
    print_head(14, &calls);
    for medians in of_size(all, LARGE, 4_096) {
        let shape = medians.shape;
        if (shape.domains, shape.layout) != (1, Layout::Contiguous) {
            continue;
        }
        let mut line = row_name(&shape);
        for call in calls {
            let text = match (
                medians.library[call as usize],
                medians.memcpy[call as usize],
            ) {
                (Some(library), Some(copies)) if copies > 0.0 => {
                    format!("{copies:.3} {}", short(library / copies))
                }
                _ => "- ".into(),
            };
            line += &format!(" {text:>14} |");
        }
        println!("{line}");
    }
    println!();
}

/// Cells that are held by a rule beside the same cells by copy: what it saves to keep no bytes.
fn print_by_rule(all: &[Medians]) {
    println!(
        "Preserve by a rule beside by copy, E = B = 4,096, one domain: create and add n cells, in µs, and how many times as long by copy as by rule; the baseline likewise"
    );
    println!();
    println!(
        "|      m | Cells      |     n | by copy | by rule | copy / rule | baseline by copy | baseline by rule | copy / rule |"
    );
    println!(
        "|-------:|------------|------:|--------:|--------:|------------:|-----------------:|-----------------:|------------:|"
    );
    for memory in MEMORIES {
        let one_domain = |medians: &&Medians| medians.shape.domains == 1;
        of_size(all, memory, 4_096)
            .into_iter()
            .filter(one_domain)
            .for_each(print_by_rule_row);
    }
    println!();
}

fn print_by_rule_row(medians: &Medians) {
    let both = |times: &Times| {
        Some((
            times[Figure::Preserve as usize]?,
            times[Figure::ByRule as usize]?,
        ))
    };
    let (Some(library), Some(baseline)) = (both(&medians.library), both(&medians.baseline)) else {
        return;
    };
    let shape = medians.shape;
    println!(
        "| {:>6} | {:<10} | {:>5} | {:>7} | {:>7} | {:>11} | {:>16} | {:>16} | {:>11} |",
        number(shape.memory),
        shape.layout.name(),
        number(shape.cells),
        short(library.0),
        short(library.1),
        short(library.0 / library.1),
        short(baseline.0),
        short(baseline.1),
        short(baseline.0 / baseline.1)
    );
}

/// Advances of which some cells have changed: figures beside the baseline, and where none has, beside what they cannot do without, by
/// how the cells are held.
struct Advances {
    beside: Vec<Held>,
    unchanged: [Vec<Held>; Kept::ALL.len()],
}

fn print_advances(all: &[advances::Medians]) -> Advances {
    println!(
        "Advance of n cells of which k have changed, m = 65,536, E = B = {}: library and baseline in µs, and how many times the baseline (goal {GOAL}); a plain compare",
        number(advances::PLACES)
    );
    println!(
        "of the n cells with what is held, the check of that table (list), and how many times both together the library takes (goal {GOAL_UNCHANGED:.0} where k is 0). A changed cell"
    );
    println!(
        "differs in its last byte. Where k is 0 the call changes nothing, and is made many times for one figure, as compare and list are."
    );
    println!(
        "Inside: copies of a domain inside one that holds nothing, so that the k cells are given to that one."
    );
    println!();
    println!(
        "| Held       | Cells      |     n |     k | library | baseline | times baseline | compare |   list | times compare + list |"
    );
    println!(
        "|------------|------------|------:|------:|--------:|---------:|---------------:|--------:|-------:|---------------------:|"
    );
    let (mut beside, mut unchanged) = (Vec::new(), Kept::ALL.map(|_| Vec::new()));
    for medians in all {
        let advances::Case {
            kept,
            shape,
            changed,
        } = medians.case;
        let held = |ratio, goal| Held::new(Figure::Advance, shape, ratio, goal);
        let baseline = held(medians.beside_baseline(), GOAL);
        let needs = (changed == 0).then(|| held(medians.beside_needs(), GOAL_UNCHANGED));
        let needed = needs
            .as_ref()
            .map_or_else(|| format!("{} ", short(medians.beside_needs())), Held::text);
        println!(
            "| {:<10} | {:<10} | {:>5} | {:>5} | {:>7} | {:>8} | {:>14} | {:>7} | {:>6} | {needed:>20} |",
            kept.name(),
            shape.layout.name(),
            number(shape.cells),
            number(changed),
            short(medians.library),
            short(medians.baseline),
            baseline.text(),
            short(medians.compare),
            short(medians.list)
        );
        beside.push(baseline);
        unchanged[kept as usize].extend(needs);
    }
    println!();
    Advances { beside, unchanged }
}

/// Adds of several ranges: figures beside the baseline, and beside single adds.
struct Lists {
    beside: Vec<Held>,
    single: Vec<Held>,
}

fn print_lists(all: &[lists::Medians]) -> Lists {
    println!(
        "Adds of several ranges: library and baseline in µs for all lists together, and how many times the baseline (goal {GOAL}); the same ranges by single adds, by both,"
    );
    println!(
        "and which part of the library's single adds its lists take (goal {GOAL_SINGLE} where n is 1,024). Scattered: a range for each of n cells, far apart and in no"
    );
    println!(
        "order, 64 ranges to a list. Tile: nine ranges of eleven cells, three of them copies, three ranges via parent and three by rules. Via parent, and in the tile, a"
    );
    println!("domain around holds the cells already.");
    println!();
    println!(
        "|      m |     E | Held       | Cells      |     n | ranges | lists | library | baseline | times baseline | single adds | lists / single | baseline's single adds |"
    );
    println!(
        "|-------:|------:|------------|------------|------:|-------:|------:|--------:|---------:|---------------:|------------:|---------------:|-----------------------:|"
    );
    let (mut beside, mut single) = (Vec::new(), Vec::new());
    for medians in all {
        let lists::Case {
            name,
            shape,
            records,
            ..
        } = &medians.case;
        let is_tile = *name == "tile";
        let place = match is_tile {
            true => format!(
                "m = {}, E = {}, nine ranges of a tile",
                number(shape.memory),
                number(shape.places)
            ),
            false => format!("{}, {name}", place_name(shape)),
        };
        let held = |ratio, goal| Held::at(Figure::Preserve, place.clone(), ratio, goal);
        let baseline = held(medians.beside_baseline(), GOAL);
        let ratio = medians.beside_single();
        let singly = (shape.cells == lists::CELLS[0]).then(|| held(ratio, GOAL_SINGLE));
        let part = format!(
            "{ratio:.3}{}",
            mark(singly.as_ref().is_none_or(|held| held.met))
        );
        println!(
            "| {:>6} | {:>5} | {:<10} | {:<10} | {:>5} | {:>6} | {:>5} | {:>7} | {:>8} | {:>14} | {:>11} | {part:>14} | {:>22} |",
            number(shape.memory),
            number(shape.places),
            if is_tile { "all kinds" } else { name },
            if is_tile { "tile" } else { shape.layout.name() },
            number(shape.cells),
            number(records.len()),
            medians.case.calls(),
            short(medians.library),
            short(medians.baseline),
            baseline.text(),
            short(medians.single),
            short(medians.single_baseline)
        );
        beside.push(baseline);
        single.extend(singly);
    }
    println!();
    Lists { beside, single }
}

/// What the goals say of lists.
fn account_lists(lists: &Lists) {
    account_named(&format!("lists of ranges <= {GOAL}"), &lists.beside);
    let title = format!("lists <= {GOAL_SINGLE} single adds");
    account_named(&title, &lists.single);
}

/// How many of these figures meet their goal, and the worst of those that do not.
fn account<'a>(title: &str, held: impl Iterator<Item = &'a Held>) {
    let held: Vec<&Held> = held.collect();
    let met = held.iter().filter(|held| held.met).count();
    let missed = held.iter().filter(|held| !held.met);
    let worst = missed.max_by(|one, other| one.ratio.total_cmp(&other.ratio));
    let worst = worst.map_or("all met".into(), |held| {
        format!("worst {:>5}: {}", short(held.ratio), held.place)
    });
    println!("  {title:<28} {met:>4} of {:>4} met; {worst}", held.len());
}

/// The same for a goal of several calls, with the worst of those that miss it by name.
fn account_named(title: &str, held: &[Held]) {
    account(title, held.iter());
    let mut missed: Vec<&Held> = held.iter().filter(|held| !held.met).collect();
    missed.sort_by(|one, other| other.ratio.total_cmp(&one.ratio));
    for held in missed.iter().take(NAMED) {
        let (call, place) = (held.call.name(), &held.place);
        println!("    {:>5}  {call:<10}  {place}", short(held.ratio));
    }
    if missed.len() > NAMED {
        println!("           and {} more", missed.len() - NAMED);
    }
}

/// Every call of every shape beside the baseline.
fn beside_baseline(all: &[Medians]) -> Vec<Held> {
    let of_shape = |medians: &Medians| {
        let of_call = |call| {
            let ratio = medians.ratio(call)?;
            Some(Held::new(call, medians.shape, ratio, GOAL))
        };
        FIGURES.into_iter().filter_map(of_call).collect::<Vec<_>>()
    };
    all.iter().flat_map(of_shape).collect()
}

/// The check of every table beside a scan of it.
fn beside_scans(all: &[Medians]) -> Vec<Held> {
    let held = |medians: &Medians| {
        let scans = medians.scans()?;
        Some(Held::new(Figure::List, medians.shape, scans, GOAL_CHECK))
    };
    all.iter().filter_map(held).collect()
}

fn print_introduction() {
    println!(
        "Each figure is a median of runs in which the library and the baseline take turns in one process; a `!` marks a goal that is missed."
    );
    println!(
        "Preserve: create and add n cells by copy (scattered: n adds of one cell, in no order; else one add). By rule, via parent: the same by rule 3, and via"
    );
    println!(
        "parent. Delete: the innermost domain's cells (scattered: one). Cycle: create, add n, write n, advance, write n, restore, commit. Restore: the outermost"
    );
    println!(
        "domain, which ends those inside. Advance: the innermost domain, of which every cell was written, so that each is copied. Look: a held cell, and one that nobody"
    );
    println!(
        "holds. Three domains: two hold the same n cells already. A dash: it does not fit (an advance takes n bodies before it frees n), or it would be the same as"
    );
    println!("contiguous.");
    println!(
        "Cells: contiguous, entries in order of cell; scattered over memory, in no order; and contiguous cells whose entries were laid down reversed, at random, or"
    );
    println!(
        "through deletes (half of them deleted and added again into the holes, last first). Near: scattered over {} cells of a larger memory. Last: as contiguous,",
        number(SMALL)
    );
    println!("but in the last places of the table (for the growth).");
    println!();
}

/// What the goals say of advances.
fn account_advances(advances: &Advances) {
    account(
        &format!("advance of k cells <= {GOAL}"),
        advances.beside.iter(),
    );
    for (kept, held) in Kept::ALL.iter().zip(&advances.unchanged) {
        let title = format!("unchanged, {} <= {GOAL_UNCHANGED}", kept.name());
        account_named(&title, held);
    }
}

fn main() {
    match std::env::args().nth(1).as_deref() {
        Some("advances") => {
            return account_advances(&print_advances(&advances::measure_all(LIMIT)));
        }
        Some("lists") => return account_lists(&print_lists(&lists::measure_all(LIMIT))),
        _ => {}
    }
    print_introduction();
    let all = measure_all();
    let advances = advances::measure_all(LIMIT);
    let lists = lists::measure_all(LIMIT);
    for memory in MEMORIES {
        for places in PLACES {
            print_shapes(&all, memory, places);
        }
    }
    print_check(&all);
    print_copies(&all);
    print_by_rule(&all);
    let advances = print_advances(&advances);
    let lists = print_lists(&lists);
    let beside = beside_baseline(&all);
    let scans = beside_scans(&all);
    let memories = print_memory(&all);
    let (restores, orders) = print_restore(&all);
    let growths = print_growth(&all);

    println!("Goals");
    println!();
    for call in FIGURES {
        account(
            &format!("{} <= {GOAL}", call.name()),
            beside.iter().filter(|held| held.call == call),
        );
    }
    account_named(&format!("all calls <= {GOAL}"), &beside);
    account_named(&format!("size of memory <= {GOAL_MEMORY}"), &memories);
    account_named(
        &format!("restore <= {GOAL_RESTORE} checks + copies"),
        &restores,
    );
    account_named(&format!("restore, disorderly <= {GOAL_DISORDER}"), &orders);
    account_advances(&advances);
    account_lists(&lists);
    account_named(&format!("growth <= {GOAL_GROWTH}"), &growths);
    account(&format!("check <= {GOAL_CHECK} scans"), scans.iter());
}
