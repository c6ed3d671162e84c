#!/usr/bin/env python3
"""Times sweeps with their live edges in a list and in a tree, and prints a table in Markdown for each kind of sweep.

    scans.py [--edges N ..] [--runs N] [--only KIND ..] [--write PROGRAM | --program PROGRAM]

    holes    holes are bound to shapes (`bind_contours`): rectangles one below another, each a step further right
             than the one above it, with a hole each; a quarter of the edges are live at once
    points   three points are located in a contour (`locate_by`, without the test that it is resolved): a zigzag
             between a slanted and an upright line; nearly all edges are live at once
    fills    the filled sides of edges (`fills_by_sweep`, behind the test of balance): those of the rectangles and
             holes; half are live at once
    apart    the same of rectangles none of which lies under another; a few edges are live at once

In the first three every new edge goes in below all live ones, or above the lowest one or two. Coordinates have 64 bits.

A program of its own (`build.py` makes it, in a minute or two) makes an input, sweeps some times, and prints the
processor time of each sweep by a clock of its own, and what it answers, or a sum of it, which must be the same with a
list and with a tree. `--write` leaves the program, and `--program` times it again. The least time of all rounds of the
runs counts, in which lists and trees take turns.
"""

import argparse
import tempfile
from pathlib import Path

from build import answer_of, build

KINDS = {
    "holes": "Binding of holes",
    "points": "Points in a contour",
    "fills": "Filled sides",
    "apart": "Filled sides, few edges live",
}
SCANS = ("list", "tree")
COLUMNS = ("Edges", "List, ms", "Tree, ms")
EDGES_OF_A_RUN = 100_000

NAME = "timed_scans"
USES = [
    "overlay_geom", "overlay_scan", "overlay_order", "overlay_graph", "overlay_walk", "overlay_extract",
    "overlay_relate", "anyhow",
]
DRIVER = """\
//! Times sweeps: KIND EDGES SCAN ROUNDS, as often as is wanted. SCAN is `list` or `tree`.
#![tactic(auto)]

use anyhow::{Result, bail};
use overlay_extract::binding::bind::bind_contours;
use overlay_geom::fill_rule::FillRule;
use overlay_geom::options::ContourDirection;
use overlay_geom::point::IntPoint;
use overlay_graph::balance::is_balanced;
use overlay_graph::fill_sweep::fills_by_sweep;
use overlay_order::count::ShapeCountBoolean;
use overlay_order::edge::{CountedEdge, compare_edges, compare_points};
use overlay_order::vector::SideFill;
use overlay_relate::in_contour::locate_by;
use overlay_relate::location::PointLocation;
use overlay_scan::list::ScanList;
use overlay_scan::tree::ScanTree;
use overlay_walk::contour::{Contour, Role};
use overlay_walk::step::Step;
use std::alloc::Global;
use std::env;
use std::time::CpuClock;

type Point = IntPoint<i64>;
type Edges = Vec<CountedEdge<i64, ShapeCountBoolean>>;

// The corners of a rectangle, or of its hole, counterclockwise.
fn corners(place: usize, steps: usize, inset: i64) -> [Point; 4] {
    let (i, width) = (place as i64, 4 * steps as i64);
    let (left, right) = (4 * i + inset, 4 * i + width - inset);
    let (bottom, top) = (inset - 8 * i, 6 - inset - 8 * i);
    [(left, bottom), (right, bottom), (right, top), (left, top)].map(|(x, y)| IntPoint::new(x, y))
}

fn add_rectangle(alloc: Global, all: &mut Vec<Contour<i64, Global>>, place: usize, steps: usize) -> Result<()> {
    let (outline, hole) = (corners(place, steps, 0), corners(place, steps, 1));
    let (mut forth, mut back) = (Vec::new(alloc), Vec::new(alloc));
    for k in 0..4 {
        forth.push(Step { from: outline[k], to: outline[(k + 1) % 4], edge: 0 })?;
        back.push(Step { from: hole[3 - k], to: hole[(6 - k) % 4], edge: 0 })?;
    }
    all.push(Contour { role: Role::Outline(place), steps: forth })?;
    all.push(Contour { role: Role::FreeHole, steps: back })?;
    Ok(())
}

// Rectangles of a width in steps.
fn rectangles(alloc: Global, edges: usize, width: usize) -> Result<Vec<Contour<i64, Global>>> {
    let mut all = Vec::new(alloc);
    for place in 0..edges / 8 {
        add_rectangle(alloc, &mut all, place, width)?;
    }
    Ok(all)
}

fn add_edge(edges: &mut Edges, from: Point, to: Point) -> Result<()> {
    let is_forward = compare_points(from, to).is_lt();
    let (a, b, subj) = if is_forward { (from, to, 1) } else { (to, from, -1) };
    edges.push(CountedEdge { a, b, count: ShapeCountBoolean { subj, clip: 0 } })?;
    Ok(())
}

fn edges_of(alloc: Global, contours: &[Contour<i64, Global>]) -> Result<Edges> {
    let mut edges = Vec::new(alloc);
    for contour in contours {
        for step in &contour.steps {
            add_edge(&mut edges, step.from, step.to)?;
        }
    }
    edges.sort_by(|e, f| compare_edges(e, f))?;
    Ok(edges)
}

fn zigzag(alloc: Global, edges: usize) -> Result<Vec<Point>> {
    let mut contour = Vec::new(alloc);
    let teeth = edges as i64 / 2 - 1;
    for i in 0..teeth {
        contour.push(IntPoint::new(i, -2 * i))?;
        contour.push(IntPoint::new(teeth, -2 * i - 1))?;
    }
    contour.push(IntPoint::new(teeth + 1, -2 * teeth))?;
    contour.push(IntPoint::new(teeth + 1, 2))?;
    Ok(contour)
}

fn time(rt: &impl CpuClock) -> Result<u128> {
    Ok(rt.process_cpu_time()?.as_nanos())
}

// What is asked of a sweep.
#[derive(Clone, Copy)]
struct Asked {
    edges: usize,
    is_tree: bool,
    rounds: usize,
}

fn bound(alloc: Global, contours: &[Contour<i64, Global>], is_tree: bool) -> Result<Vec<Option<usize>>> {
    let direction = ContourDirection::CounterClockwise;
    Ok(if is_tree {
        bind_contours(alloc, &mut ScanTree::default(alloc), contours, direction)?
    } else {
        bind_contours(alloc, &mut ScanList::default(alloc), contours, direction)?
    })
}

fn located(alloc: Global, contour: &[Point], points: &[Point], is_tree: bool) -> Result<Vec<PointLocation>> {
    Ok(if is_tree {
        locate_by(alloc, &mut ScanTree::default(alloc), contour, points)?
    } else {
        locate_by(alloc, &mut ScanList::default(alloc), contour, points)?
    })
}

fn filled(alloc: Global, edges: &Edges, is_tree: bool) -> Result<Vec<SideFill>> {
    if !is_balanced(alloc, edges)? {
        bail!("not balanced");
    }
    let rule = FillRule::NonZero;
    Ok(if is_tree {
        fills_by_sweep(alloc, &mut ScanTree::default(alloc), edges, rule)?
    } else {
        fills_by_sweep(alloc, &mut ScanList::default(alloc), edges, rule)?
    })
}

fn holes(rt: &(impl CpuClock + Print), alloc: Global, asked: Asked) -> Result<()> {
    let contours = rectangles(alloc, asked.edges, asked.edges / 8)?;
    for _ in 0..asked.rounds {
        let start = time(rt)?;
        let found = bound(alloc, &contours, asked.is_tree)?;
        let took = time(rt)? - start;
        let sum = found.iter().enumerate().map(|(i, n)| i * n.unwrap_or(0)).sum::<usize>();
        println!(rt; "{took} {sum}")?;
    }
    Ok(())
}

fn points(rt: &(impl CpuClock + Print), alloc: Global, asked: Asked) -> Result<()> {
    let contour = zigzag(alloc, asked.edges)?;
    let x = asked.edges as i64 / 2 - 2;
    let points = [IntPoint::new(x, 1), IntPoint::new(x, -1), contour[1]];
    for _ in 0..asked.rounds {
        let start = time(rt)?;
        let found = located(alloc, &contour, &points, asked.is_tree)?;
        let took = time(rt)? - start;
        println!(rt; "{took} {found:?}")?;
    }
    Ok(())
}

fn fills(rt: &(impl CpuClock + Print), alloc: Global, asked: Asked, width: usize) -> Result<()> {
    let all = edges_of(alloc, &rectangles(alloc, asked.edges, width)?)?;
    for _ in 0..asked.rounds {
        let start = time(rt)?;
        let found = filled(alloc, &all, asked.is_tree)?;
        let took = time(rt)? - start;
        let sum = found.iter().enumerate().map(|(i, n)| i * usize::from(*n)).sum::<usize>();
        println!(rt; "{took} {sum}")?;
    }
    Ok(())
}

fn next(words: &mut impl Iterator<Item = String>) -> Result<String> {
    let Some(word) = words.next() else { bail!("KIND EDGES SCAN ROUNDS") };
    Ok(word)
}

fn main(rt: HostRuntime) -> Result<()> {
    let mut words = env::args(&rt)?;
    let _ = words.next();
    while let Some(kind) = words.next() {
        let edges = next(&mut words)?.parse::<usize>()?;
        let is_tree = next(&mut words)?.as_str() == "tree";
        let asked = Asked { edges, is_tree, rounds: next(&mut words)?.parse::<usize>()? };
        match kind.as_str() {
            "holes" => holes(&rt, rt.alloc(), asked)?,
            "points" => points(&rt, rt.alloc(), asked)?,
            "apart" => fills(&rt, rt.alloc(), asked, 1)?,
            _ => fills(&rt, rt.alloc(), asked, edges / 8)?,
        }
    }
    Ok(())
}
"""


# ---- the program


def build_scans(program):
    """Leaves the program at a path."""
    with tempfile.TemporaryDirectory() as name:
        source = Path(name, NAME, "src")
        source.mkdir(parents=True)
        (source / "main.rt").write_text(DRIVER)
        build(program, source.parent, USES)


# ---- the table


def least(program, kind, edges, runs):
    """The least time of each kind of live edges, in milliseconds; all runs must give one answer."""
    rounds = max(1, EDGES_OF_A_RUN // edges)
    times, answers = {scan: [] for scan in SCANS}, set()
    for _ in range(runs):
        for scan in SCANS:
            for line in answer_of([program, kind, edges, scan, rounds]).splitlines():
                took, answer = line.split(" ", 1)
                times[scan].append(int(took) / 1e6)
                answers.add(answer)
    if len(answers) != 1:
        raise SystemExit(f"{kind} of {edges} edges: a list and a tree differ: {answers}")
    return [min(taken) for taken in times.values()]


def row(cells):
    """A row of a table in Markdown."""
    return "| " + " | ".join(cells) + " |"


def figure(milliseconds):
    """A time, with three digits or so."""
    digits = 4 if milliseconds < 1 else 2 if milliseconds < 100 else 0
    return f"{milliseconds:.{digits}f}"


def print_table(program, kind, sizes, runs):
    """Prints the table of a kind, each row as soon as it is known."""
    print(f"{KINDS[kind]}\n\n{row(COLUMNS)}\n{row('---' for _ in COLUMNS)}", flush=True)
    for edges in sizes:
        times = least(program, kind, edges, runs)
        print(row([f"{edges:,}", *map(figure, times)]), flush=True)
    print()


def read_options():
    """The options of the command line."""
    parser = argparse.ArgumentParser(description=__doc__, formatter_class=argparse.RawDescriptionHelpFormatter)
    parser.add_argument("--edges", type=int, nargs="+", default=[100, 1000, 10000, 100000])
    parser.add_argument("--runs", type=int, default=5, metavar="N", help="number of runs of each")
    parser.add_argument("--only", nargs="+", choices=KINDS, default=list(KINDS), metavar="KIND")
    parser.add_argument("--write", type=Path, metavar="PROGRAM", help="leave the program here")
    parser.add_argument("--program", type=Path, help="time a program that --write left")
    options = parser.parse_args()
    if min(options.edges) < 16 or options.runs < 1:
        parser.error("at least 16 edges, and one run")
    return options


def main():
    options = read_options()
    with tempfile.TemporaryDirectory() as name:
        folder = Path(name)
        program = (options.program or options.write or folder / NAME).resolve()
        if options.program is None:
            build_scans(program)
        for kind in options.only:
            print_table(program, kind, options.edges, options.runs)


if __name__ == "__main__":
    main()
