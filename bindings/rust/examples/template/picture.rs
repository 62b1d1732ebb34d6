//! The block's fee-size diagram as an SVG picture: fees summed against weight, chunk by chunk.

use crate::block::{adjusted_weight, Block, Outcome};
use crate::list::List;
use crate::table::{grouped, summary};
use std::fmt::Write;

const WIDTH: f64 = 960.0;
const HEIGHT: f64 = 600.0;
/// Where the heading begins, and the diagram unless the numbers of its fees are long.
const LEFT: f64 = 100.0;
const RIGHT: f64 = 40.0;
const TOP: f64 = 80.0;
const BOTTOM: f64 = 70.0;

/// A corner of the curve: what is in the block behind a chunk.
#[derive(Clone, Copy, Debug, PartialEq)]
pub struct Corner {
    /// The chunk's number, in the order in which chunks were tried, from 1; 0 at the start.
    pub chunk: usize,
    /// The adjusted weights, by which the chunks are ordered: with them the curve bends one way.
    pub size: i128,
    /// The raw weights, which the budget counts.
    pub weight: i128,
    /// The fees with their deltas, by which the chunks are ordered.
    pub fee: i128,
    /// The fees that the block earns.
    pub paid: i128,
}

/// The corners of the curve, from the empty block on.
pub fn corners(list: &List, block: &Block) -> Vec<Corner> {
    let mut now = Corner {
        chunk: 0,
        size: 0,
        weight: 0,
        fee: 0,
        paid: 0,
    };
    let mut corners = vec![now];
    let mut out = block.selected.iter();
    for (number, (_, outcome)) in block.chunks.iter().enumerate() {
        if let Outcome::Taken(length) = outcome {
            for &place in out.by_ref().take(*length) {
                let tx = &list.transactions[place];
                now.size += i128::from(adjusted_weight(list, tx));
                now.weight += i128::from(tx.entry.weight);
                now.paid += i128::from(tx.entry.fee);
                now.fee += i128::from(tx.entry.fee) + i128::from(tx.delta);
            }
            now.chunk = number + 1;
            corners.push(now);
        }
    }
    corners
}

/// From numbers to the picture's own units.
struct Frame {
    /// Where the diagram begins, behind the numbers of the fees and their title.
    left: f64,
    size: i128,
    low: i128,
    high: i128,
    /// The budget, where it can be shown: it counts raw weight, and may lie far to the right.
    budget: Option<i128>,
    /// Whether some transaction counts more than its raw weight.
    by_sigops: bool,
}

impl Frame {
    fn around(corners: &[Corner], budget: u64) -> Frame {
        let last = corners[corners.len() - 1];
        let by_sigops = last.size != last.weight;
        let budget = Some(i128::from(budget))
            .filter(|&budget| !by_sigops && (budget <= 2 * last.size || last.size == 0));
        let fees = || corners.iter().flat_map(|c| [c.fee, c.paid]);
        let (low, high) = (fees().min().unwrap_or(0), fees().max().unwrap_or(0).max(1));
        let digits = ticks(low, high).into_iter().map(|fee| grouped(fee).len());
        Frame {
            left: LEFT.max(44.0 + 8.0 * digits.max().unwrap_or(0) as f64),
            size: budget.unwrap_or(last.size).max(1),
            low,
            high,
            budget,
            by_sigops,
        }
    }

    fn x(&self, size: i128) -> f64 {
        self.left + (WIDTH - self.left - RIGHT) * (size as f64 / self.size as f64)
    }

    fn y(&self, fee: i128) -> f64 {
        let share = (fee - self.low) as f64 / (self.high - self.low) as f64;
        HEIGHT - BOTTOM - (HEIGHT - TOP - BOTTOM) * share
    }
}

/// Round numbers from the first to the last: steps of 1, 2 or 5 with zeros, about eight of them.
fn ticks(from: i128, to: i128) -> Vec<i128> {
    let mut step = 1;
    while (to - from) / step > 8 {
        let leading = step.to_string().starts_with('2');
        step = if leading { step / 2 * 5 } else { step * 2 };
    }
    let first = from.div_euclid(step) + i128::from(from.rem_euclid(step) != 0);
    (first..=to / step).map(|k| k * step).collect()
}

/// The picture. Every write below is to a string, which takes all.
pub fn draw(list: &List, block: &Block) -> String {
    let corners = corners(list, block);
    let frame = Frame::around(&corners, list.terms.budget);
    let mut svg = String::new();
    let _ = writeln!(
        svg,
        "<svg xmlns=\"http://www.w3.org/2000/svg\" viewBox=\"0 0 {WIDTH} {HEIGHT}\" \
         width=\"{WIDTH}\" height=\"{HEIGHT}\" font-family=\"sans-serif\" font-size=\"13\">\n\
         <rect width=\"{WIDTH}\" height=\"{HEIGHT}\" fill=\"white\"/>\n\
         <text x=\"{LEFT}\" y=\"32\" font-size=\"18\">Fee-size diagram of the block</text>\n\
         <text x=\"{LEFT}\" y=\"54\" fill=\"#555\">{}</text>",
        summary(list, block)
    );
    draw_axes(&mut svg, &frame);
    draw_areas(&mut svg, &frame, &corners);
    draw_budget(&mut svg, &frame);
    if corners.iter().any(|corner| corner.fee != corner.paid) {
        let paid = line_of(&frame, &corners, |corner| corner.paid);
        let _ = writeln!(
            svg,
            "<polyline points=\"{paid}\" fill=\"none\" stroke=\"#c60\" stroke-width=\"1.5\" \
             stroke-dasharray=\"6 4\"/>"
        );
        draw_legend(&mut svg);
    }
    let fees = line_of(&frame, &corners, |corner| corner.fee);
    let _ = writeln!(
        svg,
        "<polyline points=\"{fees}\" fill=\"none\" stroke=\"#036\" stroke-width=\"2\"/>"
    );
    draw_corners(&mut svg, &frame, &corners);
    svg.push_str("</svg>\n");
    svg
}

fn line_of(frame: &Frame, corners: &[Corner], of: fn(&Corner) -> i128) -> String {
    let point = |c: &Corner| format!("{:.1},{:.1}", frame.x(c.size), frame.y(of(c)));
    corners.iter().map(point).collect::<Vec<_>>().join(" ")
}

fn draw_axes(svg: &mut String, frame: &Frame) {
    let (left, right, floor) = (frame.left, WIDTH - RIGHT, HEIGHT - BOTTOM);
    for fee in ticks(frame.low, frame.high) {
        let y = frame.y(fee);
        let _ = writeln!(
            svg,
            "<path d=\"M{left} {y:.1}H{right}\" stroke=\"#ddd\"/>\
             <text x=\"{:.1}\" y=\"{:.1}\" text-anchor=\"end\">{}</text>",
            left - 8.0,
            y + 4.5,
            grouped(fee)
        );
    }
    for size in ticks(0, frame.size) {
        let x = frame.x(size);
        let _ = writeln!(
            svg,
            "<path d=\"M{x:.1} {floor}v6\" stroke=\"#888\"/>\
             <text x=\"{x:.1}\" y=\"{:.1}\" text-anchor=\"middle\">{}</text>",
            floor + 22.0,
            grouped(size)
        );
    }
    let measure = if frame.by_sigops {
        "weight with sigops, by which chunks are ordered, summed (weight units)"
    } else {
        "weight, summed (weight units)"
    };
    let middle = (left + right) / 2.0;
    let _ = writeln!(
        svg,
        "<path d=\"M{left} {TOP}V{floor}H{right}\" fill=\"none\" stroke=\"#888\"/>\n\
         <text x=\"{middle}\" y=\"{:.1}\" text-anchor=\"middle\">{measure}</text>\n\
         <text transform=\"translate(24 {:.1}) rotate(-90)\" text-anchor=\"middle\">fees, summed (satoshi)</text>",
        HEIGHT - 22.0,
        (TOP + floor) / 2.0
    );
}

/// What lies below each chunk's part of the curve, in two tints by turns.
fn draw_areas(svg: &mut String, frame: &Frame, corners: &[Corner]) {
    let floor = frame.y(frame.low);
    for (number, pair) in corners.windows(2).enumerate() {
        let (a, b) = (&pair[0], &pair[1]);
        let tint = ["#cfe0f2", "#e6eff8"][number % 2];
        let _ = writeln!(
            svg,
            "<path d=\"M{:.1} {floor:.1}V{:.1}L{:.1} {:.1}V{floor:.1}Z\" fill=\"{tint}\"/>",
            frame.x(a.size),
            frame.y(a.fee),
            frame.x(b.size),
            frame.y(b.fee)
        );
    }
}

fn draw_budget(svg: &mut String, frame: &Frame) {
    let Some(budget) = frame.budget else {
        return;
    };
    let x = frame.x(budget);
    let _ = writeln!(
        svg,
        "<path d=\"M{x:.1} {TOP}V{}\" stroke=\"#a00\" stroke-dasharray=\"3 3\"/>\
         <text x=\"{:.1}\" y=\"{:.1}\" fill=\"#a00\" text-anchor=\"end\">budget</text>",
        HEIGHT - BOTTOM,
        x - 5.0,
        HEIGHT - BOTTOM - 8.0
    );
}

/// Beside the heading, where no curve comes.
fn draw_legend(svg: &mut String) {
    let x = WIDTH / 2.0 + 60.0;
    let (first, second) = (16.0, 34.0);
    let _ = writeln!(
        svg,
        "<path d=\"M{x} {first}h36\" stroke=\"#036\" stroke-width=\"2\"/>\
         <text x=\"{0}\" y=\"{1}\">fees with deltas, by which chunks are ordered</text>\n\
         <path d=\"M{x} {second}h36\" stroke=\"#c60\" stroke-width=\"1.5\" stroke-dasharray=\"6 4\"/>\
         <text x=\"{0}\" y=\"{2}\">fees that the block earns</text>",
        x + 46.0,
        first + 4.5,
        second + 4.5
    );
}

/// A dot behind each chunk, its number where there is room for it, and its figures for a pointer.
fn draw_corners(svg: &mut String, frame: &Frame, corners: &[Corner]) {
    let radius = if corners.len() < 60 { 3.5 } else { 1.5 };
    let mut free = f64::MIN;
    for pair in corners.windows(2) {
        let (a, b) = (&pair[0], &pair[1]);
        let (x, y) = (frame.x(b.size), frame.y(b.fee));
        let _ = writeln!(
            svg,
            "<circle cx=\"{x:.1}\" cy=\"{y:.1}\" r=\"{radius}\" fill=\"#036\"><title>chunk {}: fees {}, weight {}; \
             with it {} and {}</title></circle>",
            b.chunk,
            grouped(b.fee - a.fee),
            grouped(b.size - a.size),
            grouped(b.fee),
            grouped(b.size)
        );
        if x > free {
            let _ = writeln!(
                svg,
                "<text x=\"{:.1}\" y=\"{:.1}\" font-size=\"11\" fill=\"#036\" text-anchor=\"middle\">{}</text>",
                x,
                y - 8.0,
                b.chunk
            );
            free = x + 10.0 + 8.0 * b.chunk.to_string().len() as f64;
        }
    }
}
