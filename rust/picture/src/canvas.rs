//! The few marks of SVG that a picture is made of.

use std::fmt::{Display, Write};

const STYLE: &str = "\
text{font:12px ui-monospace,'DejaVu Sans Mono',Menlo,Consolas,monospace;fill:#1f2933}\
.title,.sub,.column,.key{font:13px system-ui,'Segoe UI','DejaVu Sans',sans-serif;fill:#52606d}\
.title{font-size:19px;font-weight:600;fill:#1f2933}.column{font-weight:600;fill:#334e68}.key{font-size:12px}\
.small{font-size:11px;fill:#52606d}.head{font-weight:600;fill:#fff}.mark{font-size:10px;fill:#fff;text-anchor:middle}\
.end{text-anchor:end}.mid{text-anchor:middle}.bad{fill:#b42318;font-weight:600}.out{fill:#935f00;font-weight:600}\
.way{fill:none;stroke:#486581;stroke-width:1.5;marker-end:url(#tip)}.again{stroke-dasharray:5 4}\
.leaves{stroke:#d08700;stroke-dasharray:5 4;marker-end:url(#tip-out)}";

const DEFINITIONS: &str = "\
<defs><marker id=\"tip\" viewBox=\"0 0 8 8\" refX=\"7\" refY=\"4\" markerWidth=\"7\" markerHeight=\"7\" orient=\"auto\">\
<path d=\"M0 0 8 4 0 8z\" fill=\"#486581\"/></marker>\n\
<marker id=\"tip-out\" viewBox=\"0 0 8 8\" refX=\"7\" refY=\"4\" markerWidth=\"7\" markerHeight=\"7\" orient=\"auto\">\
<path d=\"M0 0 8 4 0 8z\" fill=\"#d08700\"/></marker>\n\
<pattern id=\"damage\" width=\"8\" height=\"8\" patternUnits=\"userSpaceOnUse\" patternTransform=\"rotate(45)\">\
<rect width=\"8\" height=\"8\" fill=\"#fdeceb\"/><rect width=\"3\" height=\"8\" fill=\"#f8d4d0\"/></pattern></defs>\n";

#[derive(Clone, Copy, Default)]
pub struct Place {
    pub x: u64,
    pub y: u64,
}

pub fn at(x: u64, y: u64) -> Place {
    Place { x, y }
}

/// Ways lie below everything else.
#[derive(Default)]
pub struct Canvas {
    ways: String,
    marks: String,
}

impl Canvas {
    /// Fill and edge are in `more`.
    pub fn rect(&mut self, place: Place, width: u64, height: u64, more: &str) {
        let Place { x, y } = place;
        writeln!(self.marks, "<rect x=\"{x}\" y=\"{y}\" width=\"{width}\" height=\"{height}\" {more}/>")
            .expect("a string takes it");
    }

    /// The words are numbers and our own: nothing in them has a meaning to SVG.
    pub fn text(&mut self, class: &str, place: Place, words: impl Display) {
        let Place { x, y } = place;
        writeln!(self.marks, "<text class=\"{class}\" x=\"{x}\" y=\"{y}\">{words}</text>").expect("a string takes it");
    }

    pub fn way(&mut self, class: &str, from: Place, to: Place) {
        let middle = (from.x + to.x) / 2;
        let (x, y, end, down) = (from.x, from.y, to.x, to.y);
        writeln!(self.ways, "<path class=\"{class}\" d=\"M{x} {y}C{middle} {y} {middle} {down} {end} {down}\"/>")
            .expect("a string takes it");
    }

    pub fn page(&self, width: u64, height: u64) -> String {
        let Canvas { ways, marks } = self;
        format!(
            "<svg xmlns=\"http://www.w3.org/2000/svg\" width=\"{width}\" height=\"{height}\" viewBox=\"0 0 {width} {height}\">\n\
             <style>{STYLE}</style>\n{DEFINITIONS}<rect width=\"{width}\" height=\"{height}\" fill=\"#fff\"/>\n{ways}{marks}</svg>\n"
        )
    }
}
