//! SVG pictures that are understandable without further text, for the benchmark, the trials and the program. A picture has one
//! style sheet with colours for light and for dark pages; the reader's setting selects between them. So no element has a fixed
//! colour.

mod curves;
mod scale;
mod svg;

pub use curves::{picture, Curve, Panel};
pub use scale::{labels, round_up, Scale, Time};
pub use svg::{Colour, Svg};
