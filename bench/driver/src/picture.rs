//! The ratios as a picture: a bar to the right where ours is the faster, to the left where the Rust is.
use std::fmt::Write;

#[derive(Default)]
pub struct Picture {
    /// Group, what was measured, the Rust's time over ours.
    bars: Vec<(String, String, f64)>,
}

const LEFT: f64 = 330.0;
const DOUBLING: f64 = 44.0;
const DOUBLINGS_BELOW: f64 = 4.0;
const DOUBLINGS_ABOVE: f64 = 6.0;
const ROW: f64 = 17.0;

impl Picture {
    pub fn bar(&mut self, group: &str, what: impl Into<String>, ratio: f64) {
        self.bars.push((group.into(), what.into(), ratio));
    }

    pub fn svg(&self) -> String {
        let groups = self.bars.windows(2).filter(|pair| pair[0].0 != pair[1].0).count() + 1;
        let height = ROW * (self.bars.len() + 2 * groups) as f64 + 60.0;
        let width = LEFT + DOUBLING * (DOUBLINGS_BELOW + DOUBLINGS_ABOVE) + 60.0;
        let one = LEFT + DOUBLING * DOUBLINGS_BELOW;
        let place = |ratio: f64| one + DOUBLING * ratio.log2().clamp(-DOUBLINGS_BELOW, DOUBLINGS_ABOVE);
        let size = format!("width=\"{width}\" height=\"{height}\"");
        let mut svg = format!("<svg xmlns=\"http://www.w3.org/2000/svg\" {size} font-family=\"sans-serif\" font-size=\"12\">\n");
        writeln!(svg, "<rect width=\"100%\" height=\"100%\" fill=\"white\"/>").unwrap();
        let title = "The Rust's time over ours. Right of 1: ours is the faster. A bar ends at 1/16 and at 64.";
        writeln!(svg, "<text x=\"10\" y=\"20\" font-size=\"14\">{title}</text>").unwrap();
        for power in -(DOUBLINGS_BELOW as i32)..=DOUBLINGS_ABOVE as i32 {
            let (x, label) = (place(2f64.powi(power)), if power < 0 { format!("1/{}", 1 << -power) } else { format!("{}", 1 << power) });
            let shade = if power == 0 { "black" } else { "#ddd" };
            writeln!(svg, "<line x1=\"{x}\" y1=\"48\" x2=\"{x}\" y2=\"{height}\" stroke=\"{shade}\"/>").unwrap();
            writeln!(svg, "<text x=\"{x}\" y=\"42\" text-anchor=\"middle\" fill=\"#555\">{label}</text>").unwrap();
        }
        let (mut y, mut group) = (50.0, "");
        for (of, what, ratio) in &self.bars {
            if of != group {
                y += 2.0 * ROW;
                writeln!(svg, "<text x=\"10\" y=\"{}\" font-weight=\"bold\">{of}</text>", y - 5.0).unwrap();
                group = of;
            }
            let (from, to) = (place(ratio.min(1.0)), place(ratio.max(1.0)));
            let shade = if *ratio >= 1.0 { "#2a7" } else { "#c63" };
            writeln!(svg, "<rect x=\"{from}\" y=\"{}\" width=\"{}\" height=\"12\" fill=\"{shade}\"/>", y + 2.0, to - from).unwrap();
            writeln!(svg, "<text x=\"{}\" y=\"{}\" text-anchor=\"end\">{what}</text>", LEFT - 10.0, y + 12.0).unwrap();
            writeln!(svg, "<text x=\"{}\" y=\"{}\" fill=\"#555\">{ratio:.2}</text>", to + 4.0, y + 12.0).unwrap();
            y += ROW;
        }
        svg + "</svg>\n"
    }
}
