//! Lines, boxes and words of a drawing, with colours for a light and a dark screen.

const STYLE: &str = "
  text { font: 11px sans-serif; fill: #24292f }
  .paper { fill: #ffffff }
  .value { text-anchor: middle; paint-order: stroke; stroke: #ffffff; stroke-width: 3px }
  .title { font-weight: bold; font-size: 13px }
  .middle { text-anchor: middle }
  .end { text-anchor: end }
  .grid { stroke: #d8dee4 }
  .axis { stroke: #57606a }
  .goal { stroke: #1a7f37; stroke-dasharray: 5 3 }
  .theirs { stroke: #6e7781; fill: none; stroke-width: 2 }
  .ordinary { stroke: #0969da; fill: none; stroke-width: 2 }
  .strict { stroke: #bc4c00; fill: none; stroke-width: 2 }
  rect.ordinary { fill: #0969da; stroke: none }
  rect.strict { fill: #bc4c00; stroke: none }
  rect.theirs { fill: #6e7781; stroke: none }
  @media (prefers-color-scheme: dark) {
    text { fill: #e6edf3 }
    .paper { fill: #0d1117 }
    .value { stroke: #0d1117 }
    .grid { stroke: #30363d }
    .axis { stroke: #9198a1 }
    .goal { stroke: #3fb950 }
    .theirs { stroke: #9198a1 }
    .ordinary { stroke: #58a6ff }
    .strict { stroke: #f0883e }
    rect.ordinary { fill: #58a6ff }
    rect.strict { fill: #f0883e }
    rect.theirs { fill: #9198a1 }
  }
";

pub struct Svg(String);

impl Svg {
    pub fn new(width: f64, height: f64, title: &str) -> Svg {
        let mut svg = Svg(format!(
            "<svg xmlns=\"http://www.w3.org/2000/svg\" width=\"{width}\" height=\"{height}\" \
             viewBox=\"0 0 {width} {height}\" role=\"img\">\n<title>{title}</title>\n\
             <style>{STYLE}</style>\n"
        ));
        svg.rect("paper", 0.0, 0.0, width, height);
        svg
    }

    pub fn rect(&mut self, class: &str, x: f64, y: f64, width: f64, height: f64) {
        self.0 += &format!(
            "<rect class=\"{class}\" x=\"{x:.1}\" y=\"{y:.1}\" width=\"{width:.1}\" height=\"{height:.1}\"/>\n"
        );
    }

    pub fn path(&mut self, class: &str, points: &[(f64, f64)]) {
        let points: Vec<String> = points
            .iter()
            .map(|(x, y)| format!("{x:.1},{y:.1}"))
            .collect();
        self.0 += &format!(
            "<polyline class=\"{class}\" points=\"{}\"/>\n",
            points.join(" ")
        );
    }

    /// The class says where the words stand: they begin at x, or `middle` or `end`.
    pub fn text(&mut self, class: &str, x: f64, y: f64, words: &str) {
        self.0 += &format!("<text class=\"{class}\" x=\"{x:.1}\" y=\"{y:.1}\">{words}</text>\n");
    }

    pub fn done(self) -> String {
        self.0 + "</svg>\n"
    }
}
