//! Draws an operator panel: title, part numbers, lamps, gauges and buttons on a shaded plate.

use crate::font;
use crate::rectangles::Rectangle;
use picture::Picture;

pub const WIDTH: usize = 1366;
pub const HEIGHT: usize = 768;

const LAMPS: [(&str, bool); 6] =
    [("GUARD", true), ("DOOR", true), ("DRIVE", false), ("OIL", true), ("E-STOP", false), ("AUTO", true)];
const LAMP_Y: f64 = 268.0;
const GAUGES: [(&str, f64); 3] = [("BAR", 0.31), ("RPM", 0.78), ("DEG C", 0.55)];
const GAUGE_Y: f64 = 516.0;
const BUTTONS: [&str; 4] = ["START", "STOP", "RESET", "JOG"];
const WINDOWS: [(f64, &str); 2] = [(93.0, "PN 7341-22-B"), (713.0, "RECIPE 0187-C")];

/// An area in samples; x and y of its upper left corner.
struct Area {
    x: f64,
    y: f64,
    width: f64,
    height: f64,
}

impl Area {
    fn around(x: f64, y: f64, reach: f64) -> Area {
        Area { x: x - reach, y: y - reach, width: 2.0 * reach, height: 2.0 * reach }
    }
}

/// A picture in the making: brightness 0 to 255, not yet rounded.
struct Canvas {
    light: Vec<f64>,
}

impl Canvas {
    /// Lays a shape over an area. `shape` gives, for the middle of a sample, a brightness and how much of it covers.
    fn lay(&mut self, area: &Area, shape: impl Fn(f64, f64) -> (f64, f64)) {
        let range = |from: f64, length: f64, end: usize| {
            (from.max(0.0) as usize).min(end)..((from + length).ceil().max(0.0) as usize).min(end)
        };
        for y in range(area.y, area.height, HEIGHT) {
            for x in range(area.x, area.width, WIDTH) {
                let (brightness, cover) = shape(x as f64 + 0.5, y as f64 + 0.5);
                let cell = &mut self.light[y * WIDTH + x];
                *cell += (brightness - *cell) * cover.clamp(0.0, 1.0);
            }
        }
    }

    /// A disc whose brightness goes from `inner` at its upper left to `outer` at its lower right.
    fn disc(&mut self, x: f64, y: f64, radius: f64, inner: f64, outer: f64) {
        self.lay(&Area::around(x, y, radius + 1.0), |px, py| {
            let slope = ((px - x + py - y) / (2.0 * radius) + 0.5).clamp(0.0, 1.0);
            (inner + (outer - inner) * slope, radius + 0.5 - (px - x).hypot(py - y))
        });
    }

    /// A rectangle with rounded corners, `upper` bright at its upper edge and `lower` at its lower one.
    fn plate(&mut self, area: &Area, corner: f64, upper: f64, lower: f64) {
        let (half_width, half_height) = (area.width / 2.0, area.height / 2.0);
        self.lay(area, |px, py| {
            let dx = ((px - area.x - half_width).abs() - half_width + corner).max(0.0);
            let dy = ((py - area.y - half_height).abs() - half_height + corner).max(0.0);
            let slope = (py - area.y) / area.height;
            (upper + (lower - upper) * slope, corner + 0.5 - dx.hypot(dy))
        });
    }

    /// A straight stroke, from `from` to `to` on a ray out of a middle; the angle is clockwise from straight up.
    fn ray(&mut self, middle: (f64, f64), angle: f64, from: f64, to: f64, half: f64, brightness: f64) {
        let (sine, cosine) = angle.sin_cos();
        self.lay(&Area::around(middle.0, middle.1, to + 2.0), |px, py| {
            let (dx, dy) = (px - middle.0, py - middle.1);
            let along = dx * sine - dy * cosine;
            let across = dx * cosine + dy * sine;
            let outside = (from - along).max(along - to).max(0.0);
            (brightness, half + 0.5 - across.hypot(outside))
        });
    }

    /// Text, its upper left corner at x and y, each dot of the font `scale` samples wide.
    fn text(&mut self, x: f64, y: f64, scale: f64, brightness: f64, text: &str) {
        let advance = scale * font::ADVANCE as f64;
        for (i, character) in text.chars().enumerate() {
            let left = x + i as f64 * advance;
            let area = Area { x: left, y, width: advance, height: scale * font::HEIGHT as f64 };
            self.lay(&area, |px, py| {
                let column = ((px - left) / scale) as usize;
                let row = ((py - y) / scale) as usize;
                (brightness, f64::from(u8::from(font::dot(character, column, row))))
            });
        }
    }

    fn centred(&mut self, x: f64, y: f64, scale: f64, brightness: f64, text: &str) {
        let width = scale * (font::ADVANCE * text.len()) as f64 - scale;
        self.text((x - width / 2.0).round(), y, scale, brightness, text);
    }
}

/// The plate behind everything: lit from the upper left, brushed in rows, with a little grain.
fn background() -> Canvas {
    let mut grain = Grain(1);
    let mut light = Vec::with_capacity(WIDTH * HEIGHT);
    for y in 0..HEIGHT {
        let brush = 5.0 * grain.next();
        for x in 0..WIDTH {
            let far = (x as f64 - 384.0).hypot(y as f64 - 144.0);
            light.push(158.0 - 0.055 * far + brush + 3.0 * grain.next());
        }
    }
    Canvas { light }
}

/// Numbers from -0.5 to 0.5 that are the same in every run (a linear congruential generator).
struct Grain(u64);

impl Grain {
    fn next(&mut self) -> f64 {
        self.0 = self.0.wrapping_mul(6364136223846793005).wrapping_add(1442695040888963407);
        (self.0 >> 40) as f64 / (1u64 << 24) as f64 - 0.5
    }
}

fn draw_frame(canvas: &mut Canvas) {
    for (x, y) in [(22.0, 22.0), (1344.0, 22.0), (22.0, 746.0), (1344.0, 746.0)] {
        canvas.disc(x, y, 11.0, 205.0, 70.0);
        canvas.ray((x, y), 0.8, -8.0, 8.0, 1.6, 50.0);
    }
    canvas.plate(&Area { x: 60.0, y: 18.0, width: 1246.0, height: 68.0 }, 9.0, 62.0, 40.0);
    canvas.centred(683.0, 34.0, 5.0, 214.0, "PRESS LINE 4 OPERATOR PANEL");
}

fn draw_window(canvas: &mut Canvas, x: f64, text: &str) {
    canvas.plate(&Area { x, y: 108.0, width: 560.0, height: 84.0 }, 8.0, 190.0, 120.0);
    canvas.plate(&Area { x: x + 6.0, y: 114.0, width: 548.0, height: 72.0 }, 5.0, 18.0, 34.0);
    canvas.centred(x + 280.0, 132.0, 5.0, 238.0, text);
}

fn lamp_x(i: usize) -> f64 {
    143.0 + 216.0 * i as f64
}

fn draw_lamp(canvas: &mut Canvas, x: f64, label: &str, lit: bool) {
    canvas.disc(x, LAMP_Y, 42.0, 225.0, 60.0);
    canvas.disc(x, LAMP_Y, 34.0, 40.0, 90.0);
    let (inner, outer) = if lit { (255.0, 205.0) } else { (92.0, 46.0) };
    canvas.disc(x, LAMP_Y, 30.0, inner, outer);
    canvas.disc(x - 10.0, LAMP_Y - 12.0, 7.0, 255.0, if lit { 250.0 } else { 120.0 });
    canvas.centred(x, LAMP_Y + 56.0, 3.0, 28.0, label);
}

/// A dial with 11 long and 40 short strokes over 270 degrees.
fn draw_gauge(canvas: &mut Canvas, x: f64, label: &str, value: f64) {
    let middle = (x, GAUGE_Y);
    let angle = |part: f64| (part * 270.0 - 135.0).to_radians();
    canvas.disc(x, GAUGE_Y, 146.0, 215.0, 52.0);
    canvas.disc(x, GAUGE_Y, 135.0, 240.0, 204.0);
    for i in 0..=50 {
        let (from, half) = if i % 5 == 0 { (101.0, 2.0) } else { (114.0, 0.7) };
        canvas.ray(middle, angle(f64::from(i) / 50.0), from, 124.0, half, 30.0);
    }
    for i in (0..=10).step_by(2) {
        let (sine, cosine) = angle(f64::from(i) / 10.0).sin_cos();
        canvas.centred(x + 82.0 * sine, GAUGE_Y - 82.0 * cosine - 7.0, 2.0, 40.0, &i.to_string());
    }
    canvas.centred(x, GAUGE_Y + 78.0, 3.0, 40.0, label);
    canvas.ray(middle, angle(value), -22.0, 108.0, 3.0, 16.0);
    canvas.disc(x, GAUGE_Y, 13.0, 120.0, 20.0);
}

fn draw_button(canvas: &mut Canvas, x: f64, label: &str) {
    canvas.plate(&Area { x, y: 686.0, width: 220.0, height: 62.0 }, 12.0, 60.0, 36.0);
    canvas.plate(&Area { x: x + 5.0, y: 689.0, width: 210.0, height: 54.0 }, 11.0, 206.0, 150.0);
    canvas.centred(x + 110.0, 705.0, 3.0, 24.0, label);
}

/// The panel, with 8 bits a sample.
pub fn draw() -> Picture {
    let mut canvas = background();
    draw_frame(&mut canvas);
    for (x, text) in WINDOWS {
        draw_window(&mut canvas, x, text);
    }
    for (i, (label, lit)) in LAMPS.into_iter().enumerate() {
        draw_lamp(&mut canvas, lamp_x(i), label, lit);
    }
    for (i, (label, value)) in GAUGES.into_iter().enumerate() {
        draw_gauge(&mut canvas, 251.0 + 432.0 * i as f64, label, value);
    }
    for (i, label) in BUTTONS.into_iter().enumerate() {
        draw_button(&mut canvas, 108.0 + 310.0 * i as f64, label);
    }
    let samples = canvas.light.iter().map(|light| light.round().clamp(0.0, 255.0) as u16).collect();
    Picture { width: WIDTH, height: HEIGHT, top: 255, samples }
}

/// The rectangles over part numbers and lamps.
pub fn rectangles() -> Vec<Rectangle> {
    let window = |(x, _)| Rectangle { x: x as u64 + 75, y: 123, width: 410, height: 53 };
    let lamp = |i| Rectangle { x: lamp_x(i) as u64 - 34, y: LAMP_Y as u64 - 34, width: 69, height: 69 };
    WINDOWS.into_iter().map(window).chain((0..LAMPS.len()).map(lamp)).collect()
}

#[cfg(test)]
mod tests {
    use super::*;

    #[test]
    fn the_panel_is_a_picture_with_its_rectangles_inside() {
        let panel = draw();
        assert_eq!(panel.samples.len(), WIDTH * HEIGHT);
        assert!(panel.samples.iter().all(|&s| s <= panel.top));
        for r in rectangles() {
            assert!((r.x + r.width) as usize <= WIDTH && (r.y + r.height) as usize <= HEIGHT);
        }
    }

    #[test]
    fn the_panel_is_the_same_in_every_run() {
        assert_eq!(draw(), draw());
    }
}
