//! Spots and rectangles on the paper, in pixels from its top left.

#[derive(Clone, Copy, Debug, PartialEq)]
pub struct Spot {
    pub x: f64,
    pub y: f64,
}

impl Spot {
    pub const fn new(x: f64, y: f64) -> Self {
        Spot { x, y }
    }

    /// Moved by `length` along a direction.
    pub fn along(self, direction: Spot, length: f64) -> Self {
        Spot::new(self.x + direction.x * length, self.y + direction.y * length)
    }

    /// The part `t` of the way to another spot.
    pub fn towards(self, other: Spot, t: f64) -> Self {
        Spot::new(
            self.x + (other.x - self.x) * t,
            self.y + (other.y - self.y) * t,
        )
    }

    pub fn distance(self, other: Spot) -> f64 {
        let (x, y) = (other.x - self.x, other.y - self.y);
        (x * x + y * y).sqrt()
    }
}

#[derive(Clone, Copy, Debug, PartialEq)]
pub struct Rect {
    pub left: f64,
    pub top: f64,
    pub right: f64,
    pub bottom: f64,
}

impl Rect {
    pub const fn new(left: f64, top: f64, right: f64, bottom: f64) -> Self {
        Rect {
            left,
            top,
            right,
            bottom,
        }
    }

    pub fn centred(at: Spot, width: f64, height: f64) -> Self {
        let (x, y) = (width / 2.0, height / 2.0);
        Rect::new(at.x - x, at.y - y, at.x + x, at.y + y)
    }

    /// By so much on every side.
    pub fn grown(&self, across: f64, up: f64) -> Self {
        Rect::new(
            self.left - across,
            self.top - up,
            self.right + across,
            self.bottom + up,
        )
    }

    pub fn width(&self) -> f64 {
        self.right - self.left
    }

    pub fn height(&self) -> f64 {
        self.bottom - self.top
    }

    pub fn centre(&self) -> Spot {
        Spot::new(
            (self.left + self.right) / 2.0,
            (self.top + self.bottom) / 2.0,
        )
    }

    pub fn overlaps(&self, other: &Rect) -> bool {
        self.left < other.right
            && other.left < self.right
            && self.top < other.bottom
            && other.top < self.bottom
    }

    pub fn holds(&self, other: &Rect) -> bool {
        self.left <= other.left
            && other.right <= self.right
            && self.top <= other.top
            && other.bottom <= self.bottom
    }

    /// What both have in common, if anything.
    pub fn common(&self, other: &Rect) -> Option<Rect> {
        let common = Rect::new(
            self.left.max(other.left),
            self.top.max(other.top),
            self.right.min(other.right),
            self.bottom.min(other.bottom),
        );
        (common.left <= common.right && common.top <= common.bottom).then_some(common)
    }
}
