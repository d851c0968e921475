//! Where a card lies in a picture.

/// How a card stands before a camera whose picture is 60 degrees wide.
#[derive(Clone, Copy, Debug)]
pub struct Pose {
    /// The card's height over the picture's, where it is not tilted: how far away it stands.
    pub share: f64,
    /// In degrees: the right side goes away from the camera.
    pub sideways: f64,
    /// In degrees: the upper side goes away from the camera.
    pub up: f64,
    /// In degrees, clockwise in the picture.
    pub roll: f64,
    /// From the picture's centre, in pixels.
    pub shift: [f64; 2],
}

impl Pose {
    pub const FIELD: f64 = 60.0;

    pub fn straight(share: f64) -> Pose {
        Pose { share, sideways: 0.0, up: 0.0, roll: 0.0, shift: [0.0; 2] }
    }

    /// Where a point of a card of these sides lies in a w by h picture, without lens. Pinhole camera: the card turns about its
    /// own upright and level axes, then about the line of sight.
    pub fn place(&self, sides: [f64; 2], picture: [f64; 2], p: [f64; 2]) -> [f64; 2] {
        let focal = picture[0] / 2.0 / (Self::FIELD / 2.0).to_radians().tan();
        let away = focal * sides[1] / (self.share * picture[1]);
        let (x, y) = (p[0] - sides[0] / 2.0, p[1] - sides[1] / 2.0);
        let (s, c) = self.sideways.to_radians().sin_cos();
        let (x, z) = (c * x, s * x);
        let (s, c) = self.up.to_radians().sin_cos();
        let (y, z) = (c * y + s * z, c * z - s * y);
        let (s, c) = self.roll.to_radians().sin_cos();
        let scale = focal / (away + z);
        let (u, v) = (scale * (c * x - s * y), scale * (s * x + c * y));
        [picture[0] / 2.0 + self.shift[0] + u, picture[1] / 2.0 + self.shift[1] + v]
    }
}

/// The matrix that takes four points to four others, where there is one.
pub fn homography(from: &[[f64; 2]; 4], to: &[[f64; 2]; 4]) -> Option<[f64; 9]> {
    let mut a = [[0.0; 9]; 8];
    for i in 0..4 {
        let ([x, y], [u, v]) = (from[i], to[i]);
        a[2 * i] = [x, y, 1.0, 0.0, 0.0, 0.0, -u * x, -u * y, u];
        a[2 * i + 1] = [0.0, 0.0, 0.0, x, y, 1.0, -v * x, -v * y, v];
    }
    for col in 0..8 {
        let pivot = (col..8).max_by(|&i, &j| a[i][col].abs().total_cmp(&a[j][col].abs())).unwrap();
        if a[pivot][col].abs() < 1e-12 {
            return None;
        }
        a.swap(col, pivot);
        for r in 0..8 {
            if r != col {
                let f = a[r][col] / a[col][col];
                let row = a[col];
                for (v, p) in a[r].iter_mut().zip(row) {
                    *v -= f * p;
                }
            }
        }
    }
    let h = |i: usize| a[i][8] / a[i][i];
    Some([h(0), h(1), h(2), h(3), h(4), h(5), h(6), h(7), 1.0])
}

/// Where a matrix takes a point; None behind the camera.
pub(crate) fn apply(m: &[f64; 9], p: [f64; 2]) -> Option<[f64; 2]> {
    let w = m[6] * p[0] + m[7] * p[1] + m[8];
    let x = (m[0] * p[0] + m[1] * p[1] + m[2]) / w;
    let y = (m[3] * p[0] + m[4] * p[1] + m[5]) / w;
    (w > 0.0).then_some([x, y])
}
