//! Stands for the crate `pix`: does what its public documentation says, and
//! only what the carried files use. A pixel outside the raster panics.

use el::Pixel;

/// Pixel elements
pub mod el {
    /// A pixel
    pub trait Pixel: Copy + Default {
        /// Get red, green, blue and alpha
        fn rgba(self) -> [u8; 4];

        /// Make a pixel of red, green, blue and alpha
        fn from_rgba(rgba: [u8; 4]) -> Self;

        /// Convert to another pixel format
        fn convert<D: Pixel>(self) -> D {
            D::from_rgba(self.rgba())
        }
    }
}

/// RGB pixels
pub mod rgb {
    use super::el::Pixel;

    /// Red, green and blue, eight bits each
    #[derive(Clone, Copy, Debug, Default, Eq, PartialEq)]
    pub struct SRgb8([u8; 3]);

    /// Red, green, blue and alpha, eight bits each
    #[derive(Clone, Copy, Debug, Default, Eq, PartialEq)]
    pub struct SRgba8([u8; 4]);

    impl SRgb8 {
        /// Create a pixel
        pub fn new(red: u8, green: u8, blue: u8) -> Self {
            SRgb8([red, green, blue])
        }
    }

    impl Pixel for SRgb8 {
        fn rgba(self) -> [u8; 4] {
            let [r, g, b] = self.0;
            [r, g, b, 255]
        }

        fn from_rgba([r, g, b, _]: [u8; 4]) -> Self {
            SRgb8([r, g, b])
        }
    }

    impl Pixel for SRgba8 {
        fn rgba(self) -> [u8; 4] {
            self.0
        }

        fn from_rgba(rgba: [u8; 4]) -> Self {
            SRgba8(rgba)
        }
    }
}

/// Location and size of a rectangular region
#[derive(Clone, Copy, Debug)]
pub struct Region {
    x: i32,
    y: i32,
    width: u32,
    height: u32,
}

/// Image with a rectangle of pixels
///
/// A row is stored when its first pixel is written; until then it is empty and
/// stands for the raster's colour.
#[derive(Clone, Debug)]
pub struct Raster<P> {
    width: u32,
    clr: P,
    rows: Vec<Vec<P>>,
}

impl Region {
    /// Create a region
    pub fn new(x: i32, y: i32, width: u32, height: u32) -> Self {
        Region {
            x,
            y,
            width,
            height,
        }
    }
}

impl<P: Pixel> Raster<P> {
    /// Create a raster of one colour
    pub fn with_color(width: u32, height: u32, clr: P) -> Self {
        let rows = vec![Vec::new(); height as usize];
        Raster { width, clr, rows }
    }

    /// Create a raster of the default colour
    pub fn with_clear(width: u32, height: u32) -> Self {
        Raster::with_color(width, height, P::default())
    }

    /// Get the width
    pub fn width(&self) -> u32 {
        self.width
    }

    /// Get the height
    pub fn height(&self) -> u32 {
        self.rows.len() as u32
    }

    /// Get one pixel to write
    pub fn pixel_mut(&mut self, x: i32, y: i32) -> &mut P {
        let (x, y) = (usize::try_from(x), usize::try_from(y));
        let (x, y) = (x.expect("pixel x"), y.expect("pixel y"));
        let row = &mut self.rows[y];
        if row.is_empty() {
            *row = vec![self.clr; self.width as usize];
        }
        &mut row[x]
    }

    /// Copy a colour to a region, cut to the raster
    pub fn copy_color(&mut self, to: Region, clr: P) {
        let (x, y) = (i64::from(to.x), i64::from(to.y));
        let right = (x + i64::from(to.width)).min(self.width().into());
        let bottom = (y + i64::from(to.height)).min(self.height().into());
        for yy in y.max(0)..bottom {
            for xx in x.max(0)..right {
                *self.pixel_mut(xx as i32, yy as i32) = clr;
            }
        }
    }
}

#[cfg(test)]
mod tests {
    use super::rgb::SRgb8;
    use super::*;

    fn stops(x: i32, y: i32) -> bool {
        std::panic::catch_unwind(|| {
            let mut raster = Raster::with_color(3, 2, SRgb8::new(0, 0, 0));
            *raster.pixel_mut(x, y) = SRgb8::new(1, 1, 1);
        })
        .is_err()
    }

    #[test]
    fn bounds() {
        assert!(!stops(0, 0) && !stops(2, 1));
        assert!(stops(3, 0) && stops(0, 2) && stops(-1, 0) && stops(0, -1));
    }
}
