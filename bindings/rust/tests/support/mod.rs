//! What the tests share.

use kesvuot::{Image, Profile};

/// The image of the first slice of a file that the layout accepts.
pub fn image_of(file: &[u8]) -> Image<'_> {
    let verified = kesvuot::verify(file, Profile::Layout).unwrap();
    verified.image(0).unwrap()
}
