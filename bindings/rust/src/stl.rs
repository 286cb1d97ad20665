use std::error::Error;
use std::path::Path;
use std::{fmt, fs, io};

use crate::{raw, Refusal, Triangle};

/// The most triangles that a file may have.
const MOST_TRIANGLES: usize = 65_536;

/// How long a file of so many triangles is.
const fn file_length(triangles: usize) -> usize {
    84 + 50 * triangles
}

/// Why a mesh was not read or not written.
#[derive(Debug)]
#[non_exhaustive]
pub enum StlError {
    /// Refusal 15, of a file that begins as text does: an ASCII STL.
    Ascii,
    /// A refusal of the library.
    Refused(Refusal),
    /// The system could not read or write the file.
    Io(io::Error),
}

impl StlError {
    /// The refusal, where it was one: [`Refusal::FileLength`] for an ASCII STL.
    #[must_use]
    pub const fn refusal(&self) -> Option<Refusal> {
        match self {
            Self::Ascii => Some(Refusal::FileLength),
            Self::Refused(refusal) => Some(*refusal),
            Self::Io(_) => None,
        }
    }
}

impl fmt::Display for StlError {
    fn fmt(&self, f: &mut fmt::Formatter) -> fmt::Result {
        match self {
            Self::Ascii => f.write_str(
                "refused 15: the file is an ASCII STL; only binary STL is read: export it as binary",
            ),
            Self::Refused(refusal) => refusal.fmt(f),
            Self::Io(error) => error.fmt(f),
        }
    }
}

impl Error for StlError {
    fn source(&self) -> Option<&(dyn Error + 'static)> {
        match self {
            Self::Ascii => None,
            Self::Refused(refusal) => Some(refusal),
            Self::Io(error) => Some(error),
        }
    }
}

impl From<Refusal> for StlError {
    fn from(refusal: Refusal) -> Self {
        Self::Refused(refusal)
    }
}

impl From<io::Error> for StlError {
    fn from(error: io::Error) -> Self {
        Self::Io(error)
    }
}

/// The triangles of a binary STL file, each number widened exactly. Header and
/// attributes are not looked at.
///
/// # Errors
///
/// [`StlError::Ascii`], or the refusal: [`Refusal::FileLength`],
/// [`Refusal::TooManyTriangles`] or [`Refusal::TriangleNotAdmitted`] (the lowest
/// number), the first of these that applies.
///
/// ```
/// use pigeonmast::{read_stl, write_stl, StlError, Triangle};
/// let mesh = [Triangle::from([0.0, 0.0, 0.0, 1.5, 0.0, 0.0, 0.0, 1.0, -0.0, 0.0, 0.0, 1.0])];
/// let file = write_stl(&mesh)?;
/// assert_eq!((file.len(), read_stl(&file)?), (134, mesh.to_vec()));
///
/// let text = read_stl(b"solid roof\nfacet normal 0 0 1\n").unwrap_err();
/// assert!(text.to_string().contains("ASCII STL"));
/// assert_eq!(text.refusal().map(|refusal| refusal.number()), Some(15));
/// # Ok::<(), StlError>(())
/// ```
pub fn read_stl(file: &[u8]) -> Result<Vec<Triangle>, StlError> {
    // As many as the length has room for; a file whose count says otherwise is refused.
    let room = (file.len().saturating_sub(84) / 50).min(MOST_TRIANGLES);
    let (mut numbers, mut materials) = (vec![0.0; 12 * room], vec![0; room]);
    let mut told = [0];
    match raw::read_stl(file, &mut numbers, &mut materials, &mut told) {
        0 => Ok(Triangle::of_numbers(&numbers).to_vec()),
        15 if file.trim_ascii_start().starts_with(b"solid") => Err(StlError::Ascii),
        number => Err(Refusal::new(number, told[0]).into()),
    }
}

/// As [`read_stl`], of the file at a path.
///
/// # Errors
///
/// Those of [`read_stl`], and [`StlError::Io`].
pub fn read_stl_file(path: impl AsRef<Path>) -> Result<Vec<Triangle>, StlError> {
    read_stl(&fs::read(path)?)
}

/// The binary STL file of these triangles, with a zero header and zero
/// attributes. [`read_stl`] gives the same triangles back, bit for bit.
///
/// # Errors
///
/// [`Refusal::TooManyTriangles`], [`Refusal::TriangleNotAdmitted`] or
/// [`Refusal::NotSingle`] (the lowest number), the first of these that applies.
///
/// ```
/// use pigeonmast::{write_stl, Refusal, Triangle};
/// let tenth = [Triangle::from([0.1; 12])];
/// let refusal = write_stl(&tenth).unwrap_err();
/// assert_eq!(refusal, Refusal::NotSingle { triangle: 0 });
/// ```
pub fn write_stl(triangles: &[Triangle]) -> Result<Vec<u8>, Refusal> {
    // A mesh that is too long is refused before its room is looked at.
    let room = match triangles.len() {
        n if n > MOST_TRIANGLES => 0,
        n => file_length(n),
    };
    let (mut file, mut told) = (vec![0; room], [0]);
    match raw::write_stl(Triangle::all_numbers(triangles), &mut file, &mut told) {
        0 => Ok(file),
        number => Err(Refusal::new(number, told[0])),
    }
}

/// As [`write_stl`], into the file at a path, which is made or replaced; a
/// refused mesh leaves it as it is.
///
/// # Errors
///
/// Those of [`write_stl`], and [`StlError::Io`].
pub fn write_stl_file(path: impl AsRef<Path>, triangles: &[Triangle]) -> Result<(), StlError> {
    Ok(fs::write(path, write_stl(triangles)?)?)
}
