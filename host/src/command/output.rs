//! Outputs that are whole or absent: written beside their place, brought to the disk and renamed.
use std::fs::{self, File, OpenOptions};
use std::io::{self, BufWriter, Write};
use std::path::{Path, PathBuf};

/// The words as bytes, in small pieces: a large game need not be copied whole.
pub fn write_words(out: &mut impl Write, words: &[u32]) -> io::Result<()> {
    let mut bytes = [0; 1 << 14];
    for piece in words.chunks(bytes.len() / 4) {
        for (to, word) in bytes.as_chunks_mut::<4>().0.iter_mut().zip(piece) {
            *to = word.to_le_bytes();
        }
        out.write_all(&bytes[..4 * piece.len()])?;
    }
    Ok(())
}

/// Where a file stands until it is whole; `by` tells apart those who write the same file at the same time.
pub fn part_of(place: &Path, by: &str) -> PathBuf {
    let name = place.file_name().unwrap_or_default().to_string_lossy();
    place.with_file_name(format!(".{name}.{by}hingrezh-part"))
}

/// Writes a file by `write` as `part`, which must not exist; what was at its place stays until the new one is on the
/// disk.
pub fn replace<T>(place: &Path, part: &Path, write: impl FnOnce(&mut File) -> io::Result<T>) -> io::Result<T> {
    let mut file = OpenOptions::new().write(true).create_new(true).open(part)?;
    let written = write(&mut file).and_then(|result| {
        file.sync_all()?;
        fs::rename(part, place)?;
        Ok(result)
    });
    if written.is_err() {
        // What is left of a failed attempt is no output; the first error is the one to tell.
        let _ = fs::remove_file(part);
    }
    let result = written?;
    sync_folder(place)?;
    Ok(result)
}

/// The new name is on the disk once its folder is.
fn sync_folder(place: &Path) -> io::Result<()> {
    let folder = place.parent().filter(|folder| !folder.as_os_str().is_empty());
    File::open(folder.unwrap_or(Path::new(".")))?.sync_all()
}

/// Removes a file that may be absent.
pub fn remove(place: &Path) -> io::Result<()> {
    match fs::remove_file(place) {
        Err(error) if error.kind() != io::ErrorKind::NotFound => Err(error),
        _ => Ok(()),
    }
}

/// Writes into the file that was named: a link's target is replaced, a device or a pipe is written to as it stands.
pub fn write_named(file: &str, write: impl FnOnce(&mut dyn Write) -> io::Result<()>) -> io::Result<()> {
    let place = fs::canonicalize(file).unwrap_or_else(|_| PathBuf::from(file));
    match fs::metadata(&place) {
        Ok(about) if !about.is_file() => {
            let mut out = BufWriter::new(OpenOptions::new().write(true).open(&place)?);
            write(&mut out)?;
            out.flush()
        }
        _ => replace(&place, &part_of(&place, &format!("{}.", std::process::id())), |file| {
            let mut out = BufWriter::new(file);
            write(&mut out)?;
            out.flush()
        }),
    }
}
