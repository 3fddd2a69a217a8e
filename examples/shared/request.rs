//! The text of a request, and the document in its answer.
use bytes::Bytes;
use std::alloc::Global;
use std::fmt::Display;
use std::io;

/// A request for this path below the root. The server closes the connection after its answer.
pub fn request_for<P: Display + Drop>(alloc: Global, path: P) -> io::Result<Bytes> {
    let text = format!(in alloc;
        "GET /{path} HTTP/1.1\r\nhost: localhost\r\nconnection: close\r\n\r\n"
    )?;
    Ok(Bytes::copy_from_slice(alloc, text.as_bytes())?)
}

/// The document in a whole answer, or `None` if the server refused it.
pub fn document_in(answer: &[u8]) -> Option<&[u8]> {
    let rest = answer.strip_prefix(b"HTTP/1.1 200 ".as_slice())?;
    let end = rest
        .windows(4)
        .position(|bytes| bytes == b"\r\n\r\n".as_slice())?;
    rest.get(end.checked_add(4)?..)
}
