//! Building request lists that are never broken.

use crate::request::PUT_BODY;
use crate::{Key, ListError, Request, LIST_BYTES};

/// A list of requests. What is in it can always be split, and no request is refused for its kind or its length.
///
/// ```
/// use zilgwern::{List, ListError, VALUE_BYTES};
///
/// let mut list = List::new();
/// assert_eq!(list.put(1, &[0; VALUE_BYTES + 1]).err(), Some(ListError::ValueTooLong));
/// list.put(1, &[0; VALUE_BYTES])?.tidy()?;
/// assert_eq!((list.len(), list.as_bytes().len()), (2, 12 + VALUE_BYTES + 4));
/// # Ok::<(), ListError>(())
/// ```
#[derive(Clone, Default, PartialEq, Eq, Debug)]
pub struct List {
    bytes: Vec<u8>,
    requests: usize,
    /// The most bytes that the replies can have.
    replies: usize,
}

impl List {
    /// A list without requests.
    pub fn new() -> List {
        List::default()
    }

    /// The number of requests.
    pub fn len(&self) -> usize {
        self.requests
    }

    /// Whether there is no request.
    pub fn is_empty(&self) -> bool {
        self.requests == 0
    }

    /// The list as it is run.
    pub fn as_bytes(&self) -> &[u8] {
        &self.bytes
    }

    pub(crate) fn most_reply_bytes(&self) -> usize {
        self.replies
    }

    /// Adds a request unless its value or the list would be too long; then the list stays as it was.
    pub fn add(&mut self, request: &Request) -> Result<&mut List, ListError> {
        let body = request.body();
        if body.len() > PUT_BODY && matches!(request, Request::Put(..)) {
            return Err(ListError::ValueTooLong);
        }
        let length = 4 + body.len();
        if self.bytes.len() + length > LIST_BYTES {
            return Err(ListError::Full);
        }
        self.bytes.extend((length as u16).to_le_bytes());
        self.bytes.extend(request.kind().to_le_bytes());
        self.bytes.extend(body);
        self.requests += 1;
        self.replies += request.most_reply_bytes();
        Ok(self)
    }

    /// Adds a put of a value of at most [`VALUE_BYTES`](crate::VALUE_BYTES).
    pub fn put(&mut self, key: impl Into<Key>, value: &[u8]) -> Result<&mut List, ListError> {
        self.add(&Request::Put(key.into(), value.to_vec()))
    }

    /// Adds a delete. It leaves a delete mark, until a merge finds no span below that holds its key.
    pub fn delete(&mut self, key: impl Into<Key>) -> Result<&mut List, ListError> {
        self.add(&Request::Delete(key.into()))
    }

    /// Adds a look-up.
    pub fn look_up(&mut self, key: impl Into<Key>) -> Result<&mut List, ListError> {
        self.add(&Request::LookUp(key.into()))
    }

    /// Adds a scan of the first 16 or fewer values from low to high, both included.
    pub fn scan(
        &mut self,
        low: impl Into<Key>,
        high: impl Into<Key>,
    ) -> Result<&mut List, ListError> {
        self.add(&Request::Scan(low.into(), high.into()))
    }

    /// Adds a flush.
    pub fn flush(&mut self) -> Result<&mut List, ListError> {
        self.add(&Request::Flush)
    }

    /// Adds a tidy: one step.
    pub fn tidy(&mut self) -> Result<&mut List, ListError> {
        self.add(&Request::Tidy)
    }

    /// Adds a report.
    pub fn report(&mut self) -> Result<&mut List, ListError> {
        self.add(&Request::Report)
    }

    /// Adds a probe: a look-up that also says what it opens.
    pub fn probe(&mut self, key: impl Into<Key>) -> Result<&mut List, ListError> {
        self.add(&Request::Probe(key.into()))
    }
}
