//! An event and its bytes: kind, node, other, value, as they come and not judged yet.

/// The bytes of an event.
pub const EVENT_BYTES: usize = 11;

#[derive(Clone, Copy, Debug, PartialEq, Eq)]
pub struct Event {
    pub kind: u8,
    pub node: u8,
    pub other: u8,
    pub value: u64,
}

impl Event {
    pub fn from_bytes(bytes: &[u8; EVENT_BYTES]) -> Event {
        let [kind, node, other, value @ ..] = *bytes;
        Event {
            kind,
            node,
            other,
            value: u64::from_be_bytes(value),
        }
    }

    pub fn to_bytes(self) -> [u8; EVENT_BYTES] {
        let mut bytes = [0; EVENT_BYTES];
        bytes[..3].copy_from_slice(&[self.kind, self.node, self.other]);
        bytes[3..].copy_from_slice(&self.value.to_be_bytes());
        bytes
    }
}
