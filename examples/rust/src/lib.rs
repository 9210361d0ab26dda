//! A client for MQTT 3.1.1 over the library libposkvari. It opens no socket: it takes received
//! bytes and gives bytes to send.
//!
//! The duties that `poskvari.h` states are types here. A [`Client`] can't be copied, a method
//! borrows it mutably, so calls don't overlap, and it is neither `Send` nor `Sync`:
//!
//! ```compile_fail
//! let client = poskvari::Client::new(&poskvari::Options::default()).unwrap();
//! std::thread::spawn(move || drop(client));
//! ```

use std::ffi::c_void;
use std::fmt;
use std::marker::PhantomData;
use std::ptr;

#[repr(C)]
struct Handle {
    at: *mut c_void,
}

#[repr(C)]
#[derive(Default)]
struct RawEvent {
    kind: u8,
    qos: u8,
    retain: bool,
    session_present: bool,
    id: u16,
    topic_size: usize,
    size: usize,
}

extern "C" {
    fn poskvari_client_new(
        id: *const u8,
        id_size: usize,
        keep_alive: u16,
        max_packet: u32,
        capacity: u16,
        window: u16,
        has_user_name: bool,
        user_name: *const u8,
        user_name_size: usize,
        has_password: bool,
        password: *const u8,
        password_size: usize,
        has_will: bool,
        will_topic: *const u8,
        will_topic_size: usize,
        will_payload: *const u8,
        will_payload_size: usize,
        will_qos: u8,
        will_retain: bool,
        saved: *const u8,
        saved_size: usize,
        client: *mut Handle,
    ) -> i32;
    fn poskvari_client_free(client: *mut Handle);
    fn poskvari_client_connect(client: *mut Handle, now: u64, clean: bool) -> i32;
    fn poskvari_client_receive(client: *mut Handle, now: u64, bytes: *const u8, size: usize)
        -> i32;
    fn poskvari_client_output(client: *mut Handle, out: *mut u8, room: usize) -> usize;
    fn poskvari_client_publish(
        client: *mut Handle,
        topic: *const u8,
        topic_size: usize,
        payload: *const u8,
        payload_size: usize,
        qos: u8,
        retain: bool,
    ) -> i32;
    fn poskvari_client_subscribe(client: *mut Handle, filter: *const u8, size: usize, qos: u8)
        -> i32;
    fn poskvari_client_unsubscribe(client: *mut Handle, filter: *const u8, size: usize) -> i32;
    fn poskvari_client_next_event(
        client: *mut Handle,
        event: *mut RawEvent,
        out: *mut u8,
        room: usize,
    ) -> i32;
    fn poskvari_client_tick(client: *mut Handle, now: u64) -> i32;
    fn poskvari_client_next_deadline(client: *mut Handle) -> u64;
    fn poskvari_client_dropped(client: *mut Handle);
    fn poskvari_client_disconnect(client: *mut Handle) -> i32;
    fn poskvari_client_save(client: *mut Handle, out: *mut u8, room: usize) -> isize;
    fn poskvari_client_is_idle(client: *mut Handle) -> bool;
}

const ROOM: i32 = -3;

/// Why a call is refused. On an error nothing changes.
#[derive(Clone, Copy, Debug, PartialEq, Eq)]
pub enum Error {
    /// An allocation failed.
    Memory,
    /// An argument is not valid.
    Argument,
    /// The packet is over the limit.
    TooLarge,
    /// The bytes are not a saved session.
    Session,
    /// There is no established connection.
    NotConnected,
    /// No packet identifier is free.
    Full,
    /// Events were not taken yet.
    Events,
    /// The saved session belongs to another client.
    AnotherClient,
}

impl Error {
    fn of(code: i32) -> Error {
        match code {
            -1 => Error::Memory,
            -4 => Error::TooLarge,
            -8 => Error::Session,
            -10 => Error::NotConnected,
            -11 => Error::Full,
            -12 => Error::Events,
            -13 => Error::AnotherClient,
            _ => Error::Argument,
        }
    }
}

impl fmt::Display for Error {
    fn fmt(&self, f: &mut fmt::Formatter<'_>) -> fmt::Result {
        f.write_str(match self {
            Error::Memory => "out of memory",
            Error::Argument => "an argument is not valid",
            Error::TooLarge => "the packet is over the limit",
            Error::Session => "the bytes are not a saved session",
            Error::NotConnected => "not connected",
            Error::Full => "no packet identifier is free",
            Error::Events => "events are pending",
            Error::AnotherClient => "the session belongs to another client",
        })
    }
}

impl std::error::Error for Error {}

/// How often a message is delivered (4.3).
#[derive(Clone, Copy, Debug, PartialEq, Eq)]
#[repr(u8)]
pub enum Qos {
    /// At most once.
    AtMostOnce = 0,
    /// At least once.
    AtLeastOnce = 1,
    /// Exactly once.
    ExactlyOnce = 2,
}

/// Options of a client.
#[derive(Clone, Debug)]
pub struct Options<'a> {
    /// The client identifier.
    pub id: &'a str,
    /// The keep-alive in seconds, 0 for none.
    pub keep_alive: u16,
    /// The greatest remaining length of packets.
    pub max_packet: u32,
    /// The most packet identifiers in use.
    pub capacity: u16,
    /// User name and password.
    pub login: Option<(&'a str, Option<&'a [u8]>)>,
    /// A saved session to continue.
    pub saved: &'a [u8],
}

impl Default for Options<'_> {
    fn default() -> Self {
        Options {
            id: "",
            keep_alive: 60,
            max_packet: 1_048_576,
            capacity: 1_000,
            login: None,
            saved: &[],
        }
    }
}

/// An event of a client.
#[derive(Clone, Debug, PartialEq, Eq)]
pub enum Event {
    /// The server accepted the connection.
    Connected {
        /// The server had a session of this client.
        session_present: bool,
    },
    /// A message.
    Message {
        /// The topic name.
        topic: String,
        /// The payload.
        payload: Vec<u8>,
        /// The quality of service, 0 to 2.
        qos: u8,
        /// RETAIN.
        retain: bool,
    },
    /// The response to SUBSCRIBE.
    Subscribed {
        /// The identifier that `subscribe` returned.
        id: u16,
        /// The granted quality of service, or 128 for a refusal.
        code: u8,
    },
    /// The response to UNSUBSCRIBE.
    Unsubscribed {
        /// The identifier that `unsubscribe` returned.
        id: u16,
    },
    /// The response to PINGREQ.
    Pong,
}

/// A client's end of its connections, with its session.
pub struct Client {
    handle: Handle,
    // Neither `Send` nor `Sync`.
    own_thread: PhantomData<*mut ()>,
}

impl Client {
    /// Makes a client.
    pub fn new(options: &Options<'_>) -> Result<Client, Error> {
        let mut handle = Handle { at: ptr::null_mut() };
        let (name, password) = options.login.unwrap_or(("", None));
        let secret = password.unwrap_or(&[]);
        // SAFETY: each pointer has its size, and the handle is empty.
        let code = unsafe {
            poskvari_client_new(
                options.id.as_ptr(),
                options.id.len(),
                options.keep_alive,
                options.max_packet,
                options.capacity,
                0,
                options.login.is_some(),
                name.as_ptr(),
                name.len(),
                password.is_some(),
                secret.as_ptr(),
                secret.len(),
                false,
                secret.as_ptr(),
                0,
                secret.as_ptr(),
                0,
                0,
                false,
                options.saved.as_ptr(),
                options.saved.len(),
                &mut handle,
            )
        };
        checked(code)?;
        Ok(Client {
            handle,
            own_thread: PhantomData,
        })
    }

    /// Begins a connection: queues CONNECT. `clean` discards the session.
    pub fn connect(&mut self, now: u64, clean: bool) -> Result<(), Error> {
        // SAFETY: the handle has a client, as in all methods.
        checked(unsafe { poskvari_client_connect(&mut self.handle, now, clean) }).map(|_| ())
    }

    /// Processes received bytes. Returns the reason if the end closed, a number of `enum
    /// posk_close`. Take all events afterwards.
    pub fn receive(&mut self, now: u64, bytes: &[u8]) -> Result<Option<i32>, Error> {
        // SAFETY: the pointer has its size.
        let code = unsafe {
            poskvari_client_receive(&mut self.handle, now, bytes.as_ptr(), bytes.len())
        };
        checked(code).map(|reason| (reason > 0).then_some(reason))
    }

    /// Returns the bytes that must be sent now.
    pub fn output(&mut self) -> Vec<u8> {
        let mut all = Vec::new();
        let mut room = [0; 4096];
        loop {
            // SAFETY: the pointer has its size.
            let size = unsafe {
                poskvari_client_output(&mut self.handle, room.as_mut_ptr(), room.len())
            };
            if size == 0 {
                return all;
            }
            all.extend_from_slice(&room[..size]);
        }
    }

    /// Publishes a message. Returns its packet identifier, 0 with `Qos::AtMostOnce`.
    pub fn publish(
        &mut self,
        topic: &str,
        payload: &[u8],
        qos: Qos,
        retain: bool,
    ) -> Result<u16, Error> {
        // SAFETY: each pointer has its size.
        checked(unsafe {
            poskvari_client_publish(
                &mut self.handle,
                topic.as_ptr(),
                topic.len(),
                payload.as_ptr(),
                payload.len(),
                qos as u8,
                retain,
            )
        })
        .map(|id| id as u16)
    }

    /// Subscribes to a topic filter. Returns the packet identifier.
    pub fn subscribe(&mut self, filter: &str, qos: Qos) -> Result<u16, Error> {
        // SAFETY: the pointer has its size.
        checked(unsafe {
            poskvari_client_subscribe(&mut self.handle, filter.as_ptr(), filter.len(), qos as u8)
        })
        .map(|id| id as u16)
    }

    /// Unsubscribes from a topic filter. Returns the packet identifier.
    pub fn unsubscribe(&mut self, filter: &str) -> Result<u16, Error> {
        // SAFETY: the pointer has its size.
        checked(unsafe {
            poskvari_client_unsubscribe(&mut self.handle, filter.as_ptr(), filter.len())
        })
        .map(|id| id as u16)
    }

    /// Takes the next event.
    pub fn next_event(&mut self) -> Option<Event> {
        let mut raw = RawEvent::default();
        let mut bytes = vec![0; 4096];
        loop {
            // SAFETY: each pointer has its size.
            let code = unsafe {
                poskvari_client_next_event(
                    &mut self.handle,
                    &mut raw,
                    bytes.as_mut_ptr(),
                    bytes.len(),
                )
            };
            if code != ROOM {
                return event(&raw, &bytes);
            }
            bytes.resize(raw.size, 0);
        }
    }

    /// Queues a PINGREQ if it is due. Call it at `next_deadline`.
    pub fn tick(&mut self, now: u64) -> Result<(), Error> {
        // SAFETY: as in `connect`.
        checked(unsafe { poskvari_client_tick(&mut self.handle, now) }).map(|_| ())
    }

    /// The time from which `tick` does something.
    pub fn next_deadline(&mut self) -> Option<u64> {
        // SAFETY: as in `connect`.
        let deadline = unsafe { poskvari_client_next_deadline(&mut self.handle) };
        (deadline != u64::MAX).then_some(deadline)
    }

    /// Reports that the connection is lost.
    pub fn dropped(&mut self) {
        // SAFETY: as in `connect`.
        unsafe { poskvari_client_dropped(&mut self.handle) }
    }

    /// Queues DISCONNECT, and closes the end.
    pub fn disconnect(&mut self) -> Result<(), Error> {
        // SAFETY: as in `connect`.
        checked(unsafe { poskvari_client_disconnect(&mut self.handle) }).map(|_| ())
    }

    /// Whether each message that was published with QoS 1 or 2 is acknowledged.
    pub fn is_idle(&mut self) -> bool {
        // SAFETY: as in `connect`.
        unsafe { poskvari_client_is_idle(&mut self.handle) }
    }

    /// Returns the session, which the option `saved` continues.
    pub fn save(&mut self) -> Result<Vec<u8>, Error> {
        let mut bytes = vec![0; 4096];
        loop {
            // SAFETY: the pointer has its size.
            let size = unsafe {
                poskvari_client_save(&mut self.handle, bytes.as_mut_ptr(), bytes.len())
            };
            if size >= 0 {
                bytes.truncate(size as usize);
                return Ok(bytes);
            }
            if size != ROOM as isize {
                return Err(Error::of(size as i32));
            }
            bytes.resize(2 * bytes.len(), 0);
        }
    }
}

impl Drop for Client {
    fn drop(&mut self) {
        // SAFETY: as in `connect`; the handle is not used any more.
        unsafe { poskvari_client_free(&mut self.handle) }
    }
}

fn checked(code: i32) -> Result<i32, Error> {
    if code < 0 {
        return Err(Error::of(code));
    }
    Ok(code)
}

fn event(raw: &RawEvent, bytes: &[u8]) -> Option<Event> {
    let bytes = bytes.get(..raw.size)?;
    Some(match raw.kind {
        1 => Event::Connected {
            session_present: raw.session_present,
        },
        2 => Event::Message {
            topic: String::from_utf8_lossy(&bytes[..raw.topic_size]).into_owned(),
            payload: bytes[raw.topic_size..].to_vec(),
            qos: raw.qos,
            retain: raw.retain,
        },
        3 => Event::Subscribed {
            id: raw.id,
            code: *bytes.first()?,
        },
        4 => Event::Unsubscribed { id: raw.id },
        5 => Event::Pong,
        _ => return None,
    })
}
