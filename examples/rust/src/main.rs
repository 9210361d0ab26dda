//! Subscribes to a topic, publishes messages to it, and prints each message that comes back.
//!
//!     exchange HOST PORT CLIENT TOPIC PAYLOAD..

use poskvari::{Client, Event, Options, Qos};
use std::error::Error;
use std::io::{Read, Write};
use std::net::TcpStream;
use std::time::Instant;

fn main() -> Result<(), Box<dyn Error>> {
    let words: Vec<String> = std::env::args().skip(1).collect();
    let [host, port, id, topic, payloads @ ..] = words.as_slice() else {
        return Err("usage: exchange HOST PORT CLIENT TOPIC PAYLOAD..".into());
    };
    let start = Instant::now();
    let now = || start.elapsed().as_millis() as u64;
    let mut stream = TcpStream::connect(format!("{host}:{port}"))?;
    let mut client = Client::new(&Options {
        id,
        ..Options::default()
    })?;
    client.connect(now(), true)?;
    let mut bytes = [0; 65_536];
    let mut left = payloads.len();
    while left > 0 || !client.is_idle() {
        stream.write_all(&client.output())?;
        let size = stream.read(&mut bytes)?;
        if size == 0 {
            return Err("the server closed the connection".into());
        }
        let closed = client.receive(now(), &bytes[..size])?;
        while let Some(event) = client.next_event() {
            match event {
                Event::Connected { .. } => {
                    client.subscribe(topic, Qos::ExactlyOnce)?;
                }
                Event::Subscribed { .. } => {
                    for payload in payloads {
                        client.publish(topic, payload.as_bytes(), Qos::ExactlyOnce, false)?;
                    }
                }
                Event::Message { topic, payload, qos, .. } => {
                    println!("{topic} {qos} {}", String::from_utf8_lossy(&payload));
                    left -= 1;
                }
                _ => {}
            }
        }
        if let Some(reason) = closed {
            return Err(format!("closed for reason {reason}").into());
        }
    }
    client.disconnect()?;
    stream.write_all(&client.output())?;
    Ok(())
}
