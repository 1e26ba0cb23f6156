//! A client for the desk: asks a server as a client does, and says the reply in words.

use crate::args::{Args, Command, Failure};
use crate::print;
use crate::serve::{now, PORT};
use banshorra_host::message::{self, Message};
use banshorra_host::message::{ACK, DISCOVER, GETINFO, NAK, OFFER, RELEASE, RENEW, REQUEST};
use banshorra_host::quoted;
use std::io::{self, ErrorKind, Read};
use std::net::{Ipv4Addr, SocketAddr, SocketAddrV4, UdpSocket};
use std::time::{Duration, Instant};

pub const COMMAND: Command = Command {
    name: "ask",
    help: "\
banshorra ask discover|request|renew|release|getinfo [OPTIONS]

Sends one message to a server, waits, sends it again as the protocol says (after 4 seconds, then after twice as long each time), and says the reply
in words. It ends with 0 for an OFFER or ACK, 1 for a NAK, 4 if no answer came. (A server is silent on a DISCOVER or GETINFO that it can't meet.)

  --server ADDRESS:PORT     who is asked; 127.0.0.1:2535 if not given. A multicast group will do
  --from ADDRESS            the own address to send from
  --id ID                   the lease identifier: a text, or octets in hex as 0x004c31. If not given, a random one, which is said
  --scope ADDRESS           discover, request: the scope's lowest address
  --number LEAST[-DESIRED]  discover, request: how many addresses
  --lease SECONDS           for how long             --minimum SECONDS   not for less
  --start TIME              from when, as 2026-11-17T09:30:00Z           --latest TIME   no later than this
  --server-id ADDRESS       request: the server that is meant, where several made offers
  --want CODES              getinfo: the options wanted, 9,11 (scopes and time) if not given
  --language TAG            getinfo: the language for names
  --xid NUMBER              the transaction id, in hex; a random one if not given. The same again is a resend
  --wait SECONDS            how long to wait the first time; 4 if not given
  --tries NUMBER            how often to send, from 1; 4 if not given
  --hex                     also print the octets
",
    flags: &["hex"],
    valued: &[
        "server", "from", "id", "scope", "number", "lease", "minimum", "start", "latest", "server-id", "want", "language", "xid", "wait", "tries",
    ],
    run: ask,
};

/// The longest time between two sends, by the protocol.
const LONGEST: Duration = Duration::from_secs(64);

fn ask(args: &Args) -> Result<(), Failure> {
    let kind = match args.word("what to ask")? {
        "discover" => DISCOVER,
        "request" => REQUEST,
        "renew" => RENEW,
        "release" => RELEASE,
        "getinfo" => GETINFO,
        other => {
            return args.usage(&format!(
                "discover, request, renew, release or getinfo is wanted, not `{other}`"
            ))
        }
    };
    let server = args.socket("server", Ipv4Addr::LOCALHOST, PORT)?;
    let given = args.identifier("id")?;
    let is_given = given.is_some();
    // Type 0, a random number.
    let random_one = || Ok([&[0][..], &random::<16>()?].concat());
    let identifier = given.map_or_else(random_one, Ok)?;
    let xid = args.read_as("xid", "a transaction id in hex", |value| {
        u32::from_str_radix(value.trim_start_matches("0x"), 16).ok()
    })?;
    let xid = xid.map_or_else(|| random().map(u32::from_be_bytes), Ok)?;
    let datagram = message::draft(kind, xid, &options(args, kind, &identifier)?);
    let from = SocketAddrV4::new(args.address("from")?.unwrap_or(Ipv4Addr::UNSPECIFIED), 0);
    let seconds = |value: &str| {
        let seconds = value
            .parse()
            .ok()
            .filter(|seconds: &f64| (0.001..=3600.0).contains(seconds))?;
        Some(Duration::from_secs_f64(seconds))
    };
    let tries = |value: &str| value.parse().ok().filter(|tries| *tries > 0);
    let asked = Asked {
        datagram,
        server,
        from,
        wait: args
            .read_as("wait", "seconds", seconds)?
            .unwrap_or(Duration::from_secs(4)),
        tries: args
            .read_as("tries", "a number from 1", tries)?
            .unwrap_or(4),
        is_hex: args.has("hex"),
    };
    if !is_given {
        // As --id takes it, whatever it looks like.
        let identifier = quoted::hex(&identifier);
        print(&format!("the identifier is 0x{identifier}\n"))?;
    }
    asked.send()
}

/// Octets that nobody foresees.
fn random<const N: usize>() -> Result<[u8; N], Failure> {
    let mut octets = [0; N];
    let read =
        std::fs::File::open("/dev/urandom").and_then(|mut file| file.read_exact(&mut octets));
    read.map_err(|error| Failure::Machine(format!("/dev/urandom: {error}")))?;
    Ok(octets)
}

/// The options that were asked for, by code. Whether they may stand in this message the server says.
fn options(args: &Args, kind: u8, identifier: &[u8]) -> Result<Vec<(u16, Vec<u8>)>, Failure> {
    let mut options = vec![(3, identifier.to_vec())];
    let mut add =
        |code: u16, value: Option<Vec<u8>>| options.extend(value.map(|value| (code, value)));
    let four = |number: Option<u32>| number.map(|number| number.to_be_bytes().to_vec());
    add(1, four(args.number("lease")?));
    let server = args.address("server-id")?;
    add(
        2,
        server.map(|server| [&[0, 1][..], &server.octets()].concat()),
    );
    add(
        4,
        args.address("scope")?.map(|scope| scope.octets().to_vec()),
    );
    let wanted = args.read_as("want", "codes of options, as 9,11", |value| {
        let codes: Option<Vec<u16>> = value.split(',').map(|code| code.parse().ok()).collect();
        codes
    })?;
    let wanted = wanted.or((kind == GETINFO).then(|| vec![9, 11]));
    add(
        5,
        wanted.map(|codes| codes.iter().flat_map(|code| code.to_be_bytes()).collect()),
    );
    let (start, latest) = (args.time("start")?, args.time("latest")?);
    add(6, four(start));
    let counts = args.read_as("number", "a number or two, as 1-4", |value| {
        let (least, desired) = value.split_once('-').unwrap_or((value, value));
        let (least, desired): (u16, u16) = (least.parse().ok()?, desired.parse().ok()?);
        Some([least.to_be_bytes(), desired.to_be_bytes()].concat())
    })?;
    add(7, counts);
    add(8, args.value("language").map(|tag| tag.as_bytes().to_vec()));
    // Times are compared with the server's clock only beside the client's own.
    add(11, four((start.is_some() || latest.is_some()).then(now)));
    add(14, four(args.number("minimum")?));
    add(15, four(latest));
    options.sort_by_key(|option| option.0);
    Ok(options)
}

/// Sends, hears what is answered, and how long that took. The time counts from before the send: when that returns, a server on the same machine may have
/// answered already.
fn timed<S, H>(
    send: impl FnOnce() -> Result<S, Failure>,
    hear: impl FnOnce() -> Result<Option<H>, Failure>,
) -> Result<Option<(H, Duration)>, Failure> {
    let began = Instant::now();
    send()?;
    Ok(hear()?.map(|heard| (heard, began.elapsed())))
}

struct Asked {
    datagram: Vec<u8>,
    server: SocketAddrV4,
    from: SocketAddrV4,
    wait: Duration,
    tries: u32,
    is_hex: bool,
}

impl Asked {
    fn send(&self) -> Result<(), Failure> {
        let failed =
            |what: String| move |error: io::Error| Failure::Machine(format!("{what}: {error}"));
        let socket = UdpSocket::bind(self.from)
            .map_err(failed(format!("sending from {}", self.from.ip())))?;
        let (server, message) = (self.server, Message(&self.datagram));
        let from = match self.from.ip().is_unspecified() {
            true => String::new(),
            false => format!("{} ", self.from.ip()),
        };
        print(&format!("{from}to {server}: {message}\n"))?;
        if self.is_hex {
            print(&format!("  octets {}\n", quoted::hex(&self.datagram)))?;
        }
        let mut wait = self.wait;
        for attempt in 1..=self.tries {
            let send = || {
                let sent = socket.send_to(&self.datagram, server);
                sent.map_err(failed(format!("sending to {server}")))
            };
            let hear = || {
                let heard = self.hear(&socket, wait);
                heard.map_err(failed("receiving".to_owned()))
            };
            if let Some(((reply, from), took)) = timed(send, hear)? {
                return self.tell(&reply, from, took);
            }
            let next = if attempt < self.tries {
                "; sending it again"
            } else {
                ""
            };
            print(&format!(
                "no answer within {} s{next}\n",
                wait.as_secs_f64()
            ))?;
            wait = (2 * wait).min(LONGEST.max(self.wait));
        }
        let why = match message.kind() {
            DISCOVER | GETINFO => "is a server there? It is silent on what it can't meet or discards; its log says why",
            _ => "is a server there? It may have discarded the datagram, as where this address is in none of its houses; its log says why",
        };
        Err(Failure::Silence(format!("no answer from {server}: {why}")))
    }

    /// The first reply to what was sent.
    fn hear(
        &self,
        socket: &UdpSocket,
        wait: Duration,
    ) -> io::Result<Option<(Vec<u8>, SocketAddr)>> {
        let (until, mut room) = (Instant::now() + wait, vec![0; 65_536]);
        loop {
            let left = until.saturating_duration_since(Instant::now());
            if left.is_zero() {
                return Ok(None);
            }
            socket.set_read_timeout(Some(left.max(Duration::from_millis(1))))?;
            match socket.recv_from(&mut room) {
                Ok((length, from)) if self.is_answer(&Message(&room[..length])) => {
                    return Ok(Some((room[..length].to_vec(), from)));
                }
                Ok(_) => {}
                Err(error)
                    if matches!(
                        error.kind(),
                        ErrorKind::WouldBlock | ErrorKind::TimedOut | ErrorKind::Interrupted
                    ) => {}
                Err(error) => return Err(error),
            }
        }
    }

    fn is_answer(&self, reply: &Message) -> bool {
        let asked = Message(&self.datagram);
        let is_same =
            reply.transaction() == asked.transaction() && reply.value(3) == asked.value(3);
        is_same && matches!(reply.kind(), OFFER | ACK | NAK)
    }

    fn tell(&self, reply: &[u8], from: SocketAddr, took: Duration) -> Result<(), Failure> {
        let (message, took) = (Message(reply), took.as_secs_f64() * 1000.0);
        print(&format!(
            "answer from {from} after {took:.2} ms: {message}\n"
        ))?;
        if self.is_hex {
            print(&format!("  octets {}\n", quoted::hex(reply)))?;
        }
        match message.error() {
            Some(error) if message.kind() == NAK => Err(Failure::Refused(format!(
                "refused: error {error}, {}",
                message::error_name(error)
            ))),
            _ => Ok(()),
        }
    }
}

#[cfg(test)]
mod tests {
    use super::timed;
    use std::thread::sleep;
    use std::time::Duration;

    #[test]
    fn the_time_of_sending_counts() {
        let pause = Duration::from_millis(20);
        let send = || {
            sleep(pause);
            Ok(())
        };
        let answered = timed(send, || Ok(Some("ACK")));
        let (heard, took) = answered.expect("no failure").expect("an answer");
        assert!(heard == "ACK" && took >= pause, "{took:?}");
    }
}
