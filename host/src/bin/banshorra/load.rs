//! Load on a server: clients of every house at once, and what it takes.

use crate::args::{Args, Command, Failure};
use crate::files::{read, refused};
use crate::print;
use crate::serve::PORT;
use banshorra_host::campus::{Campus, Scope};
use banshorra_host::message::{self, Message};
use banshorra_host::message::{ACK, DISCOVER, GETINFO, NAK, RELEASE, RENEW, REQUEST};
use banshorra_host::CampusFile;
use std::net::{Ipv4Addr, SocketAddrV4, UdpSocket};
use std::thread;
use std::time::{Duration, Instant};

pub const COMMAND: Command = Command {
    name: "load",
    help: "\
banshorra load FILE [--server ADDRESS:PORT] [--houses N] [--clients N] [--mix exchange|all] [--rate N] [--seconds N] [--patience MILLISECONDS]

Puts a server under load from clients of the campus's houses, each sending from an address of its house (so try it with a campus whose houses are ranges of
127.0.0.0/8, as samples/loopback.txt). FILE is the campus file that it serves; only houses and scopes are read from it. A client in turn sends DISCOVER,
REQUEST and RELEASE, and with the RELEASE the next DISCOVER; an exchange is DISCOVER, OFFER, REQUEST, ACK. It says exchanges a second, what went unanswered, and response times,
counted from the sending: never too short, and too long by up to a round of the houses, a tenth of a millisecond at little load and some half as fast as it goes.

  --server ADDRESS:PORT    the server; 127.0.0.1:2535 if not given
  --houses N               only the first N houses
  --clients N              clients a house, up to 16, as a house has records; 4 if not given
  --mix exchange|all       `all` has a RENEW and a GETINFO in each turn besides
  --rate N                 exchanges a second; as fast as it goes if not given. Where it isn't reached that is said
  --seconds N              for how long; 10 if not given
  --patience MILLISECONDS  a message without an answer for so long is sent again and counts as lost; 1000 if not given
",
    flags: &[],
    valued: &["server", "houses", "clients", "mix", "rate", "seconds", "patience"],
    run: load,
};

/// The most clients of a house, as it has records.
const CLIENTS: usize = 16;
/// So much of a rate counts as reached.
const NEARLY: f64 = 0.98;
/// So many answers of a house are heard before the next house's turn.
const HEARD: usize = 64;
/// Where no answer has come, the houses are looked at again after so long; the system makes some 80 microseconds of it. Response times are no more exact than that.
const PAUSE: Duration = Duration::from_micros(20);
/// The same while none is waited for.
const IDLE: Duration = Duration::from_millis(1);

struct Plan {
    server: SocketAddrV4,
    /// The messages of a turn.
    turn: &'static [u8],
    /// Between the turns that a house begins; none as fast as it goes.
    pace: Option<Duration>,
    seconds: Duration,
    patience: Duration,
}

/// What a house's clients saw.
#[derive(Default)]
struct Seen {
    exchanges: u64,
    sent: u64,
    answered: u64,
    lost: u64,
    refused: u64,
    /// Of each answer, in microseconds.
    times: Vec<u32>,
}

fn load(args: &Args) -> Result<(), Failure> {
    let name = args.word("FILE")?;
    let within = |most: usize| {
        move |value: &str| {
            let number = value.parse().ok();
            number.filter(|number| (1..=most).contains(number))
        }
    };
    let clients = args.read_as("clients", "a number from 1 to 16", within(CLIENTS))?;
    let file = read(name)?;
    CampusFile::from_bytes(&file).map_err(|refusal| refused(name, &file, refusal))?;
    let campus = Campus::from_octets(&file).map_err(|fault| Failure::Refused(fault.to_string()))?;
    let houses = campus.houses.len();
    let expected = format!("a number from 1 to {houses}, as the campus has houses");
    let houses = args
        .read_as("houses", &expected, within(houses))?
        .unwrap_or(houses);
    let rate: Option<f64> = args.number("rate")?;
    let seconds: f64 = args.number("seconds")?.unwrap_or(10.0);
    if !(0.01..=86_400.0).contains(&seconds)
        || rate.is_some_and(|rate| !(0.01..=1e7).contains(&rate))
    {
        return args.usage("--seconds and --rate take numbers above 0");
    }
    let patience = args.read_as("patience", "milliseconds, up to an hour", |value| {
        let number = value.parse().ok();
        number.filter(|number| (1..=3_600_000).contains(number))
    })?;
    let plan = Plan {
        server: args.socket("server", Ipv4Addr::LOCALHOST, PORT)?,
        turn: match args.value("mix") {
            None | Some("exchange") => &[DISCOVER, REQUEST, RELEASE],
            Some("all") => &[DISCOVER, REQUEST, RENEW, GETINFO, RELEASE],
            Some(other) => {
                return args.usage(&format!("--mix takes exchange or all, not `{other}`"))
            }
        },
        pace: rate.map(|rate| Duration::from_secs_f64(houses as f64 / rate)),
        seconds: Duration::from_secs_f64(seconds),
        patience: Duration::from_millis(patience.unwrap_or(1000)),
    };
    let (began, clients) = (Instant::now(), clients.unwrap_or(4));
    let mut loads = vec![];
    for &(lowest, highest) in &campus.houses[..houses] {
        let socket = open(Ipv4Addr::from(lowest.saturating_add(5).min(highest)))?;
        let clients = (0..clients).map(|client| Client::new(client, plan.turn, &campus.scopes));
        loads.push(House {
            socket,
            clients: clients.collect(),
            waiting: vec![],
            seen: Seen::default(),
            number: 0,
            next: began,
        });
    }
    run(&plan, &mut loads);
    let seen: Vec<Seen> = loads.into_iter().map(|house| house.seen).collect();
    let took = began.elapsed().min(plan.seconds).as_secs_f64();
    print(&report(&seen, took, rate))?;
    match seen.iter().all(|seen| seen.answered == 0) {
        true => Err(Failure::Silence("nobody answered".to_owned())),
        false => Ok(()),
    }
}

/// A socket of a house, which doesn't wait.
fn open(address: Ipv4Addr) -> Result<UdpSocket, Failure> {
    let opened = UdpSocket::bind((address, 0)).and_then(|socket| {
        socket.set_nonblocking(true)?;
        Ok(socket)
    });
    opened.map_err(|error| {
        let hint =
            "the load comes from each house's own addresses, which have to be this machine's";
        Failure::Machine(format!("sending from {address}: {error}; {hint}"))
    })
}

/// What was seen in a time, in words; and whether the rate that was asked for is what came of it.
fn report(seen: &[Seen], seconds: f64, asked: Option<f64>) -> String {
    let sum = |of: fn(&Seen) -> u64| seen.iter().map(of).sum::<u64>();
    let (exchanges, sent, answered) = (sum(|s| s.exchanges), sum(|s| s.sent), sum(|s| s.answered));
    let (lost, refused) = (sum(|s| s.lost), sum(|s| s.refused));
    let mut times: Vec<u32> = seen
        .iter()
        .flat_map(|seen| seen.times.iter().copied())
        .collect();
    times.sort_unstable();
    let rate = exchanges as f64 / seconds;
    let mut text = format!(
        "exchanges {exchanges} in {seconds:.1} s: {rate:.0} a second\n\
         messages  {sent} sent, {answered} answered ({:.0} a second), {refused} of them NAK, {lost} lost\n\
         response  {}\n",
        answered as f64 / seconds,
        response(&times),
    );
    // At the end each house may be in an exchange that counts no more.
    let due = asked.map(|asked| asked * seconds * NEARLY - seen.len() as f64);
    if let (Some(asked), Some(due)) = (asked, due) {
        if (exchanges as f64) < due {
            text += &format!("rate      {asked} a second was asked for, and not reached\n");
        }
    }
    text
}

/// How long answers took, in microseconds from the shortest on; of none there is nothing to say.
fn response(times: &[u32]) -> String {
    let Some(last) = times.len().checked_sub(1) else {
        return "-".to_owned();
    };
    let at = |part: f64| {
        let place = (times.len() as f64 * part) as usize;
        f64::from(times[place.min(last)]) / 1000.0
    };
    format!(
        "50 % within {:.2} ms, 90 % {:.2}, 99 % {:.2}, 99.9 % {:.2}, all {:.2}",
        at(0.5),
        at(0.9),
        at(0.99),
        at(0.999),
        at(1.0)
    )
}

/// A message that waits for its answer.
struct Waiting {
    transaction: u32,
    client: usize,
    /// Which of the client's two identifiers it has.
    identifier: usize,
    /// Its place in the turn.
    at: usize,
    first_sent: Instant,
    sent: Instant,
}

struct Client {
    /// Whether it is in a turn.
    is_busy: bool,
    /// Which identifier it has then.
    identifier: usize,
    /// The messages of a turn with each of two identifiers, ready but for the transaction id.
    messages: [Vec<Vec<u8>>; 2],
}

impl Client {
    /// Two identifiers in turn: one is given back while the other is asked for. As clients' random ones do, they differ from the front on.
    fn new(number: usize, turn: &[u8], scopes: &[Scope]) -> Client {
        let (process, scope) = (std::process::id(), scopes[number % scopes.len()].lowest);
        let messages = [0, 1].map(|identifier| {
            let id = format!("\0{number:x}{identifier}-load-{process}").into_bytes();
            let message = |kind: &u8| {
                let more = match *kind {
                    DISCOVER | REQUEST => Some((4, scope.to_be_bytes().to_vec())),
                    GETINFO => Some((5, vec![0, 9])),
                    _ => None,
                };
                let options: Vec<_> = [(3, id.clone())].into_iter().chain(more).collect();
                message::draft(*kind, 0, &options)
            };
            turn.iter().map(message).collect()
        });
        Client {
            is_busy: false,
            identifier: 0,
            messages,
        }
    }

    /// Goes into a turn, with the other identifier.
    fn begin(&mut self) {
        self.is_busy = true;
        self.identifier = 1 - self.identifier;
    }
}

/// The clients of a house, and what they saw.
struct House {
    socket: UdpSocket,
    clients: Vec<Client>,
    waiting: Vec<Waiting>,
    seen: Seen,
    /// Counts messages, for transaction ids.
    number: u32,
    /// When the next turn is due.
    next: Instant,
}

/// Goes from house to house until the time is over and all is answered. It doesn't wait in a socket: to be woken for each answer would cost a switch each, on a
/// machine that the server may be on as well.
fn run(plan: &Plan, houses: &mut [House]) {
    let began = Instant::now();
    let (end, patience) = (began + plan.seconds, plan.patience);
    let (last, mut looked) = (end + 2 * patience, began);
    loop {
        let now = Instant::now();
        let is_over = now >= end;
        let is_waiting = houses.iter().any(|house| !house.waiting.is_empty());
        if is_over && (now >= last || !is_waiting) {
            return;
        }
        let mut heard = 0;
        for house in &mut *houses {
            if !is_over {
                house.begin(plan, now);
            }
            heard += house.hear(plan, is_over);
        }
        if now >= looked + patience / 4 {
            looked = now;
            for house in &mut *houses {
                house.resend(plan);
            }
        }
        if heard == 0 {
            // Not as before this round, which may have begun a turn.
            let is_waiting = houses.iter().any(|house| !house.waiting.is_empty());
            thread::sleep(if is_waiting { PAUSE } else { IDLE });
        }
    }
}

impl House {
    /// Begins the turns that are due.
    fn begin(&mut self, plan: &Plan, now: Instant) {
        for client in 0..self.clients.len() {
            if self.clients[client].is_busy {
                continue;
            }
            if let Some(pace) = plan.pace {
                if now < self.next {
                    return;
                }
                self.next += pace;
            }
            self.clients[client].begin();
            self.send(plan, client, 0);
        }
    }

    fn send(&mut self, plan: &Plan, client: usize, at: usize) {
        self.number = self.number.wrapping_add(1);
        let now = Instant::now();
        let waiting = Waiting {
            transaction: self.number,
            client,
            identifier: self.clients[client].identifier,
            at,
            first_sent: now,
            sent: now,
        };
        self.put(plan, &waiting);
        self.waiting.push(waiting);
    }

    fn put(&mut self, plan: &Plan, waiting: &Waiting) {
        self.seen.sent += 1;
        let messages = &mut self.clients[waiting.client].messages;
        let datagram = &mut messages[waiting.identifier][waiting.at];
        datagram[4..8].copy_from_slice(&waiting.transaction.to_be_bytes());
        // What could not be sent is as lost as what did not arrive.
        let _ = self.socket.send_to(datagram, plan.server);
    }

    /// Hears what has come, and goes on with the clients that it is for. Gives how many answers came.
    fn hear(&mut self, plan: &Plan, is_over: bool) -> usize {
        let mut room = [0; 2048];
        for heard in 0..HEARD {
            let Ok((length, _)) = self.socket.recv_from(&mut room) else {
                return heard;
            };
            let reply = Message(&room[..length]);
            let transaction = reply.transaction();
            let place = self
                .waiting
                .iter()
                .position(|waiting| Some(waiting.transaction) == transaction);
            if let Some(place) = place {
                let asked = self.waiting.swap_remove(place);
                self.go_on(plan, &asked, reply.kind(), is_over);
            }
        }
        HEARD
    }

    /// The next message of a turn. What ends it, the RELEASE, is not waited for: as fast as it goes, the next turn begins with it.
    fn go_on(&mut self, plan: &Plan, asked: &Waiting, kind: u8, is_over: bool) {
        let is_refused = kind == NAK;
        let took = asked.first_sent.elapsed().as_micros();
        self.seen
            .times
            .push(u32::try_from(took).unwrap_or(u32::MAX));
        self.seen.answered += 1;
        self.seen.refused += u64::from(is_refused);
        let (client, last) = (asked.client, plan.turn.len() - 1);
        self.seen.exchanges += u64::from(plan.turn[asked.at] == REQUEST && kind == ACK && !is_over);
        if asked.at == last {
            return;
        }
        if !is_refused {
            self.send(plan, client, asked.at + 1);
        }
        if is_refused || asked.at + 1 == last {
            self.clients[client].is_busy = false;
            if !is_over && plan.pace.is_none() {
                self.clients[client].begin();
                self.send(plan, client, 0);
            }
        }
    }

    /// Sends again what was not answered in time.
    fn resend(&mut self, plan: &Plan) {
        let (now, mut waiting) = (Instant::now(), std::mem::take(&mut self.waiting));
        for waiting in &mut waiting {
            if now >= waiting.sent + plan.patience {
                waiting.sent = now;
                self.seen.lost += 1;
                self.put(plan, waiting);
            }
        }
        self.waiting = waiting;
    }
}

#[cfg(test)]
mod tests {
    use super::{report, Seen};

    #[test]
    fn what_is_reported() {
        let seen = |exchanges: u64, times: &[u32]| Seen {
            exchanges,
            answered: times.len() as u64,
            times: times.to_vec(),
            ..Seen::default()
        };
        let two = [seen(500, &[3000, 1000]), seen(490, &[2000])];
        let words = report(&two, 10.0, None);
        assert!(words.starts_with("exchanges 990 in 10.0 s: 99 a second\n"));
        assert!(words.ends_with(
            "\nresponse  50 % within 2.00 ms, 90 % 3.00, 99 % 3.00, 99.9 % 3.00, all 3.00\n"
        ));
        assert_eq!(report(&two, 10.0, Some(100.0)), words);
        let rate = "rate      200 a second was asked for, and not reached\n";
        assert_eq!(report(&two, 10.0, Some(200.0)), format!("{words}{rate}"));
        let words = report(&[seen(0, &[])], 10.0, None);
        assert!(words.ends_with(" lost\nresponse  -\n"), "{words}");
    }
}
