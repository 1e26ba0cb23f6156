//! A host that is killed at any instant under load: the campus file is accepted each time, and every acknowledged lease is in it.

#[path = "common/random.rs"]
mod random;
#[path = "common/running.rs"]
mod running;

use banshorra_host::campus::Campus;
use banshorra_host::message::{Message, RELEASE, RENEW, REQUEST};
use random::Random;
use running::*;
use std::collections::HashMap;
use std::net::SocketAddr;
use std::sync::atomic::{AtomicBool, AtomicUsize, Ordering};
use std::sync::Arc;
use std::thread;
use std::time::{Duration, Instant};

const KILLS: usize = 100;

/// What the server has acknowledged of an identifier: scope, start, end and addresses of a lease, or that it was released.
#[derive(Clone, Debug, PartialEq)]
enum Known {
    Leased(u32, u32, u32, Vec<(u32, u32)>),
    Released,
}

/// What one house knows, from kill to kill.
struct House {
    number: u8,
    random: Random,
    known: HashMap<Vec<u8>, Known>,
    /// The message whose answer has not come, to be sent again.
    open: Option<Vec<u8>>,
    next: u32,
    acknowledged: usize,
    again: usize,
}

impl House {
    fn new(number: u8) -> House {
        House {
            number,
            random: Random::new(number.into()),
            known: HashMap::new(),
            open: None,
            next: 0,
            acknowledged: 0,
            again: 0,
        }
    }

    /// Asks for leases, renews and releases them until the server is gone.
    fn work(&mut self, server: SocketAddr, is_over: &AtomicBool, heard: &AtomicUsize) {
        let client = Client::new(self.number, server);
        while !is_over.load(Ordering::Relaxed) {
            let datagram = match self.open.take() {
                Some(datagram) => {
                    self.again += 1;
                    datagram
                }
                None => self.wish(),
            };
            // Nothing is known of it until the answer comes.
            let id = Message(&datagram).value(3).expect("an identifier").to_vec();
            self.known.remove(&id);
            client.send(&datagram);
            let reply = loop {
                match client.hear(Duration::from_millis(10)) {
                    Some(reply) => break Some(reply),
                    None if is_over.load(Ordering::Relaxed) => break None,
                    None => {}
                }
            };
            match reply {
                Some(reply) => {
                    self.note(&datagram, &reply, id);
                    heard.fetch_add(1, Ordering::Relaxed);
                }
                None => self.open = Some(datagram),
            }
        }
    }

    fn wish(&mut self) -> Vec<u8> {
        self.next += 1;
        let leased = self
            .known
            .iter()
            .filter(|known| *known.1 != Known::Released);
        let mut leased: Vec<Vec<u8>> = leased.map(|known| known.0.clone()).collect();
        leased.sort();
        if leased.len() < 3 || (leased.len() < 12 && self.random.one_in(2)) {
            let id = [&[self.number][..], &self.next.to_be_bytes()].concat();
            let scope = SCOPE + 256 * self.random.below(4) as u32;
            return message(REQUEST, self.next, &id, &[in_scope(scope)]);
        }
        let id = &leased[self.random.below(leased.len())];
        match self.random.one_in(2) {
            true => message(
                RENEW,
                self.next,
                id,
                &[(1, (3600 + self.next).to_be_bytes().to_vec())],
            ),
            false => message(RELEASE, self.next, id, &[]),
        }
    }

    fn note(&mut self, datagram: &[u8], reply: &[u8], id: Vec<u8>) {
        let (kind, answer) = (Message(datagram).kind(), Message(reply));
        assert_eq!(answer.error(), None, "{} of {}", answer, Message(datagram));
        assert_eq!(answer.transaction(), Message(datagram).transaction());
        self.acknowledged += 1;
        let known = match (kind, answer.number(4), answer.number(6), answer.number(1)) {
            (RELEASE, ..) => Known::Released,
            (_, Some(scope), Some(start), Some(length)) => {
                Known::Leased(scope, start, start + length, answer.ranges())
            }
            _ => panic!("{answer}"),
        };
        self.known.insert(id, known);
    }

    /// Whether the file has all that is known.
    fn compare(&self, campus: &Campus, round: usize) {
        for (id, known) in &self.known {
            let lease = campus
                .leases
                .iter()
                .find(|lease| lease.order() == (self.number, id));
            let found = lease.map_or(Known::Released, |lease| {
                let lowest = campus.scope(lease.scope).expect("a scope").lowest;
                let runs = banshorra_host::text::runs(&lease.offsets).into_iter();
                let ranges =
                    runs.map(|(first, last)| (lowest + u32::from(first), lowest + u32::from(last)));
                Known::Leased(lowest, lease.start, lease.end, ranges.collect())
            });
            assert_eq!(&found, known, "kill {round}: {id:?}");
        }
    }
}

#[test]
fn a_hundred_kills() {
    let folder = Folder::new("kill");
    let file = folder.campus();
    let mut random = Random::new(9);
    let mut houses: Vec<House> = (1..=8).map(House::new).collect();
    let mut half_written = 0;
    for round in 1..=KILLS {
        // What a kill leaves is the same without the flush, and there is more of it.
        let options: &[&str] = if round % 2 == 0 {
            &["--quiet"]
        } else {
            &["--quiet", "--no-flush"]
        };
        let mut host = Running::start(&file, options);
        let (server, is_over) = (host.server, Arc::new(AtomicBool::new(false)));
        let heard = Arc::new(AtomicUsize::new(0));
        let working = houses.into_iter().map(|mut house| {
            let (is_over, heard) = (is_over.clone(), heard.clone());
            thread::spawn(move || {
                house.work(server, &is_over, &heard);
                house
            })
        });
        let working: Vec<_> = working.collect();
        // After some answers and then at any instant, so that a slow machine is killed at work as well.
        let (answers, late) = (random.below(12), Instant::now() + Duration::from_secs(2));
        while heard.load(Ordering::Relaxed) < answers && Instant::now() < late {
            thread::sleep(Duration::from_micros(200));
        }
        thread::sleep(Duration::from_micros(random.below(20_000) as u64));
        host.child.kill().expect("killed");
        host.child.wait().expect("ended");
        is_over.store(true, Ordering::Relaxed);
        houses = working
            .into_iter()
            .map(|house| house.join().expect("a house"))
            .collect();
        half_written += usize::from(folder.path("campus.bin.new").exists());
        let campus = on_disk(&file);
        for house in &houses {
            house.compare(&campus, round);
        }
    }
    let acknowledged: usize = houses.iter().map(|house| house.acknowledged).sum();
    let again: usize = houses.iter().map(|house| house.again).sum();
    println!("{acknowledged} acknowledged, {again} sent again after a kill, {half_written} times a new file was left behind");
    assert!(
        acknowledged > KILLS && again > KILLS,
        "{acknowledged} acknowledged, {again} sent again"
    );
    let host = Running::start(&file, &[]);
    let (status, _) = host.end();
    assert!(status.success());
}
